"""What files of definitions and proofs say: their imports, their blocks, and what each block cites."""
import os
import re
from collections import defaultdict

WORD = re.compile(r"[^\W\d][\w]*(?:-[^\W\d]\w*)*")
MARKS = ("abbrev", "pub", "unfoldable", "record", "data", "mutual", "opaque")
HEAD = re.compile(r"^((?:%s) )*([^\W\d][\w\-]*)" % "|".join(MARKS))
MEMBER = re.compile(r"^\s+((?:%s) )*([^\W\d][\w\-]*)(?: .*)? :" % "|".join(MARKS))
IMPORT = re.compile(r"(?:ghost )?use Rattle\.([\w.]+?)(?:\.\{([^}]*)\})?(?: as (\w+))?;?\s*$", re.M)
COMMENT = re.compile(r"(^|\s)(--|//).*$")


def text_of(path):
    with open(path, encoding="utf-8") as file:
        return file.read()


def files_below(part, ending):
    """The files of that ending in that part of each crate, what rt makes left out."""
    for crate in sorted(os.listdir("crates")):
        for folder, _, names in os.walk(f"crates/{crate}/{part}"):
            yield from (f"{folder}/{name}" for name in sorted(names) if name.endswith(ending))


def module_of(path):
    return path[len("crates/"):].rpartition(".")[0].replace("/", ".")


class Imports:
    """What the `use` lines of a file bring: names with their modules, and modules under other names."""

    def __init__(self, text):
        self.names, self.modules = {}, {}
        for module, names, alias in IMPORT.findall(text):
            for name in filter(None, (it.strip() for it in names.split(","))):
                old, _, new = name.partition(" as ")
                self.names[new or old] = module, old
            if alias:
                self.modules[alias] = module

    def cited(self, text):
        """The pairs of module and name that the text cites by these imports."""
        found = {self.names[it] for it in set(WORD.findall(text)) if it in self.names}
        for alias, module in self.modules.items():
            found |= {(module, it) for it in re.findall(r"\b%s\.([^\W\d][\w\-]*)" % alias, text)}
        return found


class Definitions:
    """The blocks of a file of definitions, each a list of lines, and the block in which each name stands."""

    def __init__(self, path):
        text = text_of(path)
        self.path, self.imports = path, Imports(text)
        self.blocks, self.owner, self.records, current = defaultdict(list), {}, set(), None
        for line in text.split("\n"):
            current = self.block_of(line, current)
            if current is None:
                continue
            if line.strip() and not line.strip().startswith("--"):
                self.blocks[current].append(COMMENT.sub("", line))
            self.owner.setdefault(current, current)
            found = self.declared(line, current)
            if found:
                self.owner.setdefault(found[2], current)
            if found and "record " in line and not line[:1].isspace():
                self.records.add(current)

    def declared(self, line, current):
        """The name that a line declares, which is no field of a record."""
        if not line[:1].isspace():
            return HEAD.match(line)
        return None if current in self.records else MEMBER.match(line)

    def block_of(self, line, current):
        """The block of a line: a definition's own name, with its equations."""
        starts = line and not line[0].isspace() and line[0] not in "])}|"
        if not starts or line.startswith(("--", "unfolding ")):
            return current
        if line.startswith(("use ", "pub use ", "mod ", "pub mod ")):
            return None
        if line.startswith("mutual"):
            return f"{line} {len(self.blocks)}"
        found = HEAD.match(line)
        return found[2] if found else current

    def cited(self, block):
        text = "\n".join(self.blocks[block])
        own = {self.owner[it] for it in set(WORD.findall(text)) if it in self.owner}
        return self.imports.cited(text), own - {block}
