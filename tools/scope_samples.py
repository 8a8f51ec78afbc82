"""Random specifications with scopes, and traces for them on which something is aborted."""
import re

from scope_rules import Run, check_scopes, since_reset
from spec_tree import Refused, expanded

INPUTS = ("a", "b", "c")
ACTIONS = ("x", "y", "z")
MOST_BYTES, MOST_PLACES, ROWS = 190, 12, (6, 7)


class Grower:
    """Grows the text of an expression, by chance."""

    def __init__(self, chance):
        self.chance = chance

    def term(self):
        first, second = self.chance.sample(INPUTS, 2)
        return self.chance.choice((first, f"~{first}", first, f"~{first}", "1", f"{first} & {second}",
                                   f"{first} | {second}", f"~{first} & {second}"))

    def wait(self):
        name = self.chance.choice(INPUTS)
        return f"[~{name}]*, [{name}]"

    def trap(self):
        steps = ["[1]", f"[{self.term()}]"]
        return self.chance.choice((self.wait(), f"[{self.term()}]", self.wait(), f"[{self.term()}]+",
                                   ", ".join(self.chance.choices(steps, k=2)),
                                   ", ".join(self.chance.choices(steps, k=3)),
                                   f"[{self.term()}] | [{self.term()}], [{self.term()}]"))

    def action(self):
        return f"{{{self.chance.choice(ACTIONS)}}}"

    def scope(self, depth):
        body = f"{self.solid(depth)}, {self.action()}" if self.chance.random() < 0.7 else self.solid(depth)
        after = self.chance.choice(("", self.action(), self.action(), f"{self.action()}, [{self.term()}]", self.wait(),
                                    self.any(depth)))
        return f"try ({body}) abort ({self.trap()}) then ({after})"

    def solid(self, depth):
        """What takes a vector at least."""
        if depth == 0:
            return self.chance.choice((f"[{self.term()}]", self.wait(), f"[{self.term()}], {self.action()}"))
        form = self.chance.randrange(9)
        if form < 2:
            return f"[{self.term()}], {self.action()}, {self.solid(depth - 1)}"
        if form == 2:
            return f"{self.wait()}, {self.action()}, {self.solid(depth - 1)}"
        if form == 3:
            return f"({self.solid(depth - 1)} | {self.solid(depth - 1)}), {self.action()}"
        if form == 4:
            return f"({self.solid(depth - 1)})+"
        if form == 5:
            return f"hold [{self.term()}] : ({self.solid(depth - 1)})"
        if form == 6:
            return self.solid(depth - 1)
        return self.scope(depth - 1)

    def any(self, depth):
        """What may take no vector too."""
        form = self.chance.randrange(6)
        if form == 0:
            return f"({self.solid(max(depth - 1, 0))})*, {self.action()}"
        if form == 1:
            return f"({self.solid(max(depth - 1, 0))})?"
        return self.solid(max(depth - 1, 0))

    def main(self):
        form = self.chance.randrange(6)
        if form == 0:
            return self.scope(2)
        if form == 1:
            return f"{self.any(1)}, {self.scope(2)}"
        if form == 2:
            return f"{self.scope(1)}, {self.any(1)}, {self.action()}"
        return f"({self.scope(2)})*"


class Sample:
    """A specification of a kind: `scopes` and `nested` are accepted and have a trace, `overlaps` breaks rule 16."""

    def __init__(self, kind, chance):
        self.kind, self.chance, self.entries = kind, chance, None
        while not self.grows():
            pass

    def grows(self):
        self.refused, main = None, Grower(self.chance).main()
        names = set(re.findall(r"\b[a-z]\b", main))
        inputs, actions = sorted(names & set(INPUTS)), sorted(names & set(ACTIONS))
        if not inputs or not actions:
            return False
        self.text = f"spec 1; input {', '.join(inputs)}; action {', '.join(actions)}; main = {main};"
        if len(self.text) > MOST_BYTES:
            return False
        self.spec, self.expansion = expanded(self.text)
        if len(self.expansion.places) > MOST_PLACES or not self.has_shape():
            return False
        try:
            check_scopes(self.expansion)
        except Refused as refused:
            self.refused = refused
        if self.kind == "overlaps":
            return self.refused is not None
        return self.refused is None and self.finds_trace()

    def has_shape(self):
        scopes = self.expansion.scopes
        nested = any(p is not q and p.has(q) for p in scopes for q in scopes)
        return {"scopes": not nested, "nested": nested, "overlaps": True}[self.kind]

    def finds_trace(self):
        for _ in range(40):
            count = self.chance.randint(*ROWS)
            self.entries = [[self.chance.random() < 0.5 for _ in self.spec.inputs] for _ in range(count)]
            if self.chance.random() < 0.8:
                self.entries[self.chance.randrange(1, count - 2)] = None
            if self.is_telling():
                return True
        return False

    def is_telling(self):
        """Whether a live instance is aborted, and actions fire in three rows, and two of them where there are two."""
        aborted, fired, rows = False, set(), 0
        for count in range(len(self.entries) + 1):
            vectors = since_reset(self.entries, count)
            run, root, k = Run(vectors), self.expansion.root, len(vectors)
            found = {n for n in range(len(self.spec.actions)) if run.fires(n, root, 0, k)}
            fired |= found
            rows += 1 if found else 0
            for scope in self.expansion.scopes:
                aborted = aborted or any(run.live(scope, j, root, 0, k - 1) and run.abort(scope, j, k) == k
                                         for j in range(k))
        return aborted and rows > 2 and len(fired) >= min(2, len(self.spec.actions))
