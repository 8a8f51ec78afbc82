"""Files of worked rows in the notation of docs/ROWS.md, read and written."""
MOST_COLUMNS = 120


class Row:
    """A worked row: its line, its words, its files (a text, or the words that write it), and what must come."""

    def __init__(self, line, words):
        self.line, self.words, self.files, self.status, self.out = line, words, {}, None, ""
        self.limits = False


def piece_of(line, texts):
    """The bytes of a text line, or None where the line is none."""
    sign, _, rest = line.partition(" ")
    if sign == "|":
        return rest + "\n"
    if sign == "-":
        return rest
    if sign == "x":
        return bytes.fromhex(rest).decode("latin-1")
    if sign == "*":
        count, _, again = rest.partition(" ")
        return int(count) * piece_of(again, texts)
    if sign == "=":
        name, _, span = rest.partition(" ")
        start, _, end = span.partition("..")
        return texts[name][int(start):int(end)] if span else texts[name]
    return None


class RowFile:
    """The rows of a file."""

    def __init__(self, path):
        self.rows, self.texts, self.row, self.put = [], {}, None, None
        with open(path, encoding="latin-1") as file:
            for number, line in enumerate(file.read().split("\n"), 1):
                self.take(number, line)

    def take(self, number, line):
        if line.startswith("#"):
            return
        if not line:
            self.row = self.put = None
            return
        piece = piece_of(line, self.texts)
        if piece is not None:
            self.put(piece)
        elif self.row is None:
            self.begin(number, line)
        else:
            self.add(line)

    def begin(self, number, line):
        kind, _, rest = line.partition(" ")
        if kind == "text":
            name, _, piece = rest.partition(" ")
            self.texts[name] = ""
            self.put_into(self.texts, name, piece)
        elif kind == "words":
            self.row = Row(number, rest.split())
            self.rows.append(self.row)
        else:
            raise SystemExit(f"line {number} begins nothing: {line}")

    def put_into(self, place, name, piece):
        """What the text lines that follow belong to."""
        def put(more):
            place[name] += more
        self.put = put
        if piece:
            put(piece_of(piece, self.texts))

    def add(self, line):
        kind, _, rest = line.partition(" ")
        if kind == "file":
            name, _, piece = rest.partition(" ")
            if piece.startswith("by "):
                self.row.files[name] = piece.split()[1:]
                return
            self.row.files[name] = ""
            self.put_into(self.row.files, name, piece)
        elif kind == "out":
            self.put_into(vars(self.row), "out", rest)
        elif kind == "status":
            self.row.status = int(rest)
        elif kind == "word":
            self.row.words.append(rest)
        else:
            self.row.limits = self.row.limits or kind in ("room", "shelf", "sink")


def written(lead, text):
    """Lines that give a text without a newline, broken at spaces: behind the lead where it is short enough."""
    if len(lead) + 3 + len(text) <= MOST_COLUMNS:
        return [f"{lead} - {text}"]
    lines = [lead]
    while text:
        room = MOST_COLUMNS - 2
        cut = len(text) if len(text) <= room else text.rindex(" ", 0, room)
        lines.append(f"- {text[:cut]}")
        text = text[cut:]
    return lines


def row_of(words, text, entries, inputs, status, out):
    """The lines of a row. Entries are the vectors and resets of its second file, or None where it has one file."""
    lines = [f"words {words}", *written("file s", text)]
    if entries is not None:
        lines += ["file t", "| " + " ".join(["trace", *(f"i_{it}" for it in inputs)])]
        lines += ["| " + ("r" if it is None else "".join("01"[bit] for bit in it)) for it in entries]
    lines.append(f"status {status}")
    return lines + ([f"out | {out[0]}"] if len(out) == 1 else ["out", *(f"| {it}" for it in out)])
