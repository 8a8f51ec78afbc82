"""Reads a specification (docs/LANGUAGE.md) that breaks none of the rules 1 to 11, 18 and 19, and expands it.

It stands beside the program and shares nothing with it: what `tools/rows_of_scopes` tells rests on these trees."""
import re

TOKEN = re.compile(r"\s+|//[^\n]*|/\*.*?\*/|(?P<word>[A-Za-z_]\w*)|(?P<number>[0-9]+)|(?P<sign>[;,={}()\[\]|*+?~&:])",
                   re.S | re.A)
MOST_COUNTS, MOST_DEPTH, MOST_PLACES, MOST_INPUTS = 32768, 256, 4096, 10


class Refused(Exception):
    """A rule that is broken, and the span of its place."""

    def __init__(self, rule, span):
        super().__init__(f"spec refused rule {rule} at {span[0]}..{span[1]}")
        self.rule, self.span = rule, span


class Bad(Exception):
    """A text that this reader doesn't take."""


class Spec:
    """What is declared: inputs bit by bit, buses with their bits, actions, levels, productions and main."""

    def __init__(self):
        self.inputs, self.buses, self.actions, self.levels, self.prods, self.main = [], {}, [], [], {}, None


class Level:
    """A level: its name, what it starts with, and what actions set it to."""

    def __init__(self, name, start, sets):
        self.name, self.start, self.sets = name, start, sets


class Node:
    """A node of the expanded tree. Its subtree has the numbers from its own up to and with `last`."""

    def __init__(self, number, kind, span):
        self.number, self.kind, self.span, self.last = number, kind, span, number
        self.parts, self.term, self.place, self.action, self.scope = [], None, None, None, None

    def has(self, node):
        """Whether the node lies in this one: equals it or stands below it."""
        return self.number <= node.number <= self.last


class Reader:
    """The descent over the tokens. An expression is (kind, span, what it holds); a group has its brackets outside of
    the span of what it holds, so each call answers the node and the bytes from and to which its tokens go."""

    def __init__(self, text):
        self.tokens, at = [], 0
        while at < len(text):
            found = TOKEN.match(text, at)
            if not found:
                raise Bad(f"no token at {at}")
            if found.lastgroup:
                self.tokens.append((found.group(), found.start(), found.end()))
            at = found.end()
        self.at, self.end = 0, 0

    def peek(self):
        return self.tokens[self.at][0] if self.at < len(self.tokens) else ""

    def take(self, wanted=None):
        word = self.peek()
        if word == "" or (wanted is not None and word != wanted):
            raise Bad(f"{wanted or 'a token'} is wanted behind byte {self.end}")
        self.start, self.end = self.tokens[self.at][1:]
        self.at += 1
        return word

    def took(self, word):
        if self.peek() != word:
            return False
        self.take()
        return True

    def spec(self):
        spec = Spec()
        self.take("spec"), self.take(), self.take(";")
        while self.peek() != "main":
            {"input": self.inputs, "action": self.actions, "level": self.level, "prod": self.prod}[self.take()](spec)
        self.take("main"), self.take("=")
        spec.main = self.expr()[0]
        self.take(";")
        return spec

    def inputs(self, spec):
        while True:
            name = self.take()
            bits = [name]
            if self.took(":"):
                bits = spec.buses[name] = [f"{name}_{n}" for n in range(int(self.take()))]
            spec.inputs += bits
            if not self.took(","):
                break
        self.take(";")

    def actions(self, spec):
        spec.actions.append(self.take())
        while self.took(","):
            spec.actions.append(self.take())
        self.take(";")

    def level(self, spec):
        name = self.take()
        self.take("=")
        level = Level(name, self.take() == "1", {})
        self.take("{")
        while not self.took("}"):
            action = self.take()
            self.take(":")
            level.sets[action] = self.take() == "1"
            self.take(";")
        spec.levels.append(level)

    def prod(self, spec):
        name = self.take()
        self.take("=")
        spec.prods[name] = self.expr()[0]
        self.take(";")

    def listed(self, sign, kind, part):
        """Parts with a sign between them; a single one is that one."""
        node, start, end = part()
        nodes = [node]
        while self.took(sign):
            node, _, end = part()
            nodes.append(node)
        return ((kind, (start, end), nodes) if len(nodes) > 1 else nodes[0]), start, end

    def expr(self):
        return self.listed("|", "choice", lambda: self.listed(",", "seq", self.item))

    def item(self):
        node, start, end = self.prim()
        if self.peek() in ("*", "+", "?"):
            kind = {"*": "star", "+": "plus", "?": "option"}[self.take()]
            return (kind, (start, self.end), node), start, self.end
        if self.took("{"):
            least = int(self.take())
            self.take(",")
            most = int(self.take())
            self.take("}")
            return ("repeat", (start, self.end), node, least, most), start, self.end
        return node, start, end

    def prim(self):
        if self.peek() == "(":
            return self.group()
        word = self.take()
        start = self.start
        if word == "[":
            held = ("terminal", self.term())
            self.take("]")
        elif word == "{":
            held = ("action", self.take())
            self.take("}")
        elif word == "hold":
            self.take("[")
            term = self.term()
            self.take("]"), self.take(":")
            held = ("hold", term, self.group()[0])
        elif word == "try":
            body = self.group()[0]
            self.take("abort")
            trap = self.group()[0]
            self.take("then")
            held = ("scope", body, trap, self.group()[0])
        else:
            held = ("name", word)
        return (held[0], (start, self.end), *held[1:]), start, self.end

    def group(self):
        self.take("(")
        start = self.start
        if self.took(")"):
            return ("empty", (start, self.end)), start, self.end
        node = self.expr()[0]
        self.take(")")
        return node, start, self.end

    def term(self):
        parts = [self.all()]
        while self.took("|"):
            parts.append(self.all())
        return ("any", parts) if len(parts) > 1 else parts[0]

    def all(self):
        parts = [self.unit()]
        while self.took("&"):
            parts.append(self.unit())
        return ("all", parts) if len(parts) > 1 else parts[0]

    def unit(self):
        word = self.take()
        if word == "~":
            return ("not", self.unit())
        if word == "(":
            term = self.term()
            self.take(")")
            return term
        if word in ("0", "1"):
            return ("bit", word == "1")
        return ("equal", word, int(self.take())) if self.took("=") else ("name", word)


def halved(kind, items, leaf):
    """Items as nodes of two parts, the left one with the first half, rounded up."""
    if len(items) == 1:
        return leaf(items[0])
    half = (len(items) + 1) // 2
    return (kind, halved(kind, items[:half], leaf), halved(kind, items[half:], leaf))


def size_of(term):
    return 1 + sum(size_of(it) for it in term[1:] if isinstance(it, tuple))


def inputs_of(term):
    return {term[1]} if term[0] == "input" else set().union(*(inputs_of(it) for it in term[1:] if isinstance(it, tuple)))


class Expansion:
    """The walk that makes the tree, and the places, scopes and nodes that it numbers."""

    def __init__(self, spec):
        self.spec, self.counts, self.deepest = spec, 0, 0
        self.nodes, self.places, self.scopes = [], [], []
        self.index = {name: n for n, name in enumerate(spec.inputs)}
        self.held = []
        self.effective = []
        self.root = self.visit(spec.main, 1)
        for place, terms in zip(self.places, self.effective):
            if len(set().union(*map(inputs_of, terms))) > MOST_INPUTS:
                raise Refused(13, place.span)

    def term(self, term):
        """Terms as they are compared: constants, inputs by number, `not`, and `and` and `or` of two."""
        kind = term[0]
        if kind == "bit":
            return ("const", term[1])
        if kind == "name":
            return ("input", self.index[term[1]])
        if kind == "not":
            return ("not", self.term(term[1]))
        if kind == "equal":
            bits = [("input", self.index[name]) for name in self.spec.buses[term[1]]]
            literals = [bit if term[2] >> n & 1 else ("not", bit) for n, bit in enumerate(bits)]
            return halved("and", literals, lambda it: it)
        return halved({"all": "and", "any": "or"}[kind], term[1], self.term)

    def count(self, span, depth, more=1):
        self.counts += more
        self.deepest = max(self.deepest, depth)
        if self.counts > MOST_COUNTS or depth > MOST_DEPTH or len(self.places) > MOST_PLACES:
            raise Refused(12, span)

    def node(self, kind, span):
        node = Node(len(self.nodes), kind, span)
        self.nodes.append(node)
        return node

    def visit(self, expr, depth):
        kind, span = expr[:2]
        if kind == "name":
            self.count(span, depth)
            return self.visit(self.spec.prods[expr[2]], depth + 1)
        if kind == "repeat":
            return self.visit(self.repeated(*expr[1:]), depth)
        if kind in ("plus", "option"):
            rest = ("star", span, expr[2]) if kind == "plus" else ("empty", span)
            return self.visit(("pair", span, "seq" if kind == "plus" else "choice", expr[2], rest), depth)
        if kind in ("seq", "choice"):
            return self.visit(self.binary(kind, span, expr[2]), depth)
        if kind == "pair":
            return self.made(self.node(expr[2], span), expr[3:], depth)
        return self.single(expr, depth)

    def made(self, node, parts, depth):
        self.count(node.span, depth)
        node.parts = [self.visit(it, depth + 1) for it in parts]
        node.last = len(self.nodes) - 1
        return node

    def single(self, expr, depth):
        kind, span = expr[:2]
        node = self.node(kind, span)
        if kind == "terminal":
            node.place, node.term = len(self.places), self.term(expr[2])
            self.places.append(node)
            self.effective.append((*self.held, node.term))
            self.count(span, depth, 1 + size_of(node.term))
            return node
        if kind == "action":
            node.action = self.spec.actions.index(expr[2])
        if kind == "scope":
            node.scope = len(self.scopes)
            self.scopes.append(node)
        if kind == "hold":
            node.term = self.term(expr[2])
            self.count(span, depth, size_of(node.term))
            self.held.append(node.term)
            self.made(node, expr[3:], depth)
            self.held.pop()
            return node
        return self.made(node, expr[2:] if kind in ("star", "scope") else (), depth)

    def binary(self, kind, span, items):
        if len(items) == 1:
            return items[0]
        half = (len(items) + 1) // 2
        parts = [self.binary(kind, (it[0][1][0], it[-1][1][1]), it) for it in (items[:half], items[half:])]
        return ("pair", span, kind, *parts)

    def repeated(self, span, body, least, most):
        def copies(count):
            if count == 1:
                return body
            half = (count + 1) // 2
            return ("pair", span, "seq", copies(half), copies(count - half))

        more = None
        for _ in range(most - least):
            more = ("pair", span, "choice", ("pair", span, "seq", body, more) if more else body, ("empty", span))
        if least == 0:
            return more
        return copies(least) if more is None else ("pair", span, "seq", copies(least), more)


def expanded(text):
    """The specification of a text and its expansion."""
    spec = Reader(text).spec()
    return spec, Expansion(spec)
