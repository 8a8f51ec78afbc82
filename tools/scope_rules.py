"""What a tree means and which scopes overlap, by the definitions of docs/LANGUAGE.md alone.

Nothing here follows the program: derivations are read off stretches of the inputs, and double walks are followed from
pair to pair of places. It is slow and made to be compared with, and it is for terms over few inputs."""
from spec_tree import Bad, Refused, inputs_of

MOST_EDGES, MOST_TERMS, MOST_TABLE = 16384, 256, 16


def true_in(term, vector):
    """Whether a term is true in a vector, whose n-th item is the input with number n."""
    kind = term[0]
    if kind == "const":
        return term[1]
    if kind == "input":
        return vector[term[1]]
    if kind == "not":
        return not true_in(term[1], vector)
    return (all if kind == "and" else any)(true_in(it, vector) for it in term[1:])


class Run:
    """What a tree covers, where it is alive, what stands and what fires, over a list of vectors."""

    def __init__(self, vectors):
        self.vectors, self.known = vectors, {}

    def keep(self, key, find):
        if key not in self.known:
            self.known[key] = find()
        return self.known[key]

    def holds(self, term, start, end):
        return all(true_in(term, it) for it in self.vectors[start:end])

    def covers(self, node, i, j):
        return self.keep(("covers", node.number, i, j), lambda: self.find_covers(node, i, j))

    def find_covers(self, node, i, j):
        kind, parts = node.kind, node.parts
        if kind in ("empty", "action"):
            return i == j
        if kind == "terminal":
            return j == i + 1 and true_in(node.term, self.vectors[i])
        if kind == "seq":
            return any(self.covers(parts[0], i, m) and self.covers(parts[1], m, j) for m in range(i, j + 1))
        if kind == "choice":
            return self.covers(parts[0], i, j) or self.covers(parts[1], i, j)
        if kind == "star":
            return i == j or any(self.covers(parts[0], i, m) and self.covers(node, m, j) for m in range(i + 1, j + 1))
        if kind == "hold":
            return self.covers(parts[0], i, j) and self.holds(node.term, i, j)
        body, _, after = parts
        m = self.abort(node, i, j)
        return self.covers(body, i, j) if m is None else self.covers(after, m, j)

    def abort(self, scope, i, k):
        """The abort position, up to and with k, of the instance of a scope that begins at i."""
        return self.keep(("abort", scope.number, i, k), lambda: self.find_abort(scope, i, k))

    def find_abort(self, scope, i, k):
        body, trap, _ = scope.parts
        for m in range(i + 1, k + 1):
            if self.covers(trap, i, m) and self.alive(body, i, m - 1):
                return m
        return None

    def passing(self, prop, node, i, k):
        """A property of a node from i at k that is one of its part that stands there."""
        kind, parts = node.kind, node.parts
        if kind in ("empty", "action", "terminal"):
            return False
        if kind == "seq":
            later = (m for m in range(i, k + 1) if self.covers(parts[0], i, m))
            return prop(parts[0], i, k) or any(prop(parts[1], m, k) for m in later)
        if kind == "choice":
            return prop(parts[0], i, k) or prop(parts[1], i, k)
        if kind == "star":
            return any(prop(parts[0], m, k) for m in range(i, k + 1) if self.covers(node, i, m))
        if kind == "hold":
            return prop(parts[0], i, k) and self.holds(node.term, i, k)
        m = self.abort(node, i, k)
        return prop(parts[0], i, k) if m is None else prop(parts[2], m, k)

    def alive(self, node, i, k):
        def find():
            return k == i if node.kind == "terminal" else self.passing(self.alive, node, i, k)
        return self.keep(("alive", node.number, i, k), find)

    def stands(self, place, node, i, k):
        """Whether a place, which is a node, stands at k in a node that begins at i."""
        def in_part(part, start, end):
            return self.stands(place, part, start, end)

        def find():
            if not node.has(place):
                return False
            if node.kind == "terminal":
                return k == i
            if node.kind == "scope" and node.parts[1].has(place):
                body, trap, _ = node.parts
                return in_part(trap, i, k) and self.abort(node, i, k) is None and self.alive(body, i, k)
            return self.passing(in_part, node, i, k)
        return self.keep(("stands", place.number, node.number, i, k), find)

    def fires(self, action, node, i, k):
        """Whether an action, by its number, fires at k in a node that begins at i."""
        def in_part(part, start, end):
            return self.fires(action, part, start, end)

        def find():
            if node.kind == "action":
                return node.action == action and k == i
            return self.passing(in_part, node, i, k)
        return self.keep(("fires", action, node.number, i, k), find)

    def live(self, scope, begun, node, i, k):
        """Whether the instance of a scope that began at `begun` is live at k in a node that begins at i."""
        def in_part(part, start, end):
            return self.live(scope, begun, part, start, end)

        def find():
            if not node.has(scope):
                return False
            if node is scope and i == begun and self.abort(scope, i, k) is None and self.alive(scope.parts[0], i, k):
                return True
            return self.passing(in_part, node, i, k)
        return self.keep(("live", scope.number, begun, node.number, i, k), find)


def since_reset(entries, count):
    """The vectors behind the last reset among the first entries; a reset is None."""
    first = max((n + 1 for n in range(count) if entries[n] is None), default=0)
    return entries[first:count]


def fired_rows(spec, root, entries):
    """For each row the actions that fire in it."""
    rows = []
    for count in range(len(entries) + 1):
        vectors = since_reset(entries, count)
        run = Run(vectors)
        rows.append([n for n in range(len(spec.actions)) if run.fires(n, root, 0, len(vectors))])
    return rows


def level_rows(spec, entries, fired_in):
    """For each row the levels that are 1 after it: the fold over the rows since the last reset and, in each, over the
    actions that fire, in declared order, from the initial value."""
    rows = []
    for count in range(len(entries) + 1):
        first, ones = count - len(since_reset(entries, count)), []
        for level in spec.levels:
            value = level.start
            for fired in fired_in[first:count + 1]:
                for action in (spec.actions[n] for n in fired):
                    value = level.sets.get(action, value)
            ones += [level.name] if value else []
        rows.append(ones)
    return rows


def report_of(spec, root, entries):
    fired_in, lines = fired_rows(spec, root, entries), []
    for count, ones in enumerate(level_rows(spec, entries, fired_in)):
        shown = [f"a_{spec.actions[n]}" for n in fired_in[count]] + [f"o_{name}" for name in ones]
        lines.append(f"{count} " + (" ".join(shown) or "-"))
    return lines + [f"end {len(entries)}"]


class Edges:
    """The edges of a tree: (from, to, node), places by number; a start edge has no place from and no node."""

    def __init__(self, expansion):
        self.expansion = expansion
        self.nodes, self.places, self.scopes = expansion.nodes, expansion.places, expansion.scopes
        self.nullable, self.firsts, self.lasts = {}, {}, {}
        for node in reversed(self.nodes):
            self.note(node)
        self.starts = [(None, it, None) for it in self.firsts[0]]
        self.follows = sorted({edge for node in self.nodes for edge in self.of_node(node)})
        self.leaving = {}
        for edge in self.follows:
            self.leaving.setdefault(edge[0], []).append(edge)

    def note(self, node):
        kind, own = node.kind, [it.number for it in node.parts]
        empty = [self.nullable[it] for it in own]
        first, last = [self.firsts[it] for it in own], [self.lasts[it] for it in own]
        if kind == "terminal":
            found = False, [node.place], [node.place]
        elif kind in ("empty", "action"):
            found = True, [], []
        elif kind == "seq":
            found = all(empty), first[0] + first[1] * empty[0], last[1] + last[0] * empty[1]
        elif kind == "choice":
            found = any(empty), first[0] + first[1], last[0] + last[1]
        elif kind == "scope":
            found = empty[0], first[0] + first[1], last[0] + last[2] + last[1] * empty[2]
        else:
            found = kind == "star" or empty[0], first[0], last[0]
        self.nullable[node.number] = found[0]
        self.firsts[node.number], self.lasts[node.number] = sorted(found[1]), sorted(found[2])

    def of_node(self, node):
        pair = {"seq": (0, 1), "star": (0, 0), "scope": (1, 2)}.get(node.kind)
        if pair is None:
            return []
        left, right = (node.parts[it].number for it in pair)
        return [(p, q, node.number) for p in self.lasts[left] for q in self.firsts[right]]

    def in_part(self, place, scope, part):
        return scope.parts[part].has(self.places[place])

    def aborts(self, edge):
        """The scopes that an edge aborts, by number."""
        start, _, node = edge
        if node is None:
            return set()
        return {it.scope for it in self.scopes if self.in_part(start, it, 1) and self.nodes[node].has(it)}

    def leaves(self, edge):
        """The scopes that hold, in their body or trap, the place that an edge leaves."""
        return {it.scope for it in self.scopes if self.in_part(edge[0], it, 0) or self.in_part(edge[0], it, 1)}

    def enters(self, edge):
        _, end, node = edge
        if node is None:
            return set()
        return {it.scope for it in self.scopes if it.number != node and self.nodes[node].has(it)
                and (self.in_part(end, it, 0) or self.in_part(end, it, 1))}

    def lies_inside(self, edge):
        node = edge[2]
        return set() if node is None else {it.scope for it in self.scopes if it.parts[0].has(self.nodes[node])}


class Walks:
    """The double walks of a tree: each pair of places that one ends in, with the step that first led to it."""

    def __init__(self, edges):
        self.edges, self.came, self.broken = edges, {}, {}
        self.facts = {it: [find(it) for find in (edges.aborts, edges.leaves, edges.lies_inside, edges.enters)]
                      for it in edges.follows}
        self.tables = self.truths()
        left = [(d[1], e[1]) for d in edges.starts for e in edges.starts]
        self.came = dict.fromkeys(left)
        for pair in left:
            for step in self.steps(pair):
                self.note(step)
                after = step[0][1], step[1][1]
                if after not in self.came:
                    self.came[after] = step
                    left.append(after)

    def truths(self):
        """For each place the set of the vectors in which its effective term is true, as the bits of a number."""
        effective = self.edges.expansion.effective
        used = sorted(set().union(*(inputs_of(it) for terms in effective for it in terms)))
        if len(used) > MOST_TABLE:
            raise Bad("too many inputs")
        size = max(used, default=-1) + 1
        vectors = [[0] * size for _ in range(1 << len(used))]
        for number, vector in enumerate(vectors):
            for bit, name in enumerate(used):
                vector[name] = number >> bit & 1
        return [sum(1 << n for n, it in enumerate(vectors) if all(true_in(term, it) for term in terms))
                for terms in effective]

    def steps(self, pair):
        """The two edges of each step that a double walk can take from a pair of places."""
        if not self.tables[pair[0]] & self.tables[pair[1]]:
            return
        for d in self.edges.leaving.get(pair[0], ()):
            for e in self.edges.leaving.get(pair[1], ()):
                if self.agree(d, e) and self.agree(e, d):
                    yield d, e

    def agree(self, d, e):
        """No scope is aborted by d that e leaves without aborting it."""
        return not (self.facts[d][0] & self.facts[e][1]) - self.facts[e][0]

    def note(self, step):
        """Keeps the first step with which each scope is found to break the rule."""
        (_, _, inside, enters), (_, _, inside_too, enters_too) = (self.facts[it] for it in step)
        for scope in inside & enters_too | inside_too & enters:
            self.broken.setdefault(scope, step)

    def walk_to(self, step):
        """The pairs of places of a walk that ends with a step."""
        pairs = [(step[0][1], step[1][1])]
        while step is not None:
            pair = step[0][0], step[1][0]
            pairs.append(pair)
            step = self.came[pair]
        return pairs[::-1]

    def together(self, p, q):
        return (p, q) in self.came or (q, p) in self.came


def walks_of(edges):
    """The double walks, or None where there are none that could break the rule."""
    inside = set().union(*map(edges.lies_inside, edges.follows))
    entered = set().union(*map(edges.enters, edges.follows))
    return Walks(edges) if inside & entered else None


def check_scopes(expansion):
    """Looks at rules 14 to 16."""
    if not expansion.scopes:
        return
    edges = Edges(expansion)
    if len(edges.follows) > MOST_EDGES:
        raise Refused(14, expansion.spec.main[1])
    if len(set(expansion.effective)) > MOST_TERMS:
        raise Refused(15, expansion.spec.main[1])
    walks = walks_of(edges)
    if walks and walks.broken:
        raise Refused(16, expansion.scopes[min(walks.broken)].span)
