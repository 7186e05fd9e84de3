"""Types and typed feature structures by plain slow definitions (Copestake 2002): completed types as sets of written types,
and closures by adding facts until nothing is added."""
from .bodies import NAMES, facts_of

MOST_NODES = 1500


class TooMuch(Exception):
    """The run is too large for definitions by recursion, and is passed over."""


# A type is the set of written types at or below it, as the bits of a number; a string is the pair of "string" and itself.


class Types:
    """What is written of types: triples of a name, its parents and its body."""

    def __init__(self, written, names=NAMES):
        written = [(names.get(name, name), [names.get(parent, parent) for parent in parents], body) for name, parents, body in written]
        self.names = ["*top*", *(["string"] if all(name != "string" for name, _, _ in written) else []), *[name for name, _, _ in written]]
        self.number = {name: k for k, name in enumerate(self.names)}
        parents = {"*top*": [], "string": ["*top*"], **{name: list(above) or ["*top*"] for name, above, _ in written}}
        self.below = dict.fromkeys(self.names, 0)
        for name in self.names:
            for other in self.reached(name, parents):
                self.below[other] |= 1 << self.number[name]
        self.top = self.below["*top*"]
        self.said = dict.fromkeys(self.names, ())
        self.said |= {name: facts_of(body, names) for name, _, body in written}
        self.introducers = {feature: self.highest(writers) for feature, writers in self.writers().items()}
        self.above_of, self.meets = {}, {}

    def reached(self, name, parents):
        found, waiting = {name}, [name]
        while waiting:
            for parent in parents[waiting.pop()]:
                if parent not in found:
                    found.add(parent)
                    waiting.append(parent)
        return found

    def writers(self):
        """The types that write each feature at their own node, in order of definition."""
        found = {}
        for name in self.names:
            for kind, path, _ in self.said[name]:
                if path and name not in found.setdefault(path[0], []):
                    found[path[0]].append(name)
        return found

    def highest(self, writers):
        """The one writer that is above all others, if there is one."""
        return next((w for w in writers if all(self.below[o] | self.below[w] == self.below[w] for o in writers)), None)

    def meet(self, a, b):
        if (a, b) not in self.meets:
            self.meets[a, b] = self.met(a, b)
        return self.meets[a, b]

    def met(self, a, b):
        if isinstance(a, int) and isinstance(b, int):
            return a & b or None
        if isinstance(a, int):
            a, b = b, a
        if isinstance(b, int):
            return a if self.below["string"] & b == self.below["string"] else None
        return a if a == b else None

    def is_below(self, a, b):
        return self.meet(a, b) == a

    def above(self, value):
        """The written types at or above a type or string, as the bits of a number, and their names where they say something."""
        if value not in self.above_of:
            names = [name for name in self.names if self.is_below(value, self.below[name])]
            self.above_of[value] = sum(1 << self.number[name] for name in names), [name for name in names if self.said[name]]
        return self.above_of[value]

    def added(self):
        """The nonempty intersections of written types' sets that aren't a written type's set, in the order of their members' places."""
        sets = set(self.below.values())
        whole, more = set(sets), set(sets)
        while more:
            more = {a & b for a in more for b in sets} - whole - {0}
            whole |= more
        return sorted(whole - sets, key=lambda a: [k for k in range(len(self.names)) if a >> k & 1])

    def named(self):
        """The names of types, strings aside: of written types, then of added ones."""
        if not hasattr(self, "all_named"):
            self.all_named = {mask: name for name, mask in self.below.items()}
            self.all_named |= {mask: f"glbtype{k}" for k, mask in enumerate(self.added(), 1)}
        return self.all_named

    def listing(self):
        """What `types` writes: each type with its immediate supertypes, in the order of types."""
        masks = list(self.named())
        lines = []
        for mask in masks:
            above = [other for other in masks if other != mask and other | mask == other]
            near = [other for other in above if not any(o != other and o | other == other for o in above)]
            lines.append(f"{self.named()[mask]}:" + "".join(" " + self.named()[other] for other in near))
        return lines


# Structures: the types and arcs of nodes, the root first, numbered depth first, so that one structure is one value.


class Closing:
    """Nodes to which facts are added until nothing is added."""

    def __init__(self, types, limit):
        self.types, self.limit = types, limit
        self.into, self.type, self.arcs, self.said = [], [], [], []
        self.changed, self.ok, self.look = [], True, 300
        self.node()

    def live(self, n):
        while self.into[n] != n:
            n = self.into[n]
        return n

    def node(self):
        if len(self.into) > MOST_NODES:
            raise TooMuch
        n = len(self.into)
        self.into.append(n)
        self.type.append(None)
        self.arcs.append({})
        self.said.append(0)
        return n

    def go(self, n, path):
        for feature in path:
            n = self.live(n)
            if feature not in self.arcs[n]:
                self.arcs[n][feature] = self.node()
                self.put(n, self.types.below[self.types.introducers[feature]])
            n = self.arcs[n][feature]
        return self.live(n)

    def put(self, n, value):
        """The type of a node is at or below this one."""
        n = self.live(n)
        new = value if self.type[n] is None else self.types.meet(self.type[n], value)
        if new is None:
            self.ok = False
        elif new != self.type[n]:
            self.type[n] = new
            self.changed.append(n)

    def join(self, a, b):
        """Two nodes are one."""
        waiting = [(a, b)]
        while waiting and self.ok:
            a, b = map(self.live, waiting.pop())
            if a == b:
                continue
            self.into[b] = a
            self.said[a] |= self.said[b]
            self.changed.append(a)
            if self.type[b] is not None:
                self.put(a, self.type[b])
            for feature, to in self.arcs[b].items():
                if feature in self.arcs[a]:
                    waiting.append((self.arcs[a][feature], to))
                else:
                    self.arcs[a][feature] = to

    def say(self, n, facts):
        for kind, path, value in facts:
            there = self.go(n, path)
            if kind == "below":
                self.put(there, self.types.below[value[1]] if value[0] == "type" else value)
            elif kind == "same":
                self.join(there, self.go(n, value))

    def enter(self, n, structure, is_closed):
        """A structure holds at a node. One that is closed has all that its own types say."""
        numbers = [self.node() for _ in structure]
        for at, (value, arcs) in zip(numbers, structure):
            self.arcs[at] = {feature: numbers[to] for feature, to in arcs}
            if value != self.types.top:
                self.type[at] = value
                self.said[at] = self.types.above(value)[0] if is_closed else 0
            if not is_closed:
                self.changed.append(at)
                for feature in self.arcs[at]:
                    self.put(at, self.types.below[self.types.introducers[feature]])
        self.join(n, numbers[0])

    def depth(self, n, memo, open_nodes):
        """The length of the longest path from a node, or none where one comes back."""
        n = self.live(n)
        if n in open_nodes:
            return None
        if n not in memo:
            open_nodes.add(n)
            below = [self.depth(to, memo, open_nodes) for to in self.arcs[n].values()]
            open_nodes.discard(n)
            memo[n] = None if None in below else 1 + max(below, default=-1)
        return memo[n]

    def is_short(self):
        depth = self.depth(0, {}, set())
        return depth is not None and depth <= self.limit

    def closed(self):
        """The structure, or none where the facts are inconsistent."""
        while self.ok and self.changed:
            n = self.live(self.changed.pop())
            if self.type[n] is None:
                continue
            mask, names = self.types.above(self.type[n])
            missing = mask & ~self.said[n]
            self.said[n] |= mask
            for name in names if missing else ():
                if missing >> self.types.number[name] & 1:
                    self.say(n, self.types.said[name])
            if len(self.into) > self.look:
                self.ok, self.look = self.is_short(), self.look + 300
        return self.drawn() if self.ok and self.is_short() else None

    def drawn(self):
        nodes = [(self.types.top if value is None else value, arcs) for value, arcs in zip(self.type, self.arcs)]
        return cut(nodes, lambda is_root, feature: True, self.live)


def cut(nodes, keeps, live=lambda n: n):
    """The structure that the root reaches by the arcs that are kept."""
    order, numbers = [], {}

    def visit(n):
        n = live(n)
        if n not in numbers:
            mine = numbers[n] = len(order)
            order.append(None)
            value, arcs = nodes[n]
            arcs = sorted(arcs.items() if isinstance(arcs, dict) else arcs, key=lambda arc: arc[0].lower())
            order[mine] = value, tuple((feature, visit(to)) for feature, to in arcs if keeps(mine == 0, feature))
        return numbers[n]

    visit(0)
    return tuple(order)


def follow(structure, n, path):
    """The node at a path from a node, if there is one."""
    for feature in path:
        n = None if n is None else dict(structure[n][1]).get(feature)
    return n
