"""What parts force at paths, whether or not all of it goes together: claims on paths of bounded length, added until nothing is added,
path by path. Each type that is forced has all that is above it beside it, and all meets that exist."""
from .structures import TooMuch

MOST_PATHS, MOST_PAIRS = 30000, 400


class Numbered:
    """Types by number: the written ones, the added ones, then strings in the order of writing."""

    def __init__(self, grammar):
        self.types = grammar.types
        self.values = [*grammar.types.named(), *strings_of(grammar)]
        self.number = {value: k for k, value in enumerate(self.values)}
        self.top = self.number[self.types.top]
        self.above, self.met, self.grown, self.pairs, self.says = {}, {}, {}, {}, {}
        self.introducer = {feature: self.number[self.types.below[name]] for feature, name in self.types.introducers.items()}

    def up(self, t):
        """The types at or above one, as the bits of a number."""
        if t not in self.above:
            self.above[t] = sum(1 << u for u, value in enumerate(self.values) if self.types.is_below(self.values[t], value))
        return self.above[t]

    def meet(self, t, u):
        if (t, u) not in self.met:
            value = self.types.meet(self.values[t], self.values[u])
            self.met[t, u] = None if value is None else self.number[value]
        return self.met[t, u]

    def with_type(self, mask, t):
        """Types that are closed so, with one more."""
        if mask >> t & 1:
            return mask
        if (mask, t) not in self.grown:
            self.grown[mask, t] = self.closed(mask, self.up(t))
        return self.grown[mask, t]

    def joined(self, mask, other):
        return mask if mask | other == mask else self.closed(mask, other)

    def closed(self, mask, other):
        least = [self.least(mask), self.least(other)]
        if None not in least and (both := self.meet(*least)) is not None:
            return self.up(both)
        mask, new = mask | other, members(mask | other)
        if len(new) > MOST_PAIRS:
            raise TooMuch
        while new:
            more = 0
            for t in new:
                for u in members(mask):
                    both = self.meet(t, u)
                    if both is not None and not mask >> both & 1:
                        more |= self.up(both)
            new = members(more & ~mask)
            mask |= more
        return mask

    def least(self, mask):
        """The type that is at or below all of these, if it is among them."""
        return next((t for t in reversed(members(mask)) if self.up(t) == mask), None)

    def clash(self, mask):
        """The first two of these types that have no common subtype, by their numbers."""
        if mask not in self.pairs:
            each = members(mask)
            self.pairs[mask] = next(((t, u) for t in each for u in each if self.meet(t, u) is None), None)
        return self.pairs[mask]

    def saying(self, mask):
        """The written types among these that say something, with what they say."""
        if mask not in self.says:
            self.says[mask] = [(t, self.types.said[name]) for name in self.types.names if self.types.said[name] and mask >> (t := self.number[self.types.below[name]]) & 1]
        return self.says[mask]

    def text(self, t):
        value = self.values[t]
        return '"{}"'.format(value[1].replace("\\", "\\\\").replace('"', '\\"')) if isinstance(value, tuple) else self.types.named()[value]


def members(mask):
    return [t for t in range(mask.bit_length()) if mask >> t & 1]


def strings_of(grammar):
    """The strings of all bodies, each once, in the order of writing."""
    bodies = [body for _, _, body in grammar.case["types"]]
    of = {(status, name): body for status in ("entries", "lexical", "rules", "roots") for name, body in grammar.case[status]}
    found = {}

    def look(terms):
        for kind, value in terms:
            if kind == "string":
                found["string", value] = True
            elif kind == "avm":
                for _, there in value:
                    look(there)
            elif kind == "list":
                for item in (*value[0], value[1]):
                    look(item)
            elif kind == "diff":
                for item in value:
                    look(item)

    for body in (*bodies, *(of[key] for key in grammar.place)):
        for _, terms in body:
            look(terms)
    return list(found)


class Forced:
    """Parts are structures at paths. Paths are numbers here; of paths that are equal one stands for all."""

    def __init__(self, numbered, most, parts):
        self.types, self.most = numbered, most
        self.paths, self.at, self.arcs, self.said = [()], {(): 0}, [{}], [set()]
        self.into, self.alike, self.forced = [0], {0: [0]}, {0: numbered.up(numbered.top)}
        self.changed = {0}
        for place, structure in parts:
            self.enter(place, structure)
        while self.changed:
            self.close(self.changed.pop())

    def live(self, n):
        while self.into[n] != n:
            n = self.into[n]
        return n

    def exists(self, path):
        """A path, with its fronts; of one that goes too far the front that may be."""
        n = 0
        for k, feature in enumerate(path[: self.most]):
            if feature not in self.arcs[n]:
                self.add(n, path[: k + 1])
            n = self.arcs[n][feature]
        return n

    def add(self, n, path):
        if len(self.paths) > MOST_PATHS:
            raise TooMuch
        new = self.at[path] = self.arcs[n][path[-1]] = len(self.paths)
        self.paths.append(path)
        self.arcs.append({})
        self.said.append(set())
        self.into.append(new)
        self.alike[new], self.forced[new] = [new], self.types.up(self.types.top)
        self.changed |= {new, self.live(n)}

    def put(self, n, t):
        n = self.live(n)
        new = self.types.with_type(self.forced[n], t)
        if new != self.forced[n]:
            self.forced[n] = new
            self.changed.add(n)

    def join(self, a, b):
        a, b = self.live(a), self.live(b)
        if a != b:
            self.into[b] = a
            self.alike[a] += self.alike.pop(b)
            self.forced[a] = self.types.joined(self.forced[a], self.forced.pop(b))
            self.changed.add(a)

    def enter(self, place, structure):
        """What a structure at a place claims: the types of its paths, and which of them are equal."""
        first = {}

        def visit(n, path):
            there = self.exists(path)
            if len(path) > self.most:
                return
            self.join(first.setdefault(n, there), there)
            self.put(there, self.types.number[structure[n][0]])
            for feature, to in structure[n][1]:
                visit(to, (*path, feature))

        visit(0, place)

    def close(self, n):
        """What follows from paths that are equal."""
        if n not in self.alike:
            return
        each = list(self.alike[n])
        for feature in {feature for p in each for feature in self.arcs[p]}:
            self.put(n, self.types.introducer[feature])
            ends = [self.exists((*self.paths[p], feature)) for p in each if len(self.paths[p]) < self.most]
            for end in ends[1:]:
                self.join(ends[0], end)
        for t, facts in self.types.saying(self.forced[self.live(n)]):
            for p in each:
                if t not in self.said[p]:
                    self.said[p].add(t)
                    self.say(self.paths[p], facts)

    def say(self, path, facts):
        for kind, more, value in facts:
            there = self.exists(path + more)
            is_short = len(path + more) <= self.most
            if kind == "below" and is_short:
                self.put(there, self.types.number[self.types.types.below[value[1]] if value[0] == "type" else value])
            elif kind == "same":
                other = self.exists(path + value)
                if is_short and len(path + value) <= self.most:
                    self.join(there, other)

    def in_order(self):
        return sorted(self.paths, key=lambda path: [feature.lower() for feature in path])

    def verdict(self):
        """The first path at which two types clash, with the first two; else the first one that is too long; else none."""
        for path in self.in_order():
            pair = self.types.clash(self.forced[self.live(self.at[path])])
            if pair:
                return path, pair
        return next(((path, None) for path in self.in_order() if len(path) == self.most), None)
