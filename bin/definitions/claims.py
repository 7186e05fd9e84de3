"""What parts force, by its rules as they stand: sets of claims on paths of bounded length, to which each rule is applied until nothing
is added. It is for structures of few paths."""


def given_of(places, structures, types, most):
    """The claims of structures at places, and the fronts of those that go too far."""
    there, same, below = set(), set(), set()
    for place, structure in zip(places, structures):
        ends = {}
        waiting = [(0, place)]
        while waiting:
            n, path = waiting.pop()
            there |= fronts(path, most)
            if len(path) <= most:
                ends.setdefault(n, []).append(path)
                below.add((path, types.number[structure[n][0]]))
                waiting += ((to, (*path, feature)) for feature, to in structure[n][1])
        same |= {(p, q) for paths in ends.values() for p in paths for q in paths}
    return there, same, below


def fronts(path, most):
    return {path[:k] for k in range(min(len(path), most) + 1)}


def forced_by_rules(types, most, given):
    """The paths, the equalities and the types that are forced."""
    there, same, below = map(set, given)
    while True:
        before = len(there), len(same), len(below)
        there |= {p for pq in same for p in pq} | {p for p, _ in below}
        there |= {front for p in there for front in fronts(p, most)}
        same |= {(p, p) for p in there} | {(q, p) for p, q in same}
        same |= {(p, r) for p, q in same for s, r in same if s == q}
        more = {(p + r, q + r) for p, q in same for s in there for r in [s[len(p):]] if s[: len(p)] == p and len(q + r) <= most}
        same |= more
        below |= {(q, t) for p, q in same for s, t in below if s == p}
        below |= {(p[:-1], types.introducer[p[-1]]) for p in there if p} | {(p, types.top) for p in there}
        below |= {(p, m) for p, t in below for s, u in below if s == p and (m := types.meet(t, u)) is not None}
        below |= {(p, u) for p, t in below for u in range(len(types.values)) if types.up(t) >> u & 1}
        for p, t in list(below):
            for written, facts in types.saying(1 << t):
                for kind, path, value in facts:
                    there |= fronts(p + path, most)
                    is_short = len(p + path) <= most
                    if kind == "below" and is_short:
                        below.add((p + path, types.number[types.types.below[value[1]] if value[0] == "type" else value]))
                    elif kind == "same":
                        there |= fronts(p + value, most)
                        if is_short and len(p + value) <= most:
                            same.add((p + path, p + value))
        if (len(there), len(same), len(below)) == before:
            return there, same, below


def verdict_by_rules(types, most, forced):
    there, _, below = forced
    key = lambda path: [feature.lower() for feature in path]
    clashes = [(key(p), t, u, p) for p, t in below for q, u in below if p == q and types.meet(t, u) is None]
    if clashes:
        _, t, u, path = min(clashes)
        return path, (t, u)
    long = sorted((path for path in there if len(path) == most), key=key)
    return (long[0], None) if long else None
