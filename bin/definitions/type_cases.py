"""Small random hierarchies with features, some of them broken, and the first fault of their types."""
from .bodies import NAMES, at, text_of
from .grammar import Grammar
from .structures import Types

KINDS = ("t0", "t1", "t2", "t3", "t4", "t5", "t6", "t7")


def types_asked(chance):
    """Types, their text, the path limit, and the place and text of the first fault, if there is one."""
    written = hierarchy_of(chance)
    places, text = {}, ""
    spots = []
    for name, parents, body in written:
        spots.append(len(text))
        terms = [("type", parent) for parent in parents] + ([("avm", body)] if body or not parents else [])
        text += f"{name} := {text_of(terms, NAMES)}.\n"
        places.setdefault(name, spots[-1])
    limit = chance.choice((255, 12, 3))
    fault = first_fault(written, spots, places, limit)
    return written, text if fault or chance.random() < 0.7 else parted(chance, written), limit, fault


def parted(chance, written):
    """The same types, some of what they say in addenda."""
    lines, more = [], []
    for name, parents, body in written:
        is_shared = any(kind == "tag" for _, terms in body for kind, _ in terms)
        kept = [part for part in body if is_shared or chance.random() < 0.5]
        lines.append(f"{name} := {text_of([*(('type', p) for p in parents), ('avm', kept)], NAMES)}.")
        more += [f"{name} :+ {text_of([('avm', [part])], NAMES)}." for part in body if part not in kept]
    chance.shuffle(more)
    return "\n".join(lines + more)


def hierarchy_of(chance):
    written, broken = [], chance.random() < 0.25
    count = chance.randint(2, len(KINDS))
    for number in range(count):
        above = KINDS[:number] if number else ()
        parents = list(dict.fromkeys(chance.choice(above) for _ in range(chance.choice((0, 1, 1, 2, 2, 3))))) if above else []
        name = KINDS[number]
        if broken and chance.random() < 0.2:
            parents.append(chance.choice(("nope", "string", "*top*", *KINDS[:count])))
        if broken and chance.random() < 0.05:
            name = chance.choice((KINDS[max(0, number - 1)], "glbtype1", "*top*", "glbtypex1"))
        written.append((name, parents, []))
    names = [name for name, _, _ in written]
    writer = {feature: chance.randrange(len(written)) for feature in "FGHI"[: chance.randint(0, 4)]}
    for feature, number in writer.items():
        written[number][2].append(at(feature, *terms_of(chance, names)))
    for name, _, body in written:
        for feature in writer:
            if all(path != (feature,) for path, _ in body) and chance.random() < 0.1:
                body.append(at(feature, *terms_of(chance, names)))
        for path, terms in body:
            if chance.random() < 0.25:
                terms.append(("avm", [at(chance.choice(list(writer)), *terms_of(chance, names))]))
        if len(body) > 1 and chance.random() < 0.4:
            for _, terms in body:
                if chance.random() < 0.7:
                    terms.append(("tag", "a"))
    return written


def terms_of(chance, names):
    draw = chance.random()
    if draw < 0.45:
        return [("type", chance.choice([name for name in names if name.startswith("t")] or ["*top*"]))]
    if draw < 0.6:
        return [("type", "*top*")]
    return [("string", chance.choice("xy"))] if draw < 0.75 else []


def first_fault(written, spots, places, limit):
    """The place and name of the first fault of types, in the order of faults and then of writing."""
    names = [name for name, _, _ in written]
    for k, name in enumerate(names):
        if name in names[:k]:
            return f"{spots[k]}: Duplicate {name}"
    known = {"*top*", "string", *names}
    for name, parents, _ in written:
        for parent in parents:
            if parent not in known:
                return f"{places[name]}: Unknown {name} {parent}"
    parents = {"*top*": [], "string": ["*top*"]} | {name: above or (["*top*"] if name != "*top*" else []) for name, above, _ in written}
    for name in names:
        if any(name in reached(parent, parents) for parent in parents[name]):
            return f"{places[name]}: Cycle {name}"
    for name in names:
        if name == "*top*" or name.startswith("glbtype") and name[7:].isdigit():
            return f"{places[name]}: Reserved {name}"
    return fault_of_features(written, places, limit)


def reached(name, parents):
    found, waiting = {name}, [name]
    while waiting:
        for parent in parents[waiting.pop()]:
            if parent not in found:
                found.add(parent)
                waiting.append(parent)
    return found


def fault_of_features(written, places, limit):
    types = Types(written)
    for feature in dict.fromkeys(feature for name, _, body in written for feature in features_of(body)):
        if types.introducers[feature] is None:
            writers = types.writers()[feature]
            tops = [w for w in writers if not any(o != w and types.below[o] | types.below[w] == types.below[o] for o in writers)]
            return f"{places[tops[1]]}: Intro {feature} {tops[0]} {tops[1]}"
    found = Grammar({"types": written, "limit": limit, "entries": [], "lexical": [], "rules": [], "roots": []}).unstructured()
    return f"{places[found[1]]}: NoStructure {found[1]}" if found else None


def features_of(body):
    """The features in order of writing."""
    for path, terms in body:
        yield from path
        for kind, value in terms:
            if kind == "avm":
                yield from features_of(value)
