"""Whether a line's tree is licensed, and if not, why not, by plain definitions: first the structure of each node, daughters before
mothers and from the left; then whether each lexical tree spells its words; then whether a root unifies."""
from .forced import Forced, Numbered
from .mrs import raised
from .tree_reader import Names, tree_of


def explain_answer(grammar, number, line, mrs_lines=None):
    """The report on a line, given in bytes, and whether it is anything but licensed."""
    tree = tree_of(grammar.keep("names", lambda: Names(grammar)), line)
    if isinstance(tree, int):
        return [f"item {number} no-tree {tree}"], True
    full, why = explained(grammar, tree)
    if why is not None:
        return [f"item {number} fails {why}"], True
    return [f"item {number} licensed", *(["  " + mrs_lines(full)] if mrs_lines else [])], False


def explained(grammar, tree):
    """The number of a tree's structure and none, or none and why it isn't licensed."""
    full, why = structure_of(grammar, tree, ())
    why = why or spelling_of(grammar, tree, ())
    if why is None and not grammar.is_rooted(full):
        why = "root"
    return (full, None) if why is None else (None, why)


def place_text(place):
    return "".join(f".{k}" for k in place) or "."


def lexical_places(tree, place):
    """The places of a lexical tree's nodes from the inside out."""
    return [(*place, *[1] * k) for k in range(len(tree[2]), -1, -1)]


def structure_of(grammar, tree, place):
    """The number of a tree's structure, or none and what is told of the first node without one."""
    if tree[0] == "leaf":
        full = grammar.number(grammar.instance["entries", tree[1]])
        for rule, there in zip(tree[2], lexical_places(tree, place)[1:]):
            full, why = mother_of(grammar, "lexical", rule, (full,), there)
            if why:
                return None, why
        return full, None
    fulls = []
    for k, daughter in enumerate(tree[2], 1):
        full, why = structure_of(grammar, daughter, (*place, k))
        if why:
            return None, why
        fulls.append(full)
    return mother_of(grammar, "rules", tree[1], tuple(fulls), place)


def mother_of(grammar, kind, rule, fulls, place):
    full = grammar.mother(kind, rule, fulls)
    return (full, None) if full is not None else (None, f"{place_text(place)} {rule} {verdict_text(grammar, kind, rule, fulls)}")


def forced_of(grammar, kind, rule, fulls):
    """What a rule forces, over daughters with these structures."""
    first, rest = grammar.words_of_lists["FIRST"], grammar.words_of_lists["REST"]
    parts = [((), grammar.instance[kind, rule]), *((grammar.args + (rest,) * k + (first,), grammar.structures[full]) for k, full in enumerate(fulls))]
    return Forced(grammar.keep("numbered", lambda: Numbered(grammar)), grammar.limit + 1, parts)


def verdict_text(grammar, kind, rule, fulls):
    forced = forced_of(grammar, kind, rule, fulls)
    path, pair = forced.verdict()
    text = "".join(f".{raised(feature)}" for feature in path) or "."
    return f"{text} " + ("too-long" if pair is None else " ".join(map(forced.types.text, pair)))


def spelling_of(grammar, tree, place):
    """What is told of the first node that doesn't spell the words, or none."""
    if tree[0] == "phrase":
        told = (spelling_of(grammar, daughter, (*place, k)) for k, daughter in enumerate(tree[2], 1))
        return next(filter(None, told), None)
    _, entry, rules, words, _ = tree
    said = {tuple(grammar.case["words"][entry])}
    places = lexical_places(tree, place)
    for rule, there in zip(rules, places[1:]):
        said = {(*front, form) for *front, last in said for form in grammar.forms(rule, last)}
        if not said:
            return f"{place_text(there)} {rule} spelling"
    return None if words in said else f"{place_text(place)} {rules[-1] if rules else entry} spelling"
