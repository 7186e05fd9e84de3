"""Packed forests by their plain definition: the packed classes of a line in order, all that makes members of each, and the words that no
lexical tree covers."""
from .bodies import quoted
from .items import Item, Spans, leaves_of


def chart_answer(grammar, number, lattice, nodes):
    """The report on a line whose packed forest is asked for, and whether it is refused."""
    steps, end = lattice
    leaves = leaves_of(grammar, steps)
    if leaves is None:
        return [f"item {number} refused lexical-depth"], True
    item = Item(grammar, Spans(end), leaves)
    classes = item.classes()
    if isinstance(classes, str):
        return [f"item {number} refused {classes}"], True
    classes.sort(key=lambda c: place_of(grammar, c))
    report = [f"item {number} classes {len(classes)}"]
    report += [f"  unknown {i}:{j} {word}" for i, j, word in steps if not any(covers(steps, leaf, (i, j, word)) for leaf in leaves)]
    made = list(mothers(item, classes))
    for k, ((i, j), level, shape) in enumerate(classes, 1):
        star = "*" if grammar.is_rooted(shape) else ""
        makers = sorted([*leaf_makers(item, ((i, j), level, shape), nodes), *rule_makers(grammar, made, ((i, j), level, shape))])
        report.append(" ".join([f"  {k} {i}:{j} {type_text(grammar, shape)}{star}", *(text for _, text in makers)]))
    return report, False


def place_of(grammar, told):
    """What classes are ordered by: from which node to which, the level, and the lines of the structure as bytes."""
    (i, j), level, shape = told
    return i, j, level, "".join(line + "\n" for line in grammar.expanded(grammar.structures[shape])).encode()


def type_text(grammar, shape):
    value = grammar.structures[shape][0][0]
    return quoted(value[1]) if isinstance(value, tuple) else grammar.types.named()[value]


def covers(steps, leaf, step):
    """Whether a path that carries a lexical tree's words from its first node to its second takes this step."""
    (start, end), (_, _, words, _), _ = leaf
    i, j, word = step
    return any(words[k] == word and i in reached(steps, start, words[:k]) and end in reached(steps, j, words[k + 1 :]) for k in range(len(words)))


def reached(steps, node, words):
    """The nodes to which some path of steps from a node carries these words."""
    nodes = {node}
    for word in words:
        nodes = {j for i, j, w in steps if i in nodes and w == word}
    return nodes


def leaf_makers(item, told, nodes):
    """The lexical trees that a class of level 0 subsumes at its cover, each with what it is ordered by."""
    cover, level, shape = told
    for span, (entry, rules, words, full), _ in item.leaves if level == 0 else ():
        if span == cover and item.grammar.subsumes(shape, item.grammar.abstract(full)):
            tree = ("leaf", entry, rules, words, span)
            yield item.grammar.key(tree), item.grammar.written(tree, nodes)


def mothers(item, classes):
    """Each rule over packed classes that has a mother: its name, their numbers, and the mother's cover, level and structure."""
    for name, arity, _ in item.rules:
        rows = [(k,) for k in range(len(classes))]
        for _ in range(arity - 1):
            rows = [(*row, k) for row in rows for k, (cover, _, _) in enumerate(classes) if classes[row[-1]][0][1] == cover[0]]
        for row in rows:
            shape = item.shape(name, tuple(classes[k][2] for k in row))
            if shape is not None:
                cover = classes[row[0]][0][0], classes[row[-1]][0][1]
                yield name, row, cover, classes[row[0]][1] + 1 if arity == 1 else 0, shape


def rule_makers(grammar, made, told):
    """The rules over packed classes whose mother a class subsumes at its cover and level, each with what it is ordered by."""
    for name, row, cover, level, shape in made:
        if (cover, level) == told[:2] and grammar.subsumes(told[2], shape):
            yield (grammar.place["rules", name], 1, row), f"({name} {' '.join(str(k + 1) for k in row)})"
