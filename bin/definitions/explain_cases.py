"""Lines whose trees are to be explained: trees that a grammar licenses, such trees changed in one place or more, and trees made at
random, as texts that are now and then out of form."""
from .bodies import quoted
from .cases import lattice_of
from .grammar import words_of
from .items import Item, Spans, spans_of
from .structures import TooMuch

DEEPEST, LISTED = 3, 20


def listed(grammar, words, most):
    """The trees that are licensed for words, with at most so many rules in a lexical tree, without another limit."""
    steps, end = lattice_of(None, words)
    known = dict.fromkeys(word for _, _, word in steps)
    leaves = [(span, chain, span) for word in known for chain in grammar.chains_from(most, word) for span in spans_of(steps, chain[2])]
    found = Item(grammar, Spans(end), leaves).trees().get((0, end), {})
    return {tree for full, trees in found.items() if grammar.is_rooted(full) for tree in trees}


def trees_of(grammar, lines):
    """Some of the trees that are licensed for lines. Of a line with a tree too deep for Python's stack there is none."""
    for words in lines:
        try:
            yield from sorted(listed(grammar, words, grammar.case["lexical-limit"]), key=str)[:LISTED]
        except (TooMuch, RecursionError):
            continue


def bare(tree):
    return (*tree[:4], ()) if tree[0] == "leaf" else ("phrase", tree[1], tuple(map(bare, tree[2])))


def line_of(chance, grammar, trees):
    """The bytes of a line: a tree that is licensed, mostly changed, or one made at random, with nodes or without, and now and then out of form."""
    tree = chance.choice(trees) if trees and chance.random() < 0.75 else random_tree(chance, grammar)
    for _ in range(chance.choice((0, 1, 1, 1, 2, 3))):
        tree = changed_tree(chance, grammar, tree, trees)
    text = text_of(grammar, placed(tree) if chance.random() < 0.2 else bare(tree))
    return b" " * chance.choice((0, 0, 0, 2)) + (broken_text(chance, text) if chance.random() < 0.15 else text.encode())


def text_of(grammar, tree):
    """The text of a tree, with the nodes of those lexical trees that have some."""
    if tree[0] == "phrase":
        return f"({tree[1]} {' '.join(text_of(grammar, daughter) for daughter in tree[2])})"
    _, entry, rules, words, nodes = tree
    text = f"({entry} {quoted(' '.join(words))}{''.join(f' {n}' for n in nodes or ())})"
    for rule in rules:
        text = f"({rule} {text})"
    return text


def spots_of(tree, place=()):
    """The places of a tree's phrases and lexical trees."""
    yield place
    for k, daughter in enumerate(tree[2] if tree[0] == "phrase" else ()):
        yield from spots_of(daughter, (*place, k))


def part_of(tree, place):
    for k in place:
        tree = tree[2][k]
    return tree


def put(tree, place, new):
    if not place:
        return new
    daughters = [put(daughter, place[1:], new) if k == place[0] else daughter for k, daughter in enumerate(tree[2])]
    return "phrase", tree[1], tuple(daughters)


def changed_tree(chance, grammar, tree, others):
    """A tree with one place that is another."""
    place = chance.choice(list(spots_of(tree)))
    part = part_of(tree, place)
    if chance.random() < 0.15 and others:
        other = chance.choice(others)
        return put(tree, place, part_of(other, chance.choice(list(spots_of(other)))))
    return put(tree, place, changed_phrase(chance, grammar, part) if part[0] == "phrase" else changed_leaf(chance, grammar, part))


def changed_phrase(chance, grammar, part):
    _, rule, daughters = part
    draw, arity = chance.random(), {name: grammar.arity_of(name) for name, _ in grammar.case["rules"]}
    if draw < 0.5:
        return "phrase", chance.choice([name for name in arity if arity[name] == len(daughters)]), daughters
    if draw < 0.75 and len(daughters) > 1:
        return "phrase", rule, tuple(chance.sample(daughters, len(daughters)))
    if draw < 0.9 and 1 in arity.values():
        return "phrase", chance.choice([name for name in arity if arity[name] == 1]), (part,)
    return chance.choice(daughters)


def changed_leaf(chance, grammar, part):
    _, entry, rules, words, nodes = part
    draw, known = chance.random(), [name for name, _ in grammar.case["lexical"]]
    if draw < 0.25:
        other = chance.choice(list(grammar.case["words"]))
        return "leaf", other, rules, grammar.case["words"][other] if not rules else words, nodes
    if draw < 0.45:
        return "leaf", entry, rules, changed_words(chance, grammar, words), nodes
    if draw < 0.8 and known:
        return respelled(chance, grammar, ("leaf", entry, changed_rules(chance, rules, known), words, nodes))
    unary = [name for name, _ in grammar.case["rules"] if grammar.arity_of(name) == 1]
    return ("phrase", chance.choice(unary), (part,)) if unary else respelled(chance, grammar, ("leaf", chance.choice(list(grammar.case["words"])), rules, words, nodes))


def changed_rules(chance, rules, known):
    rules = list(rules)
    draw = chance.random()
    if rules and draw < 0.3:
        rules[chance.randrange(len(rules))] = chance.choice(known)
    elif rules and draw < 0.5:
        del rules[chance.randrange(len(rules))]
    else:
        rules.insert(chance.randrange(len(rules) + 1), chance.choice(known))
    return tuple(rules)


def changed_words(chance, grammar, words):
    words, at = list(words), chance.randrange(len(words))
    draw = chance.random()
    if draw < 0.5:
        words[at] = chance.choice([word for of in grammar.case["words"].values() for word in of])
    elif draw < 0.7:
        words[at] += chance.choice("sab")
    elif draw < 0.85:
        words.append(words[at])
    else:
        words = words[:1]
    return tuple(words)


def respelled(chance, grammar, leaf):
    """A lexical tree with words that it spells, mostly, where there are some."""
    _, entry, rules, words, nodes = leaf
    said = [tuple(grammar.case["words"][entry])]
    for rule in rules:
        said = [(*front, form) for *front, last in said for form in grammar.forms(rule, last)]
    return ("leaf", entry, rules, chance.choice(said), nodes) if said and chance.random() < 0.8 else leaf


def random_tree(chance, grammar, depth=0):
    """A tree of rules and entries that may not go together."""
    rules = grammar.case["rules"]
    if depth < DEEPEST and rules and chance.random() < (0.8 if depth == 0 else 0.4):
        name = chance.choice(rules)[0]
        return "phrase", name, tuple(random_tree(chance, grammar, depth + 1) for _ in range(grammar.arity_of(name)))
    entry, known = chance.choice(list(grammar.case["words"])), [name for name, _ in grammar.case["lexical"]]
    chain = tuple(chance.choice(known) for _ in range(chance.choice((0, 0, 0, 1, 1, 2)) if known else 0))
    return respelled(chance, grammar, ("leaf", entry, chain, tuple(grammar.case["words"][entry]), ()))


def placed(tree, at=0):
    """The tree with the nodes of a line of its words."""
    if tree[0] == "leaf":
        return (*tree[:4], (at, at + len(tree[3])))
    daughters = []
    for daughter in tree[2]:
        daughters.append(placed(daughter, at))
        at += len(words_of(daughter))
    return "phrase", tree[1], tuple(daughters)


def broken_text(chance, text):
    """The bytes of a text that is mostly out of form at one place."""
    line, at = bytearray(text.encode()), chance.randrange(len(text.encode()) + 1)
    draw = chance.random()
    if draw < 0.3:
        del line[at:]
    elif draw < 0.5:
        del line[at : at + 1]
    elif draw < 0.8:
        line[at:at] = chance.choice((b" ", b"(", b")", b'"', b"\\", b"\\\\", b"x", b"0", b"\xff", "é".encode()))
    else:
        line[at : at + 1] = chance.choice((b" ", b"(", b")", b'"', b"\\", b"e", b"1"))
    return bytes(line)
