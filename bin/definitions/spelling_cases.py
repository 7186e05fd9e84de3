"""Small random grammars of words: entries, prefixes and suffixes with letter sets, irregular forms, and many words to look up."""
from .bodies import at, listed, names_of

LETTERS = "abcé"


def word_of(chance, least=1, most=3):
    return "".join(chance.choice(LETTERS) for _ in range(chance.randint(least, most)))


def pattern_of(chance, sets):
    signs = [chance.choice((*LETTERS, *("!" + name for name in sets))) for _ in range(chance.choice((0, 1, 1, 2, 2, 3)))]
    return "".join(signs)


def group_of(chance, sets):
    """A group that takes at most one variable away: each one makes as many stems as its set has letters, at each step."""
    pattern = pattern_of(chance, sets)
    inside = [name for name in sets if "!" + name in pattern]
    with_ = "".join(chance.choice((*LETTERS, *("!" + name for name in inside))) for _ in range(chance.choice((0, 1, 1, 2, 3))))
    lost = [name for name in inside if "!" + name not in with_]
    return (pattern, with_) if len(lost) < 2 else group_of(chance, sets)


def irregular_of(chance, case, stems):
    """Lines of the irregular table, and ones that are passed over."""
    rules = [rule for rule, _ in case["lexical"]]
    lines = [(word_of(chance), chance.choice(rules), chance.choice(stems)) for _ in range(chance.choice((0, 0, 1, 3, 6)))]
    strange = [(";", "x"), ("a", "nobody", chance.choice(stems)), ("a", rules[0]), ("a", rules[0], "b", "c"), (";a", rules[0], "b"), ()]
    case["irregular"] = lines
    case["irregular-lines"] = [*lines, *chance.sample(strange, chance.randint(0, 3))]
    chance.shuffle(case["irregular-lines"])
    case["irregular"] = [line for line in case["irregular-lines"] if len(line) == 3 and line[1] in rules and not line[0].startswith(";")]


def spelling_case(chance):
    kinds = ["lxm", "wrd", "sign"]
    case = {"names": names_of(chance), "limit": 255, "daughters": ["ARGS"], "check": "", "rules": []}
    case["restrictors"] = chance.choice((["STEM"], ["STEM", "HEAD"], []))
    case["types"] = [
        ("string", ["*top*"], []), ("list", ["*top*"], []), ("null", ["list"], []),
        ("cons", ["list"], [at("FIRST"), at("REST", ("type", "list"))]),
        ("sign", ["*top*"], [at("STEM", ("type", "list")), at("ARGS", ("type", "list"))]),
        ("lxm", ["sign"], []), ("wrd", ["sign"], []),
    ]
    case["letters"] = {name: "".join(chance.sample(LETTERS, chance.randint(1, 3))) for name in ("c", "b", "é")[: chance.randint(0, 3)]}
    stems = list(dict.fromkeys(word_of(chance) for _ in range(chance.randint(3, 20))))
    case["entries"], case["words"] = [], {}
    for number, stem in enumerate(stems):
        words = (chance.choice(stems), stem) if chance.random() < 0.15 else (stem,)
        written = [word.upper() if chance.random() < 0.1 else word for word in words]
        strings = [[("string", word)] for word in written] if chance.random() < 0.5 else [[("string", "  ".join(written) + chance.choice(("", " ")))]]
        case["entries"].append((f"e{number}", [((), [("type", chance.choice(("lxm", "lxm", "wrd")))]), at("STEM", *listed(*strings))]))
        case["words"][f"e{number}"] = words
    case["lexical"], case["spelling"] = [], {}
    for number in range(chance.randint(1, 4)):
        mother, daughter = chance.choice(("wrd", "wrd", "wrd", "lxm", "sign")), chance.choice(("lxm", "lxm", "lxm", "wrd", "sign"))
        body = [((), [("type", mother)]), at("ARGS", *listed([("type", daughter)]))]
        case["lexical"].append((f"l{number}", body))
        groups = [group_of(chance, case["letters"]) for _ in range(chance.choice((0, 1, 1, 2, 3)))]
        case["spelling"][f"l{number}"] = chance.random() < 0.6, groups
    irregular_of(chance, case, stems)
    case["roots"] = [("root", [((), [("type", chance.choice(kinds))])])]
    case["edges"], case["readings"] = chance.choice((1, 20, 200)), chance.choice((1, 20, 200))
    case["unary"], case["lexical-limit"], case["lattice"] = 1, chance.choice((0, 1, 1, 2)), False
    return case


def lines_of(chance, grammar, case):
    """Lines of words that some chain spells, of words near them, and of any words."""
    spelled = [words for _, _, words, _ in grammar.chains(case["lexical-limit"] + 1)]
    lines = []
    for _ in range(120):
        draw = chance.random()
        words = list(chance.choice(spelled)) if draw < 0.6 else [word_of(chance, 1, 4)]
        if draw < 0.15:
            words[-1] += chance.choice(LETTERS)
        lines.append(words)
    return lines
