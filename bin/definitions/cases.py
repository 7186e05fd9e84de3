"""Small random grammars with their settings and lines, as bodies and as texts."""
from .bodies import NAMES, SETTINGS, named, names_of, text_of
from .mrs import DEFAULTS

HEAD = [
    ("string", ["*top*"], []),
    ("list", ["*top*"], []),
    ("cons", ["list"], [(("FIRST",), []), (("REST",), [("type", "list")])]),
    ("null", ["list"], []),
    ("value", ["*top*"], []),
    ("sign", ["*top*"], [*(((f,), [("type", "list")]) for f in ("STEM", "ARGS", "VAL", "IN")), *(((f,), [("type", "value")]) for f in ("HEAD", "MARK"))]),
]


def terms_of(chance, case, tags, depth=0):
    draw = chance.random()
    if draw < 0.35:
        return [("type", chance.choice(case["values"]))]
    if draw < 0.6 and tags:
        return [("tag", chance.choice(tags))]
    return []


def said_of(chance, case, tags):
    said = []
    for feature in ("HEAD", "MARK"):
        if chance.random() < 0.6 and (terms := terms_of(chance, case, tags)):
            said.append(((feature,), terms))
    for feature in ("VAL", "IN"):
        draw = chance.random()
        if draw < 0.15:
            said.append(((feature,), [("list", ([], [("type", "null")]))]))
        elif draw < 0.35:
            item = [("type", chance.choice(case["kinds"]))] if chance.random() < 0.7 else []
            if chance.random() < 0.4:
                item = [*item, ("avm", [(("HEAD",), terms_of(chance, case, tags) or [("type", "value")])])]
            end = chance.choice(([("type", "null")], [("type", "list")]))
            said.append(((feature,), [("list", ([item or [("type", "*top*")]], end))]))
        elif draw < 0.45 and tags:
            said.append(((feature,), [("tag", chance.choice(tags).replace("t", "l"))]))
    return said


def body_of(chance, case, kind, tags, more=()):
    """A body: the type's name at the root, and what is said of features."""
    return [((), [("type", kind)]), *more, *said_of(chance, case, tags)]


def types_of(chance, case):
    written = [*HEAD]
    case["values"], case["kinds"] = ["value"], ["sign"]
    for number in range(chance.randint(1, 4)):
        parents = sorted({chance.choice(case["values"]) for _ in range(chance.choice((1, 1, 2)))})
        written.append((f"v{number}", parents, []))
        case["values"].append(f"v{number}")
    for number in range(chance.randint(1, 4)):
        parents = sorted({chance.choice(case["kinds"]) for _ in range(chance.choice((1, 1, 2)))})
        tags = ["t1"] if chance.random() < 0.3 else []
        written.append((f"k{number}", parents, said_of(chance, case, tags) if chance.random() < 0.5 else []))
        case["kinds"].append(f"k{number}")
    case["types"] = written


def spelling_of(chance):
    groups = [chance.choice((("*", "s"), ("a", "t"), ("!c", "!cs"), ("s", "*"), ("b", "bb"))) for _ in range(chance.randint(0, 2))]
    return chance.random() < 0.7, [(p.replace("*", ""), w.replace("*", "")) for p, w in groups]


def case_of(chance):
    case = {"names": names_of(chance), "limit": chance.choice((255, 12)), "daughters": chance.choice((["ARGS"], ["ARGS", "IN"]))}
    types_of(chance, case)
    kind = lambda: chance.choice(("sign", *case["kinds"]))
    stems = ["a", "b", "ta", "as"][: chance.randint(1, 4)]
    case["entries"], case["words"] = [], {}
    for number in range(chance.randint(1, 4)):
        words = tuple(chance.choice(stems) for _ in range(chance.choice((1, 1, 1, 2))))
        stem = ("list", ([[("string", " ".join(words))]], [("type", "null")]))
        case["entries"].append((f"e{number}", body_of(chance, case, kind(), [], [(("STEM",), [stem])])))
        case["words"][f"e{number}"] = words
    case["lexical"], case["spelling"] = [], {}
    for number in range(chance.choice((0, 1, 1, 2))):
        tags = ["t1"] if chance.random() < 0.6 else []
        args = ("list", ([[("type", kind()), ("avm", said_of(chance, case, tags))]], [("type", "null")]))
        case["lexical"].append((f"l{number}", body_of(chance, case, kind(), tags, [(("ARGS",), [args])])))
        case["spelling"][f"l{number}"] = spelling_of(chance)
    case["irregular"] = [(chance.choice(stems), rule, chance.choice(stems)) for rule, _ in case["lexical"] if chance.random() < 0.4]
    case["rules"] = []
    for number in range(chance.randint(1, 4)):
        arity = chance.choice((1, 2, 2, 2, 2, 3))
        tags = ["t1", "t2"] if chance.random() < 0.6 else []
        items = [[("type", kind()), ("avm", said_of(chance, case, tags))] for _ in range(arity)]
        more = [(("ARGS",), [("list", (items, [("type", "null")]))])]
        case["rules"].append((f"r{number}", body_of(chance, case, kind(), tags, more)))
    case["roots"] = [("root", body_of(chance, case, kind(), []))]
    case["restrictors"] = chance.choice((["STEM"], ["STEM", "MARK"], ["STEM", "VAL"], []))
    case["check"] = chance.choice(("HEAD", "HEAD VAL.FIRST", ""))
    case["edges"], case["readings"] = chance.choice((3, 10, 40, 200)), chance.choice((1, 20, 200))
    case["unary"], case["lexical-limit"] = chance.choice((0, 1, 2)), chance.choice((0, 1, 2))
    case["lattice"] = chance.random() < 0.25
    known = [word for words in case["words"].values() for word in words]
    some_word = lambda: chance.choice((*known, *known, *known, *stems, "s", "tas"))
    case["lines"] = [[some_word() for _ in range(chance.choice((0, 1, 2, 2, 3, 3, 4, 5)))] for _ in range(40)]
    return case


def term_text(terms, body, names):
    return text_of([*terms, *([("avm", body)] if body else [])], names)


def affix_text(spelling):
    if not spelling or not spelling[1]:
        return ""
    return ("%suffix" if spelling[0] else "%prefix") + "".join(f" ({p or '*'} {w or '*'})" for p, w in spelling[1]) + " "


def statements_of(case):
    """The statements of a grammar's file, each as the list of its name and text."""
    names = case.get("names", NAMES)
    said = [("", f"%(letter-set (!{name} {members}))") for name, members in case.get("letters", {"c": "abst"}).items()]
    for name, parents, body in case["types"]:
        said.append((name, f"{names.get(name, name)} := {term_text([('type', parent) for parent in parents], body, names)}."))
    for key, status in (("entries", "lex-entry"), ("lexical", "lex-rule"), ("rules", "rule"), ("roots", "root")):
        said.append(("", f":begin :instance :status {status}."))
        for name, body in case[key]:
            said.append((name, f"{name} := {affix_text(case['spelling'].get(name))}{term_text(body[0][1], body[1:], names)}."))
        said.append(("", ":end :instance."))
    return said


def settings_of(case):
    names = case.get("names", NAMES)
    lines = [f"path-limit {case['limit']}", f"restrictors {' '.join(named(case['restrictors'], names))}"]
    lines.append(f"daughter-features {' '.join(named(case['daughters'], names))}")
    lines += [f"{SETTINGS[name]} {other}" for name, other in names.items() if name != other]
    lines += [f"check-paths {case['check']}", "irregular-file irregular"]
    for name, value in case.get("mrs", {}).items():
        if name == "sort":
            lines += [f"sort {kind} {letters}" for kind, letters in value]
        elif value != DEFAULTS[name]:
            lines.append(f"{name} {value if isinstance(value, str) else ('.' if name.endswith('path') else ' ').join(value)}")
    return lines


def files_of(case):
    irregular = [" ".join(line) for line in case.get("irregular-lines", case["irregular"])]
    return {"g.tdl": [text for _, text in statements_of(case)], "set": settings_of(case), "irregular": irregular}


def options_of(case):
    """The limits of a case as words of the command line."""
    named = [("edges", case["edges"]), ("readings", case["readings"]), ("unary", case["unary"]), ("lexical", case["lexical-limit"])]
    return [word for name, value in named for word in (f"--{name}", str(value))] + ["--settings", "set"]


def lattice_of(chance, words):
    """The steps of a line's words, or of a lattice with further steps beside them, and its last node."""
    steps = [(i, i + 1, word) for i, word in enumerate(words)]
    if chance is not None and steps:
        i = chance.randrange(len(words))
        steps.append((i, chance.randint(i + 1, len(words)), chance.choice(words)))
    return list(dict.fromkeys(steps)), max((j for _, j, _ in steps), default=0)


def line_of(steps, words, is_lattice):
    return " ".join(f"{i}:{j}:{word}" for i, j, word in steps) if is_lattice else " ".join(words)
