"""Small random grammars with semantics: hooks, relations in difference lists, handle and individual constraints, rules that
append them, and ones that say too little or too much."""
from .bodies import NULL, OPEN, at, listed, names_of
from .mrs import DEFAULTS

SORT_LINES = (
    [("individual", "i"), ("event", "e"), ("handle", "h")], [("handle", "h"), ("semarg", "xy")], [("string", "s"), ("ref-ind", "x"), ("nobody", "n")],
)
PROPERTIES = {"event": ("TENSE", "MOOD"), "ref-ind": ("PNG.NUM", "PNG.A_B", "PNG.AB", "INSTLOC")}


def settings_of(chance):
    """The settings on MRSs that a case has besides the defaults."""
    said = {"mrs-path": chance.choice((["CONT"], ["SYN", "CONT"]))}
    if chance.random() < 0.3:
        said |= {"ltop-path": ["LTOP"], "index-path": ["INDEX"]}
    if chance.random() < 0.2:
        said |= {"rels": "LISZT", "hcons": "H-CONS", "pred": "RELN", "lbl": "HNDL"}
    if chance.random() < 0.2:
        said |= {"harg": "SC-ARG", "larg": "OUTSCPD", "icons": "INFO", "iarg1": "CLAUSE", "iarg2": "TARGET"}
    if chance.random() < 0.2:
        said |= {"skip-roles": chance.choice(([], ["CARG"], ["BODY", "CFROM"])), "skip-properties": chance.choice(([], ["PNG"], ["MOOD"]))}
    if chance.random() < 0.2:
        said["sort"] = chance.choice(SORT_LINES)
    return said


def types_of(chance, case):
    said = DEFAULTS | case["mrs"]
    loose = case["loose"]
    kind = lambda name: [("type", "*top*" if loose else name)]
    written = [
        *([("string", ["*top*"], [])] if chance.random() < 0.8 else []),
        ("list", ["*top*"], []),
        ("cons", ["list"], [at("FIRST"), at("REST", ("type", "list"))]),
        ("null", ["list"], []),
        ("value", ["*top*"], []), ("v0", ["value"], []), ("v1", ["value"], []), ("v2", ["v0", "v1"] if chance.random() < 0.3 else ["v0"], []),
        ("semarg", ["*top*"], []), ("handle", ["semarg"], []), ("individual", ["semarg"], []),
        ("event", ["individual"], [at("TENSE", ("type", "value")), at("MOOD", ("type", "value"))]),
        ("png", ["*top*"], [at(f, ("type", "value")) for f in ("NUM", "A_B", "AB")]),
        ("ref-ind", ["individual"], [at("PNG", ("type", "png")), at("INSTLOC", ("type", "value"))]),
        ("predsort", ["*top*"], []), ("_go_v_rel", ["predsort"], []), ("udef_q_rel_rel", ["predsort"], []),
    ]

    def parted(name, parts, parents=("*top*",)):
        """A type with these features, each brought in by a type of its own where the case is loose."""
        if loose:
            ones = [(f"{name}-{k}", list(parents), [part]) for k, part in enumerate(parts)]
            written.extend([*ones, (name, [one for one, _, _ in ones], [])])
        else:
            written.append((name, list(parents), parts))

    parted("dlist", [at("LIST", ("type", "list")), at("LAST", ("type", "list"))])
    parted("relation", [at(said["pred"]), at(said["lbl"], ("type", "handle"))])
    written.extend([
        ("r0", ["relation"], [at("ARG0", ("type", "individual"))]),
        ("r1", ["r0"], [at("ARG1", ("type", "semarg"))]),
        ("r2", ["r1"], [at("ARG-B", ("type", "semarg"))]),
        ("qr", ["r0"], [at("RSTR", ("type", "handle")), at("BODY", ("type", "handle"))]),
        ("cr", ["r0"], [at("CARG", ("type", "string")), *(at(f, ("type", "string")) for f in ("CFROM", "CTO"))]),
    ])
    parted("qeq", [at(said["harg"], ("type", "handle")), at(said["larg"], ("type", "handle"))])
    parted("focus", [at(said["iarg1"], ("type", "individual")), at(said["iarg2"], ("type", "individual"))])
    written.extend([("leq", ["qeq"], []), ("topic", ["focus"], [])])
    hook = [(("LTOP",), kind("handle")), (("INDEX",), kind("individual")), (("XARG",), kind("semarg"))]
    lists = [(("LISZT",) if said["rels"] == "LISZT" else ("RELS",), kind("dlist")), ((said["hcons"],), kind("dlist"))]
    if said["ltop-path"] == ["LTOP"]:
        parted("mrs", hook + lists)
    else:
        parted("hook", hook)
        parted("mrs", [(("HOOK",), kind("hook")), *lists])
    if case["icons"]:
        written.append(("imrs", ["mrs"], [at(said["icons"], ("type", "dlist"))]))
    cont = [at("CONT", ("type", case["content"]))]
    if said["mrs-path"][0] == "SYN":
        written.append(("syn", ["*top*"], cont))
        cont = [at("SYN", ("type", "syn"))]
    written.append(("sign", ["*top*"], [at("STEM", ("type", "list")), at("ARGS", ("type", "list")), at("HEAD", ("type", "value")), *cont]))
    written.append(("own", ["*top*"], [at("C-CONT", ("type", case["content"]))]))
    written.extend([("n", ["sign"], []), ("v", ["sign"], []), ("s", ["sign" if chance.random() < 0.5 else "v"], [])])
    written.extend([("on", ["own", "n"], []), ("os", ["own", "s"], [])])
    case["types"] = written


def hook_paths(case):
    """The paths of top, index and external argument below the content."""
    front = () if case["mrs"].get("ltop-path") == ["LTOP"] else ("HOOK",)
    return [front + (name,) for name in ("LTOP", "INDEX", "XARG")]


def pred_of(chance, stem):
    draw = chance.random()
    if draw < 0.7:
        return [("string", f"_{stem}_{chance.choice('nv')}_rel")]
    if draw < 0.9:
        return [("type", chance.choice(("_go_v_rel", "udef_q_rel_rel", "predsort")))]
    return [("string", chance.choice(("_Same", "", "_rel", "a b", 'q"\\', "a:b", "x<y", "_ä_n")))] if draw < 0.97 else []


def relation_of(chance, case, stem):
    """An element of RELS that speaks of the tags h, x and y of its entry."""
    said = DEFAULTS | case["mrs"]
    kind = chance.choice(("r0", "r0", "r1", "r1", "r2", "qr", "cr"))
    if case["loose"] and chance.random() < 0.1:
        return [("type", chance.choice(("relation-0", "relation-1", "relation")))]
    body = [((said["pred"],), pred_of(chance, stem)), (("ARG0",), [("tag", "x")])]
    if chance.random() < 0.8:
        body.append(((said["lbl"],), [("tag", "h")]))
    if kind in ("r1", "r2") and chance.random() < 0.8:
        body.append((("ARG1",), [("tag", chance.choice(("y", "y", "x", "h")))]))
    if kind == "r2" and chance.random() < 0.5:
        body.append((("ARG-B",), [("tag", chance.choice("yx"))] if chance.random() < 0.8 else [("string", "t\"x")]))
    if kind == "qr":
        body.append((("RSTR",), [("tag", "r")]))
    if kind == "cr":
        texts = [((f,), [("string", chance.choice(("Kim", "7", "12", "4294967296", "-1")))]) for f in ("CARG", "CFROM", "CTO")]
        body += [said for said in texts if chance.random() < 0.7]
    return [("type", kind), ("avm", [part for part in body if part[1]])]


def constraint_of(chance, case):
    said = DEFAULTS | case["mrs"]
    kind = chance.choice(("qeq", "qeq", "qeq", "leq", "qeq-0" if case["loose"] else "qeq"))
    return [("type", kind), ("avm", [((said["harg"],), [("tag", "r")])] + ([((said["larg"],), [("tag", "h")])] if kind != "qeq-0" else []))]


def focus_of(chance, case):
    said = DEFAULTS | case["mrs"]
    ends = [((said["iarg1"],), [("tag", "x")]), ((said["iarg2"],), [("tag", chance.choice("xz"))])]
    return [("type", chance.choice(("focus", "topic"))), ("avm", ends)]


def list_of(chance, case, items):
    """A difference list of these elements, or now and then a closed or an open one."""
    draw = chance.random()
    if draw < 0.88:
        return [("diff", items)]
    if draw < 0.94:
        return [("avm", [at("LIST", *listed(*items))])]
    return [("avm", [at("LIST", *listed(*items, end=chance.choice((OPEN, NULL)))), at("LAST", ("type", "null"))])]


def content_of(chance, case, stem):
    """What an entry says of its content."""
    said = DEFAULTS | case["mrs"]
    ltop, index, xarg = hook_paths(case)
    sort = chance.choice(("event", "ref-ind", "ref-ind", "individual"))
    said_of_index = [("tag", "x"), ("type", sort)]
    if chance.random() < 0.4 and sort in PROPERTIES:
        said_of_index.append(("avm", [at(chance.choice(PROPERTIES[sort]), ("type", chance.choice(("v0", "v1", "v2"))))]))
    relations = [relation_of(chance, case, stem) for _ in range(chance.choice((0, 0, 1, 1, 1, 1, 2)))]
    constraints = [constraint_of(chance, case) for _ in range(chance.choice((0, 0, 0, 1)))] if relations else []
    body = [(index, said_of_index)] if not case["loose"] or chance.random() < 0.9 else []
    if chance.random() < 0.9:
        body.append((ltop, [("tag", "h")]))
    if chance.random() < 0.6:
        body.append((xarg, [("tag", "y"), *([("type", chance.choice(("ref-ind", "handle")))] if chance.random() < 0.3 else [])]))
    body.append(((said["rels"],), list_of(chance, case, relations)))
    if not case["loose"] or chance.random() < 0.9:
        body.append(((said["hcons"],), list_of(chance, case, constraints)))
    if case["icons"]:
        body.append(((said["icons"],), list_of(chance, case, [focus_of(chance, case) for _ in range(chance.choice((0, 0, 1)))])))
    return body


def appended(chance, case, arity, own):
    """What a rule says of contents: of its own, of its daughters' and of that which it brings in itself."""
    said = DEFAULTS | case["mrs"]
    ltop, index, xarg = hook_paths(case)
    mother, parts, brought = [], [[] for _ in range(arity)], []
    order = list(range(arity))
    if chance.random() < 0.3:
        order.reverse()
    if arity > 1 and chance.random() < 0.1:
        order.pop()
    for key in ("rels", "hcons", *(["icons"] if case["icons"] else [])):
        name = lambda k: ("tag", f"{key[0]}{k}")
        for k, daughter in enumerate(order):
            parts[daughter].append(((said[key],), [("avm", [at("LIST", name(k)), at("LAST", name(k + 1))])]))
        end = len(order)
        if own:
            items = [own] if key == "rels" else []
            first = [("list", (items, [name(end + 1)])), name(end)] if items else [name(end)]
            brought.append(((said[key],), [("avm", [at("LIST", *first), at("LAST", name(end + 1) if items else name(end))])]))
            end += len(items)
        mother.append(((said[key],), [("avm", [at("LIST", name(0)), at("LAST", name(end))])]))
    head = chance.randrange(arity)
    for path in (ltop, index, xarg) if chance.random() < 0.9 else (index,):
        tag = ("tag", "hook" + path[-1])
        mother.append((path, [tag]))
        parts[head].append((path, [tag]))
    if own:
        brought.append((index, [("tag", "x")]))
        if chance.random() < 0.5:
            mother.append((index, [("tag", "x")]))
    if arity > 1:
        other = (head + 1) % arity
        if chance.random() < 0.6:
            parts[head].append((xarg, [("tag", "arg")]))
            parts[other].append((index, [("tag", "arg")]))
        if chance.random() < 0.2:
            parts[other].append((ltop, [("tag", "hookLTOP")]))
    return mother, parts, brought


def rule_of(chance, case, number):
    content = tuple(case["mrs"]["mrs-path"])
    arity = chance.choice((1, 2, 2, 2, 2, 2, 2, 3))
    own = relation_of(chance, case, "own") if chance.random() < 0.25 else None
    mother, parts, brought = appended(chance, case, arity, own)
    kind = chance.choice(("on", "os", "os") if own else ("s", "s", "n"))
    kinds = [chance.choice(("n", "v", "sign") if arity > 1 else ("n", "n", "n", "v")) for _ in range(arity)]
    items = [[("type", k), ("avm", [(content, [("avm", part)])])] for k, part in zip(kinds, parts)]
    if chance.random() < 0.2:
        items[0][1][1].append(at("HEAD", ("type", "v0")))
    body = [((), [("type", kind)]), (content, [("avm", mother)]), at("ARGS", *listed(*items))]
    if own:
        body.insert(2, (("C-CONT",), [("avm", brought)]))
    return f"r{number}", body


def lexical_rule_of(chance, case, number):
    content = tuple(case["mrs"]["mrs-path"])
    shared = [("tag", "c")]
    if chance.random() < 0.6:
        kind = chance.choice(("event", "ref-ind"))
        shared.append(("avm", [(hook_paths(case)[1], [("avm", [at(chance.choice(PROPERTIES[kind]), ("type", chance.choice(("v0", "v1"))))])])]))
    mother, daughter = ("v", "n") if chance.random() < 0.8 else (chance.choice("nv"), chance.choice("nv"))
    item = [("type", daughter), ("avm", [(content, [("tag", "c")])])]
    body = [((), [("type", mother)]), (content, shared), at("HEAD", ("type", chance.choice(("v0", "v1")))), at("ARGS", *listed(item))]
    return f"l{number}", body


def semantic_case(chance):
    case = {"names": names_of(chance), "limit": 255, "daughters": ["ARGS"], "mrs": settings_of(chance)}
    case |= {"loose": chance.random() < 0.25, "icons": chance.random() < 0.3}
    case["content"] = "imrs" if case["icons"] else "*top*" if case["loose"] else "mrs"
    types_of(chance, case)
    content = tuple(case["mrs"]["mrs-path"])
    stems = ["a", "b", "ta", "as", "c"][: chance.randint(2, 5)]
    case["entries"], case["words"] = [], {}
    for number in range(chance.randint(2, 6)):
        words = tuple(chance.choice(stems) for _ in range(chance.choice((1, 1, 1, 1, 2))))
        body = [((), [("type", chance.choice("nv"))]), at("STEM", *listed([("string", " ".join(words))]))]
        body.append((content, [("avm", content_of(chance, case, words[0]))]))
        case["entries"].append((f"e{number}", body))
        case["words"][f"e{number}"] = words
    case["lexical"] = [lexical_rule_of(chance, case, k) for k in range(chance.choice((0, 0, 1, 2)))]
    case["spelling"] = {name: (True, [("", "s")] if chance.random() < 0.6 else []) for name, _ in case["lexical"]}
    case["irregular"] = [(chance.choice(stems), rule, chance.choice(stems)) for rule, _ in case["lexical"] if chance.random() < 0.2]
    case["rules"] = [rule_of(chance, case, k) for k in range(chance.randint(1, 4))]
    case["roots"] = [("root", [((), [("type", chance.choice(("s", "s", "sign", "n")))])])]
    case["restrictors"] = chance.choice((["CONT", "C-CONT", "STEM"], ["CONT", "C-CONT", "STEM"], ["STEM"], ["SYN", "C-CONT", "STEM"], []))
    case["check"] = chance.choice(("HEAD", "CONT.HOOK.INDEX", ""))
    case["edges"], case["readings"] = chance.choice((5, 40, 200, 200)), chance.choice((2, 20, 200, 200))
    case["unary"], case["lexical-limit"], case["empty"] = chance.choice((0, 1, 2, 2)), chance.choice((0, 1, 2, 2)), chance.choice((0, 1, 1, 2))
    case["lattice"] = chance.random() < 0.1
    forms = [*stems, *(stem + "s" for stem in stems)] if case["lexical"] else stems
    case["lines"] = [[chance.choice(forms) for _ in range(chance.randint(1, 4))] for _ in range(30)]
    return case
