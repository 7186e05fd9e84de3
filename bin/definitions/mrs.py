"""MRSs by plain slow definitions (Copestake, Flickinger, Pollard and Sag 2005): what a structure says, equality by trying all
maps of variables, and SimpleMRS texts."""
import itertools
import re

from .bodies import quoted
from .structures import TooMuch, follow

MOST_MAPS = 5040
SORTS = [("handle", "h"), ("event", "e"), ("ref-ind", "x"), ("individual", "i")]
DEFAULTS = {
    "mrs-path": ["SYNSEM", "LOCAL", "CONT"], "c-cont-path": ["C-CONT"], "ltop-path": ["HOOK", "LTOP"], "index-path": ["HOOK", "INDEX"],
    "rels": "RELS", "hcons": "HCONS", "pred": "PRED", "lbl": "LBL", "harg": "HARG", "larg": "LARG", "icons": "ICONS", "iarg1": "IARG1",
    "iarg2": "IARG2", "cfrom": "CFROM", "cto": "CTO", "skip-roles": ["LNK", "WLINK", "CFROM", "CTO"], "skip-properties": ["INSTLOC"], "sort": SORTS,
}


class Mrs:
    """Top and index, variables as pairs of a sort and properties, elements as predicate, label, roles and span, constraints as
    triples. A variable is a key of `variables`, a role's value the pair of "var" or "text" and what it is."""

    def __init__(self, top, index, variables, eps, hcons, icons):
        self.top, self.index, self.variables = top, index, variables
        self.eps, self.hcons, self.icons = eps, hcons, icons

    def bag(self):
        preds = [pred for pred, _, _, _ in self.eps]
        return {pred: preds.count(pred) for pred in preds}

    def occurring(self):
        """The variables in order of first occurrence in a text."""
        found = [self.top, self.index]
        for _, label, roles, _ in self.eps:
            found += [label, *(value for _, (kind, value) in sorted(roles.items(), key=by_name) if kind == "var")]
        for left, _, right in self.hcons + self.icons:
            found += [left, right]
        return list(dict.fromkeys(found))


def by_name(pair):
    return pair[0].encode()


def normal(pred):
    pred = lowered(pred)
    while pred.endswith("_rel"):
        pred = pred[:-4]
    return pred


def lowered(text):
    return re.sub("[A-Z]+", lambda found: found[0].lower(), text)


def raised(text):
    return re.sub("[a-z]+", lambda found: found[0].upper(), text)


# Extraction


class Absent(Exception):
    """The path that is missing first."""


class Extraction:
    def __init__(self, grammar, structure):
        self.grammar, self.structure = grammar, structure
        self.settings = DEFAULTS | grammar.case.get("mrs", {})

    def go(self, place, path):
        """The node at a path from a place, a pair of a path and a node."""
        at, n = place[0] + tuple(path), follow(self.structure, place[1], path)
        if n is None:
            raise Absent(at)
        return at, n

    def mrs(self):
        said = self.settings
        m = self.go(((), 0), said["mrs-path"])
        top, index = self.go(m, said["ltop-path"])[1], self.go(m, said["index-path"])[1]
        relations = [(place, self.go(place, [said["pred"]])[1], self.go(place, [said["lbl"]])[1]) for place in self.listed(m, said["rels"])]
        hcons = self.constraints(m, said["hcons"], said["harg"], said["larg"])
        has_icons = follow(self.structure, m[1], [said["icons"]]) is not None
        icons = self.constraints(m, said["icons"], said["iarg1"], said["iarg2"]) if has_icons else []
        eps = [(normal(self.name(pred)), label, self.roles(place[1]), self.span(place[1])) for place, pred, label in relations]
        found = Mrs(top, index, {}, eps, hcons, icons)
        found.variables = {n: self.variable(n) for n in found.occurring()}
        return found

    def listed(self, m, feature):
        """The elements of a difference list: pairs of a path and a node."""
        names = self.grammar.words_of_lists
        whole = self.go(m, [feature])
        last = follow(self.structure, whole[1], [names["LAST"]])
        cell, cells = self.go(whole, [names["LIST"]]), []
        while cell[1] != last and not self.is_named(cell, "null"):
            if not self.is_named(cell, "cons"):
                raise Absent(cell[0])
            cells.append(cell)
            cell = self.go(cell, [names["REST"]])
        return [self.go(cell, [names["FIRST"]]) for cell in cells]

    def is_named(self, cell, name):
        return self.grammar.is_named(self.structure[cell[1]][0], name)

    def constraints(self, m, feature, left, right):
        places = self.listed(m, feature)
        return [(self.go(place, [left])[1], self.relation(place[1]), self.go(place, [right])[1]) for place in places]

    def relation(self, n):
        value = self.structure[n][0]
        return "string" if isinstance(value, tuple) else self.name(n)

    def name(self, n):
        value = self.structure[n][0]
        return value[1] if isinstance(value, tuple) else self.grammar.types.named()[value]

    def roles(self, n):
        said = self.settings
        passed = {said["pred"], said["lbl"], "LBL", *said["skip-roles"]}
        return {lowered(feature): self.filler(to) for feature, to in self.structure[n][1] if feature not in passed}

    def filler(self, n):
        value = self.structure[n][0]
        return ("text", value[1]) if isinstance(value, tuple) else ("var", n)

    def span(self, n):
        ends = [follow(self.structure, n, [self.settings[key]]) for key in ("cfrom", "cto")]
        texts = [self.structure[m][0][1] if m is not None and isinstance(self.structure[m][0], tuple) else "" for m in ends]
        if all(re.fullmatch("[0-9]+", text) and int(text) < 1 << 32 for text in texts):
            return int(texts[0]), int(texts[1])
        return None

    def variable(self, n):
        types = self.grammar.types
        sorts = [(types.below[name], letters) for name, letters in self.settings["sort"] if name in types.below]
        sort = next((letters for mask, letters in sorts if types.is_below(self.structure[n][0], mask)), "u")
        return sort, {} if sort == "h" else dict(self.properties(n, ()))

    def properties(self, n, path):
        for feature, to in self.structure[n][1]:
            if feature not in self.settings["skip-properties"]:
                value, arcs = self.structure[to]
                if not arcs and not isinstance(value, tuple):
                    yield ".".join((*path, lowered(feature))), self.name(to)
                yield from self.properties(to, (*path, lowered(feature)))


def mrs_of(grammar, full):
    """The MRS of a structure by its number, or the path that is missing."""

    def extracted():
        try:
            return Extraction(grammar, grammar.structures[full]).mrs()
        except Absent as absent:
            return absent.args[0]

    return grammar.keep(("mrs", full), extracted)


def mrs_line(grammar, full):
    found = mrs_of(grammar, full)
    return written(found) if isinstance(found, Mrs) else "no mrs at " + "".join("." + feature for feature in found)


def contribution(grammar, structure, path):
    """The predicates in the list at a path: none where it is missing or open."""
    said = DEFAULTS | grammar.case.get("mrs", {})
    names = grammar.words_of_lists
    whole = follow(structure, 0, [*path, said["rels"]])
    if whole is None:
        return []
    cell, last = (follow(structure, whole, [names[key]]) for key in ("LIST", "LAST"))
    preds = [follow(structure, place, [said["pred"]]) for place in grammar.elements(structure, cell, last) or []]
    reader = Extraction(grammar, structure)
    return [normal(reader.name(n)) for n in preds if n is not None]


# Equality


def are_equal(a, b):
    """Whether some one-to-one map of all variables, tried one after the other, makes the first MRS the second."""
    if len(a.variables) != len(b.variables) or sorted(a.bag().items()) != sorted(b.bag().items()):
        return False
    if sorted(map(outline, a.variables.values())) != sorted(map(outline, b.variables.values())):
        return False
    groups = {}
    for side, mrs in enumerate((a, b)):
        for v, variable in mrs.variables.items():
            role = (v == mrs.top, v == mrs.index, outline(variable))
            groups.setdefault(role, ([], []))[side].append(v)
    if any(len(left) != len(right) for left, right in groups.values()):
        return False
    count = 1
    for left, _ in groups.values():
        for k in range(len(left)):
            count *= k + 1
    if count > MOST_MAPS:
        raise TooMuch
    wanted = renamed(b, {v: v for v in b.variables})
    for way in itertools.product(*(itertools.permutations(right) for _, right in groups.values())):
        map_of = {v: w for (left, _), row in zip(groups.values(), way) for v, w in zip(left, row)}
        if renamed(a, map_of) == wanted:
            return True
    return False


def outline(variable):
    return variable[0], tuple(sorted(variable[1].items()))


def renamed(mrs, map_of):
    """The three bags of an MRS, spans aside, with other variables."""
    eps = [
        (pred, map_of[label], tuple(sorted((name, kind, map_of[value] if kind == "var" else value) for name, (kind, value) in roles.items())))
        for pred, label, roles, _ in mrs.eps
    ]
    rest = [sorted((map_of[a], rel, map_of[b]) for a, rel, b in of) for of in (mrs.hcons, mrs.icons)]
    return sorted(eps, key=repr), rest


# Texts


def written(mrs):
    """The text that the program writes."""
    return Writer(mrs, {v: k for k, v in enumerate(mrs.occurring())}).text()


class Writer:
    """Writes an MRS with these numbers of variables; what may be written in several ways is written as `way` says."""

    def __init__(self, mrs, numbers, way=lambda tokens, kind: tokens):
        self.mrs, self.numbers, self.way, self.met = mrs, numbers, way, set()

    def variable(self, v):
        sort, props = self.mrs.variables[v]
        name = f"{sort}{self.numbers[v]}"
        if v in self.met or not props:
            return [name]
        self.met.add(v)
        said = [part for prop, value in sorted(props.items(), key=by_name) for part in (raised(prop) + ":", value)]
        return self.way([name, "[", sort, *said, "]"], "variable")

    def filler(self, value):
        return self.variable(value[1]) if value[0] == "var" else [quoted(value[1])]

    def element(self, ep):
        pred, label, roles, span = ep
        head = (pred if re.fullmatch(r'[^\s\[\]<>"]+', pred) else quoted(pred)) + ("" if span is None else f"<{span[0]}:{span[1]}>")
        said = ["LBL:", *self.variable(label)]
        for name, value in sorted(roles.items(), key=by_name):
            said += [raised(name) + ":", *self.filler(value)]
        return ["[", *self.way([head], "pred"), *said, "]"]

    def constraint(self, said):
        left, rel, right = said
        return [*self.variable(left), rel, *self.variable(right)]

    def tokens(self):
        mrs = self.mrs
        found = ["[", *self.way(["TOP:"], "top"), *self.variable(mrs.top), "INDEX:", *self.variable(mrs.index), "RELS:", "<"]
        for ep in mrs.eps:
            found += self.element(ep)
        found += [">", "HCONS:", "<", *(part for said in mrs.hcons for part in self.constraint(said)), ">"]
        if mrs.icons:
            found += ["ICONS:", "<", *(part for said in mrs.icons for part in self.constraint(said)), ">"]
        return [*found, "]"]

    def text(self):
        return " ".join(self.tokens())
