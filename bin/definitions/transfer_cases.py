"""Random rules of transfer and MRSs to which they apply often; and texts of rules that are out of form, or changed in one place or two."""
from .bodies import quoted
from .mrs import Mrs, lowered, raised
from .mrs_texts import Free, broken_of, changed_of, front_of, spaced
from .scope_cases import mrs_of as usual_mrs

PREDS, MORE = ("_a_n", "_b_v", "_c_q", "d"), ("_e_n", "_f_v", "g+h", "1k")
ROLES, TEXTS = ("arg0", "arg1", "arg2", "carg", "rstr"), ("Kim", "kim", "", 'a"\\b')
SORTS = ("h", "h", "e", "x", "x", "i", "u", "xy")
PROPERTIES = {"num": ("sg", "pl"), "tense": ("pres", "+"), "e.f": ("v1", "v2")}
PARTS = ("INPUT", "CONTEXT", "FILTER", "OUTPUT")
STRANGE = (
    "[", "]", "<", ">", ",", ".", "&", ":=", ":+", "<!", "!>", "...", "x", '"x"', "#x1", ":begin", ":type", "%suffix", "%(letter-set (!a bc))", "'x", "PRED",
    "LBL", "FILTER", "; \n",
)

# MRSs


def mrs_of(chance):
    """A small MRS with few predicates and variables, or one of a usual form."""
    if chance.random() < 0.25:
        return usual_mrs(chance)
    variables = {}
    for _ in range(chance.randint(2, 6)):
        sort = chance.choice(SORTS)
        props = {} if sort == "h" else {name: chance.choice(values) for name, values in PROPERTIES.items() if chance.random() < 0.3}
        variables[f"{sort}{len(variables)}"] = sort, props
    names = list(variables)
    labels = [v for v in names if v[0] == "h"] or names
    some = lambda: chance.choice(names)
    eps = [element_of(chance, labels, names) for _ in range(chance.choice((0, 1, 2, 2, 3, 3, 4, 5, 6)))]
    hcons = [(some(), chance.choice(("qeq", "qeq", "leq")), some()) for _ in range(chance.choice((0, 0, 1, 2)))]
    icons = [(some(), "topic", some())] if chance.random() < 0.1 else []
    mrs = Mrs(chance.choice(labels), some(), variables, eps, hcons, icons)
    mrs.variables = {v: variables[v] for v in mrs.occurring()}
    return mrs


def element_of(chance, labels, names):
    roles = {}
    for name in chance.sample(ROLES, chance.choice((0, 1, 1, 2, 2, 3))):
        is_text = chance.random() < (0.6 if name == "carg" else 0.05)
        roles[name] = ("text", chance.choice(TEXTS)) if is_text else ("var", chance.choice(names))
    if chance.random() < 0.03:
        roles["pred"] = "var", chance.choice(names)
    span = (chance.randint(0, 3), chance.randint(0, 30)) if chance.random() < 0.2 else None
    return chance.choice(PREDS), chance.choice(labels), roles, span


class Spanned(Free):
    """Writes an MRS in any way, where each predicate keeps its span or that it has none."""

    def free(self, tokens, kind):
        if kind != "pred":
            return super().free(tokens, kind)
        text, span = tokens[0], ""
        if text.endswith(">") and not text.startswith('"') or text.startswith('"') and not text.endswith('"'):
            text, _, span = text.rpartition("<")
            span = "<" + span
        if self.chance.random() < 0.3:
            text = text[:-1] + '_rel"' if text.startswith('"') else quoted(raised(text) + "_rel_REL")
        if span and self.chance.random() < 0.3:
            span = span.replace(":", ":00")
        if not span and self.chance.random() < 0.1:
            span = self.chance.choice(("<@4>", "<>", "<4294967296:1>", "<1>"))
        return [text + span]


def asked_lines(chance, mrss):
    """Lines, each with the MRS that it says, or the byte at which it is no MRS."""
    for mrs in mrss:
        if chance.random() < 0.4:
            mrs = changed_of(chance, mrs)
        if chance.random() < 0.05:
            yield broken_of(chance, mrs)
        else:
            writer = Spanned(chance, mrs)
            yield spaced(chance, front_of(chance, writer.tokens())), writer.mrs


# Rules


class Maker:
    """Makes the elements of a rule from those of an MRS, so that it has a site there, most often. An element is a predicate, a label or none,
    and pairs of a role and what fills it."""

    def __init__(self, chance, mrs):
        self.chance, self.mrs, self.names, self.count = chance, mrs, {}, 0

    def fresh(self, sort):
        draw, self.count = self.chance.random(), self.count + 1
        letters = sort if draw < 0.75 else "u" if draw < 0.95 else self.chance.choice(SORTS)
        return f"#{letters}{self.count if draw > 0.1 else self.chance.randint(0, 3)}"

    def coref(self, v):
        if v not in self.names or self.chance.random() < 0.04:
            self.names[v] = self.fresh(self.mrs.variables[v][0])
        return self.names[v]

    def matching(self, ep, keeps):
        """An element that fits this predication, of whose label and roles so many are written."""
        pred, label, roles, _ = ep
        written = [(name, self.filler(value)) for name, value in roles.items() if self.chance.random() < keeps and name != "pred"]
        self.chance.shuffle(written)
        return pred, self.coref(label) if self.chance.random() < keeps else None, written

    def filler(self, value):
        return self.coref(value[1]) if value[0] == "var" else quoted(value[1])

    def any(self, preds, has_label):
        """Any element, with coreferences that the rule has, or new ones."""
        chance = self.chance
        some = lambda sort: chance.choice([*self.names.values()]) if self.names and chance.random() < 0.7 else self.fresh(sort)
        filled = lambda: quoted(chance.choice(TEXTS)) if chance.random() < 0.15 else some(chance.choice(SORTS))
        roles = [(name, filled()) for name in chance.sample(ROLES, chance.choice((0, 1, 1, 2, 3)))]
        return chance.choice(preds), some("h") if has_label or chance.random() < 0.4 else None, roles

    def rule(self):
        """The lists of a rule; None is one that isn't there."""
        chance, eps = self.chance, list(self.mrs.eps)
        chance.shuffle(eps)
        count = chance.choice((1, 1, 1, 2, 2, 3)) if eps else 0
        keeps = chance.choice((0.2, 0.4, 0.7, 1))
        given = [self.matching(ep, keeps) for ep in eps[:count]] or [self.any(PREDS, False)]
        context = [self.matching(ep, keeps) for ep in eps[count : count + chance.choice((0, 0, 1, 1, 2))]] or None
        filtered = self.filter_of(eps) if chance.random() < 0.35 else None
        preds = MORE if chance.random() < 0.75 else PREDS + MORE
        output = [self.any(preds, True) for _ in range(chance.choice((0, 1, 1, 1, 2, 2, 3)))]
        if chance.random() < 0.1 and given[0][1]:
            output = [*output, given[0]]
        return dict(zip(PARTS, (given, context, filtered, output if output or chance.random() < 0.5 else None)))

    def filter_of(self, eps):
        draw = self.chance.random()
        if draw < 0.1 or not eps:
            return []
        known = dict(self.names)
        some = self.chance.sample(eps, self.chance.randint(1, min(2, len(eps))))
        found = [self.matching(ep, 0.6) for ep in some] if draw < 0.5 else [self.any(PREDS, False)]
        self.names = known
        return found


def rules_of(chance, mrss):
    return [Maker(chance, chance.choice(mrss)).rule() for _ in range(chance.choice((0, 1, 2, 2, 3, 3, 4)))]


def rules_at_budget(chance, n):
    """Rules that apply, to an MRS of n relations of one predicate, as often as may be, or once more or less: each relation becomes several, then each
    of these another one, and at last some of them, since as many of the rest stay as the last rule's CONTEXT has."""
    copies = {1: 8, 2: 4, 3: 3}[n]
    count, left = n * copies, 16 * (n + 1) + chance.choice((-1, 0, 0, 0, 1)) - n
    rule = lambda pred, rest, made: dict(zip(PARTS, ([(pred, "#u1", [])], [(pred, None, [])] * rest or None, None, [(p, "#u1", []) for p in made])))
    rules = [rule("_a_n", 0, ["p0"] * copies)]
    while left > 0:
        rest = max(0, count - left)
        rules.append(rule(f"p{len(rules) - 1}", rest, [f"p{len(rules)}"]))
        left -= count - rest
    return rules


def mrss_at_budget():
    """MRSs of one, two and three relations of one predicate."""
    for n in (1, 2, 3):
        yield n, Mrs("h0", "e1", {"h0": ("h", {}), "e1": ("e", {})}, [("_a_n", "h0", {}, None)] * n, [], [])


# Their texts, as lists of tokens


class Written:
    """Writes rules; now and then, as often as `odd` says, something out of form."""

    def __init__(self, chance, odd):
        self.chance, self.odd = chance, odd

    def is_odd(self):
        return self.chance.random() < self.odd

    def cased(self, text):
        draw = self.chance.random()
        return raised(text) if draw < 0.2 else lowered(text) if draw < 0.4 else text

    def rules(self, rules):
        tokens = []
        for number, rule in enumerate(rules):
            tokens += self.rule(f"r{self.chance.randint(0, number) if self.is_odd() else number}", rule)
            if self.is_odd():
                tokens += self.chance.choice((
                    [":begin", ":type", "."], ["%(letter-set (!a bc))"], ["r9", ":+", "[", "]", "."], ["r9", ":=", "%suffix", "(a b)", "*top*", "."],
                    ["r9", ":=", "%prefix", "(a b)", "(a b c)", "*top*", "."], ["%(letter-set (!a))"], ["r9", ":=", "%suffix", "(a b", "*top*", "."],
                    [":include", '"x"', "."], ["r9", ":=", "*top*", "&", "["] + ["INPUT", "<", "[", "PRED", "d", "]", ">", "]", "."],
                    [":end", ":instance", "."], ["r9", ":=", "[", "]", "."],
                ))
        return tokens

    def rule(self, name, rule):
        there = [(part, elements) for part, elements in rule.items() if elements is not None and not self.is_odd()]
        self.chance.shuffle(there)
        if self.is_odd():
            there.append(self.chance.choice((("INPUT", []), ("OTHER", []), ("FILTER", []), ("OUTPUT.X", []))))
        said = []
        for part, elements in there:
            if self.is_odd():
                elements = elements * self.chance.choice((0, 4, 8, 9))
            said += [",", *self.cased(part).replace(".", " . ").split(), *self.list([self.element(element, part) for element in elements])]
        return [self.cased(name), self.chance.choice((":=", ":=", ":<")), "[", *said[1:], "]", "."]

    def list(self, items):
        inner = [token for item in items for token in (",", *item)][1:]
        if self.is_odd():
            return self.chance.choice((
                ["<!", *inner, "!>"], ["<", "...", ">"], ["<", *inner, *([",", "..."] if inner else ["..."]), ">"], ["<", *inner, ">", "&", "#x1"],
                ["<", "[", "]", ".", "#x1", ">"], ['"x"'], ["#x1"], ["list"],
            ))
        return ["<", *inner, ">"]

    def element(self, element, part):
        pred, label, roles = element
        said = [(self.cased("PRED"), self.pred(pred)), *((self.cased(raised(name)), self.value(value)) for name, value in roles)]
        if label is not None and not self.is_odd():
            said.insert(1, (self.cased("LBL"), self.value(label)))
        if self.is_odd():
            many = [(f"F{k}", ["#x1"]) for k in range(self.chance.choice((97, 98, 100)))]
            said += self.chance.choice((
                [("PRED", ["d"])], [("Arg0", ["#x1"])] * 2, [("LBL", ["#h1"])], [("A . B", ["#x1"])], many, [("ARG9", ["<", ">"])],
                [("ARG9", ["#x1", "&", "#x2"])], [("ARG9", ["[", "]"])],
            ))
        if self.chance.random() < 0.5:
            self.chance.shuffle(said)
        inner = [token for name, value in said for token in (",", *name.split(), *value)][1:]
        return ["[", *inner, "]"] if not self.is_odd() else self.chance.choice((["*top*", "&", "[", *inner, "]"], ["d"], ["[", "]"]))

    def pred(self, pred):
        if self.is_odd():
            return self.chance.choice((["#x1"], ["[", "]"], ["d", "&", "d"], ["<", ">"]))
        text = self.cased(pred) + self.chance.choice(("", "", "_rel", "_REL_rel"))
        return [self.chance.choice((text, quoted(text), "'" + text))]

    def value(self, value):
        if self.is_odd():
            return self.chance.choice((["#x"], ["#1"], ["#x1y"], ["#x-1"], ["x1"], ['"x1"'], ["#ä1"], ["[", "]"], ["'Kim"], ["#u007"]))
        return [value if value.startswith('"') else self.cased(value)]


def text_of(chance, tokens):
    """The text of tokens, now and then with comments, and without blanks where none are needed."""
    parts, before = [], ""
    for token in tokens:
        draw = chance.random()
        if draw < 0.02:
            parts.append(chance.choice((" ; a comment [\n", " #| a ( comment |# ", ' """a docstring := """ ', "\u00a0", "\t", "\r\n")))
        elif draw < 0.1:
            parts.append("\n")
        elif draw < 0.9 or not (before[-1:] in "[],&" or token[0] in "[],&"):
            parts.append(" ")
        parts.append(token)
        before = token
    return ("\ufeff" if chance.random() < 0.05 else "") + "".join(parts).strip(" ")


def changed_tokens(chance, tokens):
    """Tokens with one more, one less, two in another order, or one in the place of another."""
    tokens, at = list(tokens), chance.randrange(len(tokens) + 1) if tokens else 0
    strange = chance.choice(STRANGE)
    way = chance.randrange(4)
    if way == 0:
        return [*tokens[:at], strange, *tokens[at:]]
    if way == 1:
        return tokens[:at] + tokens[at + 1 :]
    if way == 2:
        return [*tokens[:at], *tokens[at : at + 2][::-1], *tokens[at + 2 :]]
    return [*tokens[:at], strange, *tokens[at + 1 :]]


def changed_characters(chance, text):
    """A text with a character that begins nothing, or that opens what isn't closed; or a front of it."""
    at = chance.randrange(len(text) + 1)
    strange = chance.choice(("$", "=", '"', "#|", '"""', "(", "%", "#", "'", ":", "|#", "\\", "!", "\udcff", "é", None))
    return text[:at] if strange is None else text[:at] + strange + text[at:]


def many_brackets(chance, text):
    return text + "\nlast := [ INPUT " + chance.choice(("[ A ", "< ", "<! ")) * chance.choice((199, 200, 230))
