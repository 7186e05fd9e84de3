"""Texts of MRSs to generate from: written in many ways, changed, and broken at a known byte."""
import re

from .bodies import quoted
from .mrs import Mrs, Writer, lowered, normal

FAULT = "\x01"


def asked_texts(chance, mrss):
    """Lines, each with the MRS that it says or the byte at which it is no MRS."""
    for mrs in mrss:
        yield text_of(chance, mrs), mrs
        for _ in range(3):
            changed = changed_of(chance, mrs)
            yield text_of(chance, changed), changed
        if chance.random() < 0.7:
            yield broken_of(chance, mrs)


def text_of(chance, mrs):
    """The text of an MRS, now and then as the program writes it, else in another way."""
    if chance.random() < 0.2:
        return " ".join(Writer(mrs, {v: k for k, v in enumerate(mrs.occurring())}).tokens())
    return spaced(chance, front_of(chance, Free(chance, mrs).tokens()))


class Free(Writer):
    """Writes an MRS as the grammar of texts allows it."""

    def __init__(self, chance, mrs):
        numbers = chance.sample(range(max(40, len(mrs.variables))), len(mrs.variables))
        super().__init__(shuffled(chance, mrs), dict(zip(mrs.occurring(), numbers)), self.free)
        self.chance = chance

    def variable(self, v):
        if self.chance.random() < 0.1:
            self.met.discard(v)
        return super().variable(v)

    def free(self, tokens, kind):
        draw = self.chance.random()
        if kind == "top":
            return ["LTOP:"] if draw < 0.3 else tokens
        if kind == "variable":
            return tokens if draw < 0.5 else [raised_first(tokens[0]), "[", self.chance.choice(("x", "any", "E")), *map(lowered, tokens[3:])]
        pred, span = re.fullmatch(r"(.*?)((?:<[0-9]+:[0-9]+>)?)", tokens[0], re.DOTALL).groups()
        if draw < 0.4:
            pred = pred[:-1] + '_rel"' if pred.startswith('"') else quoted(pred + "_rel_rel")
        return [pred + (span if draw < 0.8 else self.chance.choice(("<1:22>", "<@4>", "<>", "<4294967296:1>")))]


def raised_first(text):
    return text[0].upper() + text[1:]


def shuffled(chance, mrs):
    eps, hcons, icons = list(mrs.eps), list(mrs.hcons), list(mrs.icons)
    for of in (eps, hcons, icons):
        chance.shuffle(of)
    return Mrs(mrs.top, mrs.index, mrs.variables, eps, hcons, icons)


def front_of(chance, tokens):
    """Now and then with what is passed over before TOP."""
    draw = chance.random()
    if draw < 0.1:
        return [tokens[0], "<0:8>", '"it rains"', *tokens[1:]]
    return [tokens[0], '"a \\" b"', *tokens[1:]] if draw < 0.15 else tokens


def spaced(chance, tokens):
    blanks = (" ", " ", " ", "  ", "\t", "\u00a0") if chance.random() < 0.2 else (" ",)
    return "".join(token + chance.choice(blanks) for token in tokens[:-1]) + tokens[-1] + chance.choice(("", "", " "))


# Changes


def changed_of(chance, mrs):
    """Another MRS near this one, or this one."""
    variables = {v: (sort, dict(props)) for v, (sort, props) in mrs.variables.items()}
    eps = [(pred, label, dict(roles), span) for pred, label, roles, span in mrs.eps]
    new = Mrs(mrs.top, mrs.index, variables, eps, list(mrs.hcons), list(mrs.icons))
    chance.choice(CHANGES)(chance, new)
    new.variables = {v: new.variables[v] for v in new.occurring()}
    return new


def drop_ep(chance, new):
    if new.eps:
        new.eps.pop(chance.randrange(len(new.eps)))


def double_ep(chance, new):
    if new.eps:
        new.eps.append(chance.choice(new.eps))


def change_property(chance, new):
    sort, props = new.variables[chance.choice(list(new.variables))]
    name = chance.choice([*props, "tense", "png.num", "x_y"])
    props[name] = chance.choice(("v0", "v1", "value", "*"))
    if chance.random() < 0.4:
        del props[name]


def change_sort(chance, new):
    v = chance.choice(list(new.variables))
    new.variables[v] = chance.choice(("x", "e", "h", "i", "u", "xy")), new.variables[v][1]


def change_role(chance, new):
    if new.eps:
        roles = chance.choice(new.eps)[2]
        if roles:
            roles[chance.choice(list(roles))] = chance.choice([("var", v) for v in new.variables] + [("text", "Kim"), ("text", "")])


def drop_role(chance, new):
    if new.eps:
        roles = chance.choice(new.eps)[2]
        if roles and chance.random() < 0.6:
            del roles[chance.choice(list(roles))]
        else:
            roles[chance.choice(("arg0", "arg9", "carg"))] = ("var", chance.choice(list(new.variables)))


def change_constraint(chance, new):
    of = chance.choice((new.hcons, new.hcons, new.icons))
    some = lambda: chance.choice(list(new.variables))
    if of and chance.random() < 0.5:
        of.pop(chance.randrange(len(of)))
    if chance.random() < 0.7:
        of.append((some(), chance.choice(("qeq", "leq", "focus", "topic")), some()))


def change_pred(chance, new):
    if new.eps:
        k = chance.randrange(len(new.eps))
        pred, label, roles, span = new.eps[k]
        new.eps[k] = normal(chance.choice((pred + "x", "_a_n", "_b_v", "", "_go_v", pred.upper()))), label, roles, span


def change_top(chance, new):
    if chance.random() < 0.5:
        new.top = chance.choice(list(new.variables))
    else:
        new.index = chance.choice(list(new.variables))


def change_label(chance, new):
    if new.eps:
        k = chance.randrange(len(new.eps))
        pred, _, roles, span = new.eps[k]
        new.eps[k] = pred, chance.choice(list(new.variables)), roles, span


CHANGES = (
    drop_ep, double_ep, change_property, change_property, change_sort, change_role, change_role, change_constraint, change_constraint,
    change_pred, change_top, change_label, drop_role,
)

# Faults


def broken_of(chance, mrs):
    """A text that is no MRS, and the byte at which that shows. The faulty token is marked while the text is made."""
    tokens = Writer(mrs, {v: k for k, v in enumerate(mrs.occurring())}).tokens()
    rels = tokens.index("RELS:")
    label = next((k for k in range(rels, len(tokens)) if tokens[k] == "LBL:"), None)
    ends = [k for k in range(rels, tokens.index("HCONS:")) if tokens[k] == "]" and tokens[k + 1] in ("[", ">")]
    ways = [(cut_short, None), (strange_token, None), (behind, None)]
    if label is not None:
        ways += [(twice, label), (unlabelled, label), (text_label, label), (two_roles, ends[0]), (clash, label)]
    way, place = chance.choice(ways)
    text = " ".join(way(chance, tokens, place))
    at = len(text.encode()) if FAULT not in text else len(text[: text.index(FAULT)].encode())
    return text.replace(FAULT, ""), at


def cut_short(chance, tokens, _):
    return tokens[: chance.randrange(1, len(tokens))]


def strange_token(chance, tokens, _):
    name = chance.choice(("TOP:", "INDEX:", "RELS:", "HCONS:"))
    k = tokens.index(name)
    strange = chance.choice("]:>[") if name in ("TOP:", "INDEX:") else chance.choice("]:>[x")
    return [*tokens[: k + 1], FAULT + strange, *tokens[k + 1 :]]


def behind(chance, tokens, _):
    return [*tokens, FAULT + chance.choice(("x", "[", "]", '"'))]


def twice(chance, tokens, label):
    return [*tokens[: label + 2], FAULT + "LBL:", "h0", *tokens[label + 2 :]] if tokens[label + 2] != "[" else behind(chance, tokens, None)


def unlabelled(chance, tokens, label):
    """The first element loses its label and all its roles."""
    end = next(k for k in range(label, len(tokens)) if tokens[k] == "]" and tokens[k + 1] in ("[", ">"))
    return [*tokens[:label], FAULT + "]", *tokens[end + 1 :]]


def text_label(chance, tokens, label):
    return [*tokens[: label + 1], FAULT + '"a"', *tokens[label + 1 :]]


def two_roles(chance, tokens, end):
    return [*tokens[:end], "ZZ:", "h0", FAULT + "zz:", "h0", *tokens[end:]]


def clash(chance, tokens, label):
    """A variable that stands nowhere else has two values of one property."""
    return [*tokens[: label + 1], "h77", "[", "h", "P:", "a", "P:", FAULT + "b", "]", *tokens[label + 2 :]]
