"""Random MRSs for `scope`: quantifiers over nouns, nouns and verbs that ask for one another, negations and clauses between; and ones
that are spoilt in one place or several."""
from .mrs import Mrs
from .mrs_texts import Free, broken_of, changed_of, front_of, spaced

LIMITS = (1, 1, 1, 2, 2, 3, 5, None)


class Draft:
    """An MRS that grows. A variable is its letters and a number."""

    def __init__(self, chance):
        self.chance, self.variables, self.eps, self.hcons, self.icons = chance, {}, [], [], []

    def new(self, sort):
        name = f"{sort}{len(self.variables)}"
        self.variables[name] = sort, {}
        return name

    def add(self, pred, label, **roles):
        self.eps.append((pred, label, {name: ("var", v) for name, v in roles.items()}, None))

    def under(self, label):
        """A hole over a label: by qeq, now and then the label itself."""
        if self.chance.random() < 0.25:
            return label
        hole = self.new("h")
        self.hcons.append((hole, "qeq", label))
        return hole

    def thing(self, known):
        """A quantified noun, which now and then asks for another one. It gives the noun's variable."""
        chance, x, label = self.chance, self.new("x"), self.new("h")
        roles = {"arg0": x}
        if known and chance.random() < 0.35:
            roles["arg1"] = chance.choice(known)
        self.add("_dog_n", label, **roles)
        if chance.random() < 0.2:
            self.add("_big_a", label, arg0=self.new("e"), arg1=x)
        restriction = label if chance.random() < 0.05 else self.new("h")
        if restriction != label:
            self.hcons.append((restriction, "qeq", label))
        self.add("_every_q", self.new("h"), arg0=x, rstr=restriction, body=self.new("h"))
        return x

    def clause(self, things, depth):
        """A verb over things, with what stands over it. It gives the label and the event."""
        chance, e, label = self.chance, self.new("e"), self.new("h")
        roles = {"arg0": e}
        for name in ("arg1", "arg2", "arg3")[: chance.randint(0, 3)]:
            draw = chance.random()
            if draw < 0.25 and depth < 2:
                roles[name] = self.under(self.clause(things, depth + 1)[0])
            elif things:
                roles[name] = chance.choice(things)
        self.add("_chase_v", label, **roles)
        if chance.random() < 0.2:
            over = self.new("h")
            self.add("neg", over, arg0=self.new("e"), arg1=self.under(label))
            label = over
        return label, e


def mrs_of(chance):
    """An MRS of a usual form."""
    draft, things = Draft(chance), []
    for _ in range(chance.choice((0, 1, 1, 2, 2, 2, 3))):
        things.append(draft.thing(things))
    label, index = draft.clause(things, 0)
    if chance.random() < 0.2:
        left, right, over = (label, index), draft.clause(things, 1), draft.new("h")
        index = draft.new("e")
        draft.add("_and_c", over, arg0=index, **{"l-index": left[1], "l-hndl": draft.under(left[0]), "r-index": right[1], "r-hndl": draft.under(right[0])})
        label = over
    top = label
    if chance.random() < 0.4:
        top = draft.new("h")
        if chance.random() < 0.8:
            draft.hcons.append((top, "qeq", label))
    return Mrs(top, index, draft.variables, draft.eps, draft.hcons, draft.icons)


# Spoilt ones


def spoilt(chance, mrs):
    """An MRS near this one in what scope looks at, or elsewhere."""
    if chance.random() < 0.3:
        return changed_of(chance, mrs)
    eps = [(pred, label, dict(roles), span) for pred, label, roles, span in mrs.eps]
    new = Mrs(mrs.top, mrs.index, dict(mrs.variables), eps, list(mrs.hcons), list(mrs.icons))
    chance.choice(WAYS)(chance, new)
    new.variables = {v: new.variables[v] for v in new.occurring()}
    return new


def handles(mrs):
    return [v for v, (sort, _) in mrs.variables.items() if sort == "h"] or list(mrs.variables)


def other_end(chance, new):
    """One side of a constraint is another handle."""
    if new.hcons:
        k = chance.randrange(len(new.hcons))
        left, relation, right = new.hcons[k]
        other = chance.choice(handles(new))
        new.hcons[k] = (other, relation, right) if chance.random() < 0.5 else (left, relation, other)


def no_constraint(chance, new):
    if new.hcons:
        new.hcons.pop(chance.randrange(len(new.hcons)))


def more_constraint(chance, new):
    new.hcons.append((chance.choice([new.top, *handles(new)]), "qeq", chance.choice([ep[1] for ep in new.eps] or handles(new))))


def other_relation(chance, new):
    if new.hcons:
        k = chance.randrange(len(new.hcons))
        new.hcons[k] = new.hcons[k][0], chance.choice(("leq", "outscopes", "qeqs")), new.hcons[k][2]


def other_handle(chance, new):
    """A role of handles has another one: a hole in two roles, a label, or the top."""
    places = [(roles, name) for _, _, roles, _ in new.eps for name, value in roles.items() if value[0] == "var" and new.variables[value[1]][0] == "h"]
    if places:
        roles, name = chance.choice(places)
        roles[name] = "var", chance.choice(handles(new))


def other_label(chance, new):
    if new.eps:
        k = chance.randrange(len(new.eps))
        pred, _, roles, span = new.eps[k]
        new.eps[k] = pred, chance.choice([ep[1] for ep in new.eps]), roles, span


def other_thing(chance, new):
    """A role of things has another one: it is bound by another quantifier, or by two."""
    things = [v for v, (sort, _) in new.variables.items() if sort == "x"]
    places = [(roles, name) for _, _, roles, _ in new.eps for name, value in roles.items() if value[0] == "var" and value[1] in things]
    if places:
        roles, name = chance.choice(places)
        roles[name] = "var", chance.choice(things)


def other_name(chance, new):
    """A quantifier loses a role that makes it one, or another element gets such roles."""
    if new.eps:
        roles = chance.choice(new.eps)[2]
        if "body" in roles and chance.random() < 0.7:
            name = chance.choice(("rstr", "body", "arg0"))
            if name in roles:
                roles["arg4"] = roles.pop(name)
        elif "arg1" in roles:
            roles[chance.choice(("rstr", "body"))] = roles.pop("arg1")


def no_element(chance, new):
    if new.eps:
        new.eps.pop(chance.randrange(len(new.eps)))


def same_element(chance, new):
    """An element twice."""
    if new.eps:
        new.eps.append(chance.choice(new.eps))


def other_top(chance, new):
    new.top = chance.choice(handles(new))


def other_sort(chance, new):
    """A handle of another sort is no hole, but may be a label; a thing that is a handle is one."""
    v = chance.choice(list(new.variables))
    new.variables[v] = chance.choice(("h", "u", "x")), {}


WAYS = (
    other_end, no_constraint, more_constraint, more_constraint, other_relation, other_handle, other_handle, other_label, other_thing, other_name,
    other_name, no_element, same_element, other_top, other_sort,
)


def asked_lines(chance, count):
    """Lines, each with the MRS that it says in its order of elements, or the byte at which it is no MRS."""
    for _ in range(count):
        mrs = mrs_of(chance)
        for _ in range(chance.choice((0, 0, 1, 1, 2))):
            mrs = spoilt(chance, mrs)
        if chance.random() < 0.06:
            yield broken_of(chance, mrs)
        else:
            writer = Free(chance, mrs)
            yield spaced(chance, front_of(chance, writer.tokens())), writer.mrs
    yield "[ TOP: h0 INDEX: e1 RELS: < > HCONS: < > ]", Mrs("h0", "e1", {"h0": ("h", {}), "e1": ("e", {})}, [], [], [])
    yield "", 0
