"""MRSs in the notation SimpleMRS: read in any layout, written on one line as `lkb` writes them, or indented."""
import re

NAME = re.compile(r'[^\s\[\]<>:"]+')
PRED = re.compile(r'"(?:[^"\\]|\\.)*"|[^\s\[\]<>"]+', re.DOTALL)
STRING = re.compile(r'"((?:[^"\\]|\\.)*)"', re.DOTALL)
VARIABLE = re.compile(r"([A-Za-z]+)([0-9]+)")
LNK = re.compile(r"<[^>]*>")
SPACE = re.compile(r"\s*")


class NoMrs(Exception):
    """The text isn't an MRS: what was expected, and at which character."""

    def __init__(self, what, at):
        super().__init__(what)
        self.at = at


class Text(str):
    """A role's value that is a text and no variable."""


class Ep:
    """An elementary predication: predicate, span or None, label, and roles with their values, in the order of writing."""

    __slots__ = ("pred", "span", "label", "roles")

    def __init__(self, pred, span, label=None):
        self.pred, self.span, self.label, self.roles = pred, span, label, []


class Mrs:
    """An MRS. `variables` has each variable with its properties, in the order of first occurrence."""

    def __init__(self):
        self.top = self.index = None
        self.eps, self.hcons, self.icons, self.variables = [], [], [], {}


class Reader:
    def __init__(self, text, at=0):
        self.text, self.at, self.mrs = text, at, Mrs()

    def skip(self):
        self.at = SPACE.match(self.text, self.at).end()

    def wrong(self, what):
        got = self.text[self.at:self.at + 20].split("\n")[0]
        raise NoMrs(f"{what} is expected, not {got!r}" if got else f"{what} is expected, and the text ends", self.at)

    def take(self, form, what):
        self.skip()
        found = form.match(self.text, self.at)
        if found is None:
            self.wrong(what)
        self.at = found.end()
        return found[0]

    def sees(self, mark):
        self.skip()
        return self.text.startswith(mark, self.at)

    def mark(self, mark):
        if not self.sees(mark):
            self.wrong(f"'{mark}'")
        self.at += len(mark)

    def keyword(self, *words):
        name = self.take(NAME, " or ".join(words))
        if name.upper() not in words:
            self.at -= len(name)
            self.wrong(" or ".join(words))
        self.mark(":")

    def variable(self):
        self.skip()
        found = VARIABLE.match(self.text, self.at)
        end = NAME.match(self.text, self.at)
        if found is None or end is None or end.end() != found.end():
            self.wrong("a variable, as h0")
        self.at = found.end()
        name = found[0].lower()
        properties = self.mrs.variables.setdefault(name, {})
        if self.sees("["):
            self.mark("[")
            self.skip()
            self.take(NAME, "the sort of a variable")
            while not self.sees("]"):
                key = self.take(NAME, "a property").upper()
                self.mark(":")
                properties[key] = self.take(NAME, "a property's value")
            self.mark("]")
        return name

    def value(self):
        if self.sees('"'):
            return Text(re.sub(r"\\(.)", r"\1", self.take(STRING, "a text")[1:-1], flags=re.DOTALL))
        return self.variable()

    def ep(self):
        self.mark("[")
        start = self.at
        pred, span = self.take(PRED, "a predicate"), None
        if self.text.startswith("<", self.at):
            lnk = self.take(LNK, "a span, as <0:3>")
            found = re.fullmatch(r"<(\d+):(\d+)>", lnk)
            span = (int(found[1]), int(found[2])) if found else None
        pred = re.sub(r"\\(.)", r"\1", pred[1:-1], flags=re.DOTALL) if pred.startswith('"') else pred
        ep = Ep(pred, span)
        while not self.sees("]"):
            role = self.take(NAME, "a role or ']'").upper()
            self.mark(":")
            if role == "LBL":
                if ep.label is not None:
                    raise NoMrs("a second LBL of one relation", self.at)
                ep.label = self.variable()
            elif role in (name for name, _ in ep.roles):
                raise NoMrs(f"the role {role} a second time", self.at)
            else:
                ep.roles.append((role, self.value()))
        if ep.label is None:
            raise NoMrs(f"the relation {pred} has no LBL", start)
        self.mark("]")
        self.mrs.eps.append(ep)

    def constraints(self, into):
        self.mark("<")
        while not self.sees(">"):
            left = self.variable()
            name = self.take(NAME, "the name of a constraint, as qeq").lower()
            into.append((left, name, self.variable()))
        self.mark(">")

    def read(self):
        mrs = self.mrs
        self.mark("[")
        if self.sees("<"):
            self.take(LNK, "a span")
        if self.sees('"'):
            self.take(STRING, "a text")
        self.keyword("TOP", "LTOP")
        mrs.top = self.variable()
        self.keyword("INDEX")
        mrs.index = self.variable()
        self.keyword("RELS")
        self.mark("<")
        while not self.sees(">"):
            self.ep()
        self.mark(">")
        for name, into in (("HCONS", mrs.hcons), ("ICONS", mrs.icons)):
            if not self.sees("]") and self.text[self.at:self.at + 5].upper() == name:
                self.keyword(name)
                self.constraints(into)
        self.mark("]")
        return mrs


def read(text):
    """The MRS that a whole text writes."""
    reader = Reader(text)
    mrs = reader.read()
    reader.skip()
    if reader.at < len(text):
        reader.wrong("the end")
    return mrs


def read_all(text):
    """The MRSs that stand one after another in a text, in any layout, each with the text that writes it."""
    reader = Reader(text)
    reader.skip()
    while reader.at < len(text):
        start = reader.at
        reader.mrs = Mrs()
        mrs = reader.read()
        yield mrs, text[start:reader.at]
        reader.skip()


def on_one_line(text):
    """The same text with one blank for each run of white space outside texts in quotes."""
    return re.sub(r'("(?:[^"\\]|\\.)*")|\s+', lambda found: found[1] or " ", text.strip(), flags=re.DOTALL)


def quoted(text):
    return '"' + re.sub(r'(["\\])', r"\\\1", text) + '"'


class Writer:
    """Writes an MRS; a variable has its properties at its first occurrence."""

    def __init__(self, mrs):
        self.mrs, self.met = mrs, set()

    def variable(self, name):
        properties = self.mrs.variables.get(name)
        if name in self.met or not properties:
            self.met.add(name)
            return name
        self.met.add(name)
        said = " ".join(f"{key}: {value}" for key, value in properties.items())
        return f"{name} [ {VARIABLE.match(name)[1]} {said} ]"

    def value(self, value):
        return quoted(value) if isinstance(value, Text) else self.variable(value)

    def ep(self, ep):
        pred = ep.pred if PRED.fullmatch(ep.pred) and not ep.pred.startswith('"') else quoted(ep.pred)
        span = f"<{ep.span[0]}:{ep.span[1]}>" if ep.span else ""
        roles = "".join(f" {name}: {self.value(value)}" for name, value in ep.roles)
        return f"[ {pred}{span} LBL: {self.variable(ep.label)}{roles} ]"

    def constraints(self, constraints):
        return "< " + "".join(f"{self.variable(left)} {name} {self.variable(right)} " for left, name, right in constraints) + ">"

    def parts(self):
        mrs = self.mrs
        yield "TOP", self.variable(mrs.top)
        yield "INDEX", self.variable(mrs.index)
        yield "RELS", [self.ep(ep) for ep in mrs.eps]
        yield "HCONS", self.constraints(mrs.hcons)
        if mrs.icons:
            yield "ICONS", self.constraints(mrs.icons)


def write(mrs):
    parts = [f"{name}: " + (value if isinstance(value, str) else "< " + "".join(ep + " " for ep in value) + ">") for name, value in Writer(mrs).parts()]
    return "[ " + " ".join(parts) + " ]"


def indented(mrs):
    """The same over several lines: a line for each part, and for each relation."""
    parts = []
    for name, value in Writer(mrs).parts():
        if not isinstance(value, str):
            value = "< " + ("\n" + " " * 10).join(value) + (" >" if value else ">")
        parts.append(f"{name}: {value}")
    return "[ " + "\n  ".join(parts) + " ]"


def numbers(mrs):
    """The number that `lkb` gives each variable: by first occurrence where roles stand in order of their bytes."""
    found = {}
    for name in occurring(mrs):
        found.setdefault(name, len(found))
    return found


def occurring(mrs):
    yield mrs.top
    yield mrs.index
    for ep in mrs.eps:
        yield ep.label
        for _, value in sorted(ep.roles, key=lambda role: role[0].encode()):
            if not isinstance(value, Text):
                yield value
    for left, _, right in [*mrs.hcons, *mrs.icons]:
        yield left
        yield right
