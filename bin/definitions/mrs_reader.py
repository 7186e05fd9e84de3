"""A plain reader of MRSs as the program writes them: one blank between tokens, TOP first, HCONS always there."""
import re

from .mrs import Mrs

TOKEN = re.compile(r'"(?:[^"\\]|\\.)*"|[\[\]<>]|[^\s\[\]<>"]+')


def mrs_of_text(text):
    return Reader(TOKEN.findall(text)).mrs()


class Reader:
    def __init__(self, tokens):
        self.tokens, self.at, self.variables = tokens, 0, {}

    def take(self, *wanted):
        """The next token, one of these if any are named."""
        token = self.tokens[self.at]
        if wanted and token not in wanted:
            raise ValueError(f"{token} where {' or '.join(wanted)} should stand")
        self.at += 1
        return token

    def is_next(self, token):
        return self.at < len(self.tokens) and self.tokens[self.at] == token

    def mrs(self):
        self.take("[")
        self.take("TOP:")
        top = self.variable()
        self.take("INDEX:")
        index = self.variable()
        self.take("RELS:")
        eps = self.listed(self.element)
        self.take("HCONS:")
        hcons, icons = self.listed(self.constraint), []
        if self.is_next("ICONS:"):
            self.take()
            icons = self.listed(self.constraint)
        self.take("]")
        return Mrs(top, index, self.variables, eps, hcons, icons)

    def listed(self, item):
        self.take("<")
        found = []
        while not self.is_next(">"):
            found.append(item())
        self.take(">")
        return found

    def variable(self):
        """A variable by its letters and number; its properties are kept where they stand."""
        name = self.take()
        self.variables.setdefault(name, (re.match("[a-z]+", name)[0], {}))
        if self.is_next("["):
            self.take()
            self.take()
            while not self.is_next("]"):
                key = self.take().removesuffix(":").lower()
                self.variables[name][1][key] = self.take()
            self.take("]")
        return name

    def element(self):
        self.take("[")
        pred, roles, span = self.take(), {}, None
        if self.is_next("<"):
            self.take()
            span = tuple(map(int, self.take().split(":")))
            self.take(">")
        while not self.is_next("]"):
            name = self.take().removesuffix(":").lower()
            roles[name] = ("text", self.take()[1:-1]) if self.tokens[self.at].startswith('"') else ("var", self.variable())
        self.take("]")
        return pred, roles.pop("lbl")[1], roles, span

    def constraint(self):
        return self.variable(), self.take(), self.variable()
