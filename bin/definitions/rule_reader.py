"""A plain reader of rules of transfer: the tokens of a text, its statements, and the rules that they say; or the first fault, by the
stages in which faults are looked for: tokens, statements, the form of rules."""
import re
import unicodedata

from .mrs import lowered, normal
from .transfers import Element, Rule

BLANKS = "\t\n\v\f\r \x85\xa0\u1680\u2028\u2029\u202f\u205f\u3000" + "".join(map(chr, range(0x2000, 0x200B)))
MARKS = (":=", ":<", ":+", "<!", "!>", "...", "&", "[", "]", "<", ">", ",", ".")
MOST_BRACKETS, MOST_FEATURES, MOST_ELEMENTS = 200, 100, 8
PARTS = ("input", "context", "filter", "output")


class Fault(Exception):
    """A name, and the number of characters before the place of the fault."""


def rules_of(data):
    """The rules of a file's bytes, or the fault that is told: its place, as a byte, and its name."""
    try:
        text = data.decode()
    except UnicodeDecodeError as said:
        return None, (said.start, "NotUtf8")
    try:
        return rules_in(statements_of(text)), None
    except Fault as fault:
        name, at = fault.args
        return None, (len(text[:at].encode()), name)


# Tokens: a kind, what it says, and where it begins


def is_name_character(c):
    if ord(c) < 128:
        return c.isalnum() or c in "*+-_?@~"
    return unicodedata.category(c)[0] not in "ZC" or unicodedata.category(c) == "Cf"


def run_of(text, at):
    end = at
    while end < len(text) and is_name_character(text[end]):
        end += 1
    return text[at:end]


def tokens_of(text):
    found, at = [], 1 if text.startswith("\ufeff") else 0
    while at < len(text):
        kind, said, end = token_at(text, at, found)
        if kind is not None:
            found.append((kind, said, at))
        at = end
    return found


def token_at(text, at, before):
    """The token that begins here, or None as a kind where nothing is said, and where it ends."""
    c = text[at]
    if c in BLANKS:
        return None, "", at + 1
    if c == ";":
        end = text.find("\n", at)
        return None, "", len(text) if end < 0 else end
    if text.startswith("#|", at):
        return None, "", closed(text, "|#", at, at + 2, "OpenComment")
    if text.startswith('"""', at):
        return None, "", closed(text, '"""', at, at + 3, "OpenString")
    if c == '"':
        return text_at(text, at)
    if c == "(" and may_be_group(before, at):
        return group_at(text, at)
    if c == "%":
        return percent_at(text, at)
    for first, kind in (("'", "text"), ("#", "coref"), (":", "directive")):
        if c == first and (name := run_of(text, at + 1)) and not (c == ":" and name.startswith("+")):
            return kind, lowered(name), at + 1 + len(name)
    if name := run_of(text, at):
        return "name", lowered(name), at + len(name)
    for mark in MARKS:
        if text.startswith(mark, at):
            return mark, mark, at + len(mark)
    raise Fault("BadChar", at)


def closed(text, end, at, first, name):
    place = text.find(end, first)
    if place < 0:
        raise Fault(name, at)
    return place + len(end)


def text_at(text, at):
    said, k = [], at + 1
    while k < len(text) and text[k] != '"':
        k += text[k] == "\\"
        said.append(text[k : k + 1])
        k += 1
    if k >= len(text):
        raise Fault("OpenString", at)
    return "text", "".join(said), k + 1


def percent_at(text, at):
    for word in ("%prefix", "%suffix"):
        if text.startswith(word, at) and run_of(text, at + 1) == word[1:]:
            return word, word, at + len(word)
    if text.startswith("(", at + 1):
        return "%", at, at + 1
    raise Fault("BadChar", at)


def may_be_group(before, at):
    """Whether a group may stand here: directly after `%`, or after a spelling rule's word or one of its groups."""
    kinds = [kind for kind, _, _ in before]
    if kinds[-1:] == ["group"]:
        while kinds[-1] == "group":
            kinds.pop()
        return kinds[-1] != "%"
    return bool(kinds) and (kinds[-1] in ("%prefix", "%suffix") or kinds[-1] == "%" and before[-1][1] == at - 1)


def group_at(text, at):
    depth, k = 0, at
    while k < len(text):
        depth += {"(": 1, ")": -1}.get(text[k], 0)
        k += 1
        if depth == 0:
            return "group", text[at:k], k
    raise Fault("OpenGroup", at)


# Statements: a kind, what it says, and where it stands


def statements_of(text):
    return Statements(tokens_of(text), len(text)).file()


class Statements:
    def __init__(self, tokens, end):
        self.tokens, self.at, self.end, self.depth = tokens, 0, end, 0

    def kind(self):
        return self.tokens[self.at][0] if self.at < len(self.tokens) else None

    def take(self, *kinds, said=None):
        """The next token, which must be of one of these kinds, and say one of these words if any are named."""
        if self.at == len(self.tokens):
            raise Fault("EndOfFile", self.end)
        kind, word, place = self.tokens[self.at]
        if kind not in kinds or said is not None and word not in said:
            raise Fault("Unexpected", place)
        if kind in ("[", "<", "<!"):
            self.depth += 1
            if self.depth > MOST_BRACKETS:
                raise Fault("TooDeep", place)
        self.depth -= kind in ("]", ">", "!>")
        self.at += 1
        return word, place

    def is_next(self, kind):
        if self.kind() == kind:
            self.take(kind)
            return True
        return False

    def file(self):
        found = []
        while self.kind() is not None:
            found.append(self.statement())
        return found

    def statement(self):
        kind = self.kind()
        said, place = self.take("name", "directive", "%")
        if kind == "%":
            self.letter_set()
            return "letters", None, place
        if kind == "directive":
            self.directive(said, place)
            return "directive", None, place
        if self.is_next(":+"):
            self.body_to_end()
            return "adds", None, place
        self.take(":=", ":<", ":+")
        if self.kind() in ("%prefix", "%suffix"):
            self.affix()
            self.body_to_end()
            return "affix", None, place
        return "define", (said, self.body_to_end()), place

    def letter_set(self):
        group, place = self.take("group")
        if not re.fullmatch(r"\(letter-set\s*\(!\w\s+\w+\s*\)\s*\)", group):
            raise Fault("BadAffix", place)
        self.is_next(".")

    def affix(self):
        self.take("%prefix", "%suffix")
        while True:
            group, place = self.take("group")
            if len(group[1:-1].split()) != 2:
                raise Fault("BadAffix", place)
            if self.kind() != "group":
                return

    def directive(self, word, place):
        if word == "include":
            self.take("text")
        elif word == "begin":
            if self.take("directive", said=("type", "instance"))[0] == "instance":
                self.take("directive", said=("status",))
                self.take("name")
        elif word == "end":
            self.take("directive", said=("type", "instance"))
        else:
            raise Fault("Unexpected", place)
        self.take(".")

    def body_to_end(self):
        body = self.body()
        self.take(".")
        return body

    def body(self):
        terms = [self.term()]
        while self.is_next("&"):
            terms.append(self.term())
        return terms

    def term(self):
        kind = self.kind()
        said, _ = self.take("name", "text", "coref", "[", "<", "<!")
        if kind == "[":
            return "avm", self.features()
        if kind == "<":
            return "list", self.items()
        if kind == "<!":
            return "diff", self.all_to("!>")
        return kind, said

    def features(self):
        """Pairs of a path and a body."""
        found = []
        if self.is_next("]"):
            return found
        while True:
            path = [self.take("name")[0]]
            while self.is_next("."):
                path.append(self.take("name")[0])
            found.append((path, self.body()))
            if self.take(",", "]")[0] == "]":
                return found

    def items(self):
        """The items of a list, and whether it is closed."""
        if self.is_next(">"):
            return [], True
        if self.is_next("..."):
            self.take(">")
            return [], False
        found = [self.body()]
        while True:
            mark, _ = self.take(",", ".", ">")
            if mark == ">":
                return found, True
            if mark == "." or self.is_next("..."):
                if mark == ".":
                    self.body()
                self.take(">")
                return found, False
            found.append(self.body())

    def all_to(self, last):
        found = []
        if self.is_next(last):
            return found
        while True:
            found.append(self.body())
            if self.take(",", last)[0] == last:
                return found


# The form of rules


class NoRule(Exception):
    """A statement is outside the form."""


def ask(is_so):
    if not is_so:
        raise NoRule


def rules_in(statements):
    found = []
    for kind, said, place in statements:
        try:
            ask(kind == "define" and said[0] not in [rule.name for rule in found])
            found.append(rule_of(*said))
        except NoRule:
            raise Fault("Form", place) from None
    return found


def rule_of(name, body):
    parts = dict.fromkeys(PARTS)
    for feature, value in features_of(body):
        ask(feature in PARTS and parts[feature] is None)
        parts[feature] = elements_of(value, feature == "output")
    given, context, filtered, output = parts.values()
    ask(given)
    ask(len(given) + len(context or []) <= MOST_ELEMENTS and all(len(of or []) <= MOST_ELEMENTS for of in (filtered, output)))
    return Rule(name, given, context or [], filtered, output or [])


def features_of(body):
    """The features of a body that is one feature term, each a single name and a single term."""
    ask(len(body) == 1 and body[0][0] == "avm")
    for path, value in body[0][1]:
        ask(len(path) == 1 and len(value) == 1)
    return [(path[0], value[0]) for path, value in body[0][1]]


def elements_of(value, in_output):
    kind, said = value
    ask(kind == "list" and said[1])
    return [element_of(features_of(item), in_output) for item in said[0]]


def element_of(features, in_output):
    names = [name for name, _ in features]
    ask(len(features) <= MOST_FEATURES and len(set(names)) == len(names))
    said = dict(features)
    pred, label = said.pop("pred", None), said.pop("lbl", None)
    ask(pred is not None and pred[0] in ("name", "text"))
    ask(label is None and not in_output or label is not None and is_coref(label))
    ask(all(value[0] == "text" or is_coref(value) for value in said.values()))
    return Element(normal(pred[1]), None if label is None else label[1], list(said.items()))


def is_coref(value):
    return value[0] == "coref" and re.fullmatch("[a-z]+[0-9]+", value[1]) is not None
