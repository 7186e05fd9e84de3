"""A plain reader of grammars in TDL, as far as those of `examples` go: it makes of a grammar's files what `Grammar` takes. A text outside
the form is an error of this reader; which faults `lkb` tells is compared elsewhere."""
import re

from .bodies import NAMES

TOKEN = re.compile(r';[^\n]*|"(?:[^"\\]|\\.)*"|%\(letter-set\s*\([^()]*\)\s*\)|%(?:suffix|prefix)(?:\s*\([^()]*\))+|:=|:begin|:end|:include|:status|:instance|:type|<!|!>|\.\.\.|#?[^\s()<>\[\]!,.&;"#:%]+|[\S]')
KINDS = {"lex-entry": "entries", "lex-rule": "lexical", "rule": "rules", "root": "roots"}
DEFAULTS = {"limit": 255, "restrictors": ["CONT", "C-CONT", "STEM"], "daughters": ["ARGS"], "edges": 5000, "readings": 10000, "unary": 8, "lexical-limit": 7, "empty": 4}


def case_of_files(folder, top, irregular=None, names=NAMES):
    """A grammar with its irregular forms and what it calls its lists, its daughters and its words, under the settings' defaults."""
    case = {**DEFAULTS, "names": names, "types": [], "entries": [], "lexical": [], "rules": [], "roots": [], "words": {}, "spelling": {}, "letters": {}, "irregular": [], "order": []}
    Reader(folder, top, case).file()
    for line in (folder / irregular).read_text().split("\n") if irregular else ():
        if len(words := line.split()) == 3 and not line.startswith(";"):
            case["irregular"].append(tuple(word.casefold() for word in words))
    case["irregular"] = [line for line in case["irregular"] if line[1] in case["spelling"]]
    return case


def without(terms, kind):
    return [term for term in terms if term[0] != kind]


class Reader:
    def __init__(self, folder, name, case, status=None):
        self.folder, self.case, self.status = folder, case, status
        text = (folder / f"{name}.tdl").read_text()
        self.tokens = [token for token in TOKEN.findall(text) if not token.startswith(";")]
        self.at = 0

    def peek(self):
        return self.tokens[self.at] if self.at < len(self.tokens) else None

    def take(self, *wanted):
        token = self.peek()
        if token is None or wanted and token not in wanted:
            raise ValueError(f"{token} where {' or '.join(wanted)} should stand: {' '.join(self.tokens[max(0, self.at - 12):self.at])}")
        self.at += 1
        return token

    def is_next(self, token):
        if self.peek() == token:
            self.at += 1
            return True
        return False

    def file(self):
        while self.peek() is not None:
            if self.is_next(":include"):
                Reader(self.folder, self.take()[1:-1], self.case, self.status).file()
                self.take(".")
            elif self.is_next(":begin"):
                self.begin()
            elif self.is_next(":end"):
                self.take(":instance", ":type")
                self.take(".")
                self.status = None
            elif self.peek().startswith("%("):
                self.letters()
            else:
                self.definition()

    def begin(self):
        if self.take(":instance", ":type") == ":instance":
            self.take(":status")
            self.status = KINDS[self.take()]
        self.take(".")

    def letters(self):
        """`%(letter-set (!c abc)).`, with its full stop or without."""
        name, members = re.fullmatch(r"%\(letter-set\s*\(\s*!(\S)\s+(\S+)\s*\)\s*\)", self.take()).groups()
        self.case["letters"][name] = members
        self.is_next(".")

    def definition(self):
        name = self.take()
        self.take(":=")
        spelling = self.spelling()
        terms = self.conjunction()
        self.take(".")
        if self.status is None:
            parents = [value for kind, value in terms if kind == "type"]
            self.case["types"].append((name, parents, [((), without(terms, "type"))]))
            return
        self.case[self.status].append((name, [((), terms)]))
        self.case["order"].append((self.status, name))
        if self.status == "lexical":
            self.case["spelling"][name] = spelling
        elif self.status == "entries":
            words = [value for kind, body in terms if kind == "avm" for path, of in body if path == (self.case["names"]["STEM"],) for _, (items, _) in of for ((_, value),) in items]
            self.case["words"][name] = tuple(word.casefold() for text in words for word in text.split())

    def spelling(self):
        """Whether suffixes are spelled, and the groups, as `(!cy !cies)` or `(* s)`: `*` is nothing."""
        if not self.peek().startswith(("%suffix", "%prefix")):
            return True, []
        token = self.take()
        groups = [tuple("" if side == "*" else side for side in group.split()) for group in re.findall(r"\(([^()]*)\)", token)]
        return token.startswith("%suffix"), groups

    def conjunction(self):
        terms = [self.term()]
        while self.is_next("&"):
            terms.append(self.term())
        return terms

    def term(self):
        token = self.take()
        if token == "[":
            return "avm", self.features()
        if token == "<":
            return "list", self.items()
        if token == "<!":
            return "diff", self.until("!>")
        if token.startswith('"'):
            return "string", re.sub(r"\\(.)", r"\1", token[1:-1])
        if token.startswith("#"):
            return "tag", token[1:]
        return "type", token

    def features(self):
        body = []
        while not self.is_next("]"):
            path = [self.take()]
            while self.is_next("."):
                path.append(self.take())
            body.append((tuple(path), [] if self.peek() in (",", "]") else self.conjunction()))
            self.is_next(",")
        return body

    def items(self):
        """The items of a list, and its end."""
        items = []
        while True:
            if self.is_next(">"):
                return items, [("type", "null")]
            if self.is_next("..."):
                self.take(">")
                return items, [("type", "list")]
            items.append(self.conjunction())
            if self.is_next("."):
                end = self.conjunction()
                self.take(">")
                return items, end
            self.is_next(",")

    def until(self, last):
        items = []
        while not self.is_next(last):
            items.append(self.conjunction())
            self.is_next(",")
        return items
