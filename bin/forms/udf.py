"""Derivations in UDF, the Unified Derivation Format of [incr tsdb()], as PyDelphin's `delphin.derivation` reads it:
`(ID ENTITY SCORE START END DAUGHTER ..)`, and `("WORDS")` below an entry."""
import re

from . import trees

TOKEN = re.compile(r'\s*(?:(?P<mark>[()])|"(?P<text>(?:[^"\\]|\\.)*)"|(?P<atom>[^\s()"]+))', re.DOTALL)


class NoUdf(Exception):
    """The text isn't a derivation; `at` is the character."""

    def __init__(self, what, at):
        super().__init__(what)
        self.at = at


def write(root):
    """The derivation of a tree: nodes are numbered from 1, mothers first; scores are 0; spans count words, or are the lattice's nodes."""
    spans, parts, number, left = trees.spans(root), [], 0, [root]
    while left:
        node = left.pop()
        if node is None:
            parts.append(")")
            continue
        number += 1
        start, end = spans[id(node)]
        parts.append(f" ({number} {node.name} 0 {start} {end}")
        if node.words is not None:
            parts.append(f' ("{trees.escaped(node.words)}"))')
        else:
            left.append(None)
            left.extend(reversed(node.daughters))
    return "".join(parts)[1:]


class Open:
    """What is read of a parenthesis that is open: atoms, texts and nodes in it."""

    def __init__(self, at):
        self.at, self.atoms, self.text, self.nodes = at, [], None, []


def read_all(text):
    """The trees of the derivations that stand one after another in a text; roots' names, numbers, scores and tokens are passed over."""
    at, above = 0, []
    while True:
        token = TOKEN.match(text, at)
        if token is None:
            if text[at:].strip():
                raise NoUdf("a parenthesis, a name or a text in quotes is expected", at)
            break
        at = token.end()
        if token["mark"] == "(":
            above.append(Open(token.start("mark")))
        elif not above:
            raise NoUdf("'(' is expected", token.start())
        elif token["mark"] == ")":
            made = closed(above.pop())
            if above:
                above[-1].nodes.append(made)
            elif isinstance(made, str):
                raise NoUdf("a node is expected, not words alone", token.start())
            else:
                yield made
        elif token["atom"] is not None:
            above[-1].atoms.append(token["atom"])
        elif above[-1].text is None:
            above[-1].text = trees.unescaped(token["text"])
    if above:
        raise NoUdf("the text ends within a derivation", len(text))


def closed(part):
    """A node, or the words that stand alone in parentheses; a root's name around a node is passed over."""
    if part.text is not None and not part.nodes and (not part.atoms or part.atoms[0].lstrip("-").isdigit()):
        return part.text
    if len(part.atoms) == 1 and len(part.nodes) == 1 and isinstance(part.nodes[0], trees.Node):
        return part.nodes[0]
    if len(part.atoms) != 5 or not re.fullmatch(r"-?\d+", part.atoms[3]) or not re.fullmatch(r"-?\d+", part.atoms[4]) or not part.nodes:
        raise NoUdf("`(ID ENTITY SCORE START END DAUGHTER ..)` is expected", part.at)
    name = part.atoms[1].lstrip("^")
    if isinstance(part.nodes[0], str):
        if len(part.nodes) > 1:
            raise NoUdf("an entry has one text of words", part.at)
        return trees.Node(name, part.nodes[0], (int(part.atoms[3]), int(part.atoms[4])))
    if any(isinstance(node, str) for node in part.nodes):
        raise NoUdf("words stand beside a node; they are expected below an entry", part.at)
    made = trees.Node(name)
    made.daughters = part.nodes
    return made
