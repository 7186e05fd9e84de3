"""Trees as `lkb parse` writes them: `(RULE DAUGHTER ..)`, and `(ENTRY "WORDS")` or `(ENTRY "WORDS" FROM TO)` at the words."""
import re

TOKEN = re.compile(r'\s*(?:(?P<mark>[()])|"(?P<text>(?:[^"\\]|\\.)*)"|(?P<name>[^\s()"]+))', re.DOTALL)


class NoTree(Exception):
    """The text isn't a tree: what was expected at which character."""


class Node:
    """A node: a rule with daughters, or an entry with words and, in a lattice, the two nodes between which they stand."""

    __slots__ = ("name", "daughters", "words", "span")

    def __init__(self, name, words=None, span=None):
        self.name, self.daughters, self.words, self.span = name, [], words, span


def unescaped(text):
    return re.sub(r"\\(.)", r"\1", text, flags=re.DOTALL)


def escaped(text):
    return re.sub(r'(["\\])', r"\\\1", text)


def read(text):
    """The tree that a text writes; it is read without recursion, so that depth is no limit."""
    above, root, at = [], None, 0
    while text[at:at + 1] or above:
        token = TOKEN.match(text, at)
        if token is None:
            if text[at:].strip() == "" and not above:
                break
            raise NoTree(f"the tree isn't closed: {len(above)} of its parentheses are open" if text[at:].strip() == "" else f"nothing that stands in a tree, at character {at + 1}")
        if token["mark"] == "(":
            if root is not None and not above:
                raise NoTree(f"a second tree, at character {at + 1}; one is expected")
            node, at = opened(text, token.end())
            if above:
                if above[-1].words is not None:
                    raise NoTree(f"a daughter below an entry's words, at character {at}")
                above[-1].daughters.append(node)
            root = root or node
            above.append(node)
            continue
        if token["mark"] == ")" and above:
            node = above.pop()
            if node.words is None and not node.daughters:
                raise NoTree(f"{node.name} has neither daughters nor words in quotes")
        else:
            at = add(above, token, text)
            continue
        at = token.end()
    if root is None:
        raise NoTree("a tree in parentheses is expected")
    return root


def opened(text, at):
    token = TOKEN.match(text, at)
    if token is None or token["name"] is None:
        raise NoTree(f"the name of a rule or an entry is expected at character {at + 1}")
    return Node(token["name"]), token.end()


def add(above, token, text):
    """The words of an entry, and the two nodes after them."""
    at = token.end()
    if not above or token["text"] is None or above[-1].daughters or above[-1].words is not None:
        raise NoTree(f"'(', ')' or an entry's words in quotes are expected at character {token.start() + 1}")
    above[-1].words = unescaped(token["text"])
    nodes = re.compile(r"\s+(\d+)\s+(\d+)").match(text, at)
    if nodes:
        above[-1].span = (int(nodes[1]), int(nodes[2]))
        at = nodes.end()
    return at


def write(root, with_nodes=True):
    parts, left = [], [(root, " ")]
    while left:
        node, before = left.pop()
        if node is None:
            parts.append(")")
        elif node.words is not None:
            span = f" {node.span[0]} {node.span[1]}" if node.span and with_nodes else ""
            parts.append(f'{before}({node.name} "{escaped(node.words)}"{span})')
        else:
            parts.append(f"{before}({node.name}")
            left.append((None, ""))
            left.extend((daughter, " ") for daughter in reversed(node.daughters))
    return "".join(parts)[1:]


def nodes(root):
    """All nodes, mothers before daughters, from the left."""
    left = [root]
    while left:
        node = left.pop()
        yield node
        left.extend(reversed(node.daughters))


def leaves(root):
    return [node for node in nodes(root) if node.words is not None]


def sentence(root):
    return " ".join(leaf.words for leaf in leaves(root))


def place_words(root):
    """Gives each leaf without a span the numbers of the words between which it stands, counted from the left."""
    at = 0
    for leaf in leaves(root):
        width = max(1, len(leaf.words.split()))
        if leaf.span is None:
            leaf.span = (at, at + width)
        at += width
    return root


def spans(root):
    """The span of each node: from its first leaf to its last one."""
    place_words(root)
    found, left = {}, [(root, False)]
    while left:
        node, ready = left.pop()
        if node.words is not None:
            found[id(node)] = node.span
        elif ready:
            found[id(node)] = (found[id(node.daughters[0])][0], found[id(node.daughters[-1])][1])
        else:
            left.append((node, True))
            left.extend((daughter, False) for daughter in node.daughters)
    return found
