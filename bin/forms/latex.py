"""LaTeX: trees for the package `forest`, structures for `langsci-avm`."""
from . import trees

PLAIN = set("abcdefghijklmnopqrstuvwxyzABCDEFGHIJKLMNOPQRSTUVWXYZ0123456789 .,:;*+-/?'@=")
NAMED = {"_": r"\_", "&": r"\&", "%": r"\%", "#": r"\#", "$": r"\$"}


def escaped(text):
    """A text that LaTeX prints as it stands: a character that it may take for a command is named or numbered."""
    return "".join(c if c in PLAIN or ord(c) > 126 else NAMED.get(c) or rf"\symbol{{{ord(c)}}}" for c in text)


def forest(root):
    """A tree as an environment of `forest`; brackets and commas of names are safe within braces."""
    parts, left = [], [(root, 1)]
    while left:
        node, depth = left.pop()
        if node is None:
            parts.append("]")
            continue
        words = rf" [{{\textbf{{{escaped(node.words)}}}}}]" if node.words is not None else ""
        parts.append(f"\n{'  ' * min(depth, 20)}[{{{escaped(node.name)}}}{words}")
        left.append((None, depth))
        left.extend((daughter, depth + 1) for daughter in reversed(node.daughters))
    return "\\begin{forest}" + "".join(parts) + "\n\\end{forest}"


def structure(lines):
    """A structure as one `\\avm`; each node that stands at several paths has a tag."""
    nodes, again = {}, {}
    for path, kind, first in lines:
        nodes[path] = (kind, [])
        if first is not None:
            again[path] = first
        if path != ".":
            above, _, feature = path.rpartition(".")
            nodes[above or "."][1].append((feature, path))
    tags = {}
    for path, _, first in lines:
        if first is not None:
            tags.setdefault(first, None)
    number = 0
    for path, _, _ in lines:
        if path in tags:
            number += 1
            tags[path] = number
    return "\\avm{\n" + matrix(".", nodes, again, tags, 1) + "\n}"


def matrix(path, nodes, again, tags, depth):
    if path in again:
        return rf"\tag{{{tags[again[path]]}}}"
    kind, features = nodes[path]
    tag = rf"\tag{{{tags[path]}}} " if path in tags else ""
    if not features:
        shown = escaped(trees.unescaped(kind[1:-1])) if kind.startswith('"') else escaped(kind)
        return tag + (rf"\textup{{\symbol{{34}}{shown}\symbol{{34}}}}" if kind.startswith('"') else rf"\textit{{{shown}}}")
    blank = "  " * min(depth, 20)
    rows = [f"{blank}{escaped(feature.lower())} & {matrix(below, nodes, again, tags, depth + 1)}" for feature, below in features]
    return f"{tag}[\\type*{{{escaped(kind)}}}\n" + " \\\\\n".join(rows) + "]"


FRONT = r"""\documentclass{article}
\usepackage[T1]{fontenc}
\usepackage[margin=15mm]{geometry}
\usepackage{graphicx}
%s\pagestyle{empty}
\newcommand{\fitted}[1]{\par\noindent\resizebox{\ifdim\width>\linewidth\linewidth\else\width\fi}{!}{#1}\par\bigskip}
\begin{document}
"""


def document(parts):
    """A whole document; what is wider than a line is made smaller. `parts` are texts of LaTeX."""
    text = "\n".join(parts)
    packages = "".join(f"\\usepackage{{{name}}}\n" for name, mark in (("forest", "\\begin{forest}"), ("langsci-avm", "\\avm{")) if mark in text)
    return FRONT % packages + text + "\n\\end{document}\n"
