"""Profiles, as `lkb batch` reads them: sentences with what is expected, trees, and comments."""
import re

from . import trees
from .wrong import Lines, shown

FIRST = re.compile(r"\?|\d+|lexical-depth|unary-chain|edges|readings")


class Entry:
    """An item of a profile: what is expected, the sentence, its trees, the comments before it, and the number of its line."""

    def __init__(self, expected, sentence, comments, line):
        self.expected, self.sentence, self.comments, self.line, self.trees = expected, sentence, comments, line, []


def read(where, text, with_bad=False):
    """The items of a profile. A bad line is `Wrong`, or, where it is asked for, an item without an expectation."""
    lines, found, comments = Lines(where, text), [], []
    while lines:
        line = lines.peek()
        if line.startswith(";"):
            comments.append(line)
        elif line.startswith("  "):
            if found and found[-1].expected is not None:
                found[-1].trees.append(tree(lines, line[2:]))
        elif line != "":
            first, _, sentence = line.strip().partition(" ")
            is_bad = not FIRST.fullmatch(first)
            if is_bad and not with_bad:
                raise lines.wrong(f"expected `?`, a number of readings or the name of a limit, and a sentence, got {shown(line)}")
            expected = None if is_bad else str(int(first)) if first.isdecimal() else first
            found.append(Entry(expected, line.strip() if is_bad else sentence.strip(), comments, lines.at + 1))
            comments = []
        lines.take()
    return found


def tree(lines, text):
    try:
        trees.read(text)
    except trees.NoTree as fault:
        raise lines.wrong(f"expected two blanks and a tree, got {shown(text)}: {fault}") from fault
    return text


def write(entries):
    return "".join(line + "\n" for entry in entries
                   for line in [*entry.comments, f"{entry.expected} {entry.sentence}".rstrip(), *("  " + tree for tree in entry.trees)])
