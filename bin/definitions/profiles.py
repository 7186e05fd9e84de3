"""Profiles by their plain definition: the items of a text, and the report that a grammar's answers give."""
import collections

LIMITS = ("lexical-depth", "unary-chain", "edges", "readings")
# (the characters that Unicode calls white space)
SPACES = "\t\n\v\f\r \x85\xa0\u1680\u2000\u2001\u2002\u2003\u2004\u2005\u2006\u2007\u2008\u2009\u200a\u2028\u2029\u202f\u205f\u3000"
LONGEST, MOST = 65535, 2**32


class Item:
    """Why the line is bad, or what is expected and the words of the sentence; and the trees below the line."""

    def __init__(self, bad=None, expected=None, words=()):
        self.bad, self.expected, self.words, self.trees = bad, expected, words, []


def lines_of(text):
    lines = text.split(b"\n")
    return lines[:-1] if lines[-1] == b"" else lines


def items_of(text):
    items = []
    for line in lines_of(text):
        if line.startswith(b"  "):
            if items:
                items[-1].trees.append(line[2:])
        elif line and not line.startswith(b";"):
            items.append(item_of(line))
    return items


def item_of(line):
    if len(line) > LONGEST:
        return Item("too-long")
    try:
        text = line.decode()
    except UnicodeDecodeError:
        return Item("not-utf8")
    text = text.lstrip(SPACES)
    first = next((k for k, c in enumerate(text) if c in SPACES), len(text))
    word, rest = text[:first], text[first:]
    if word.isascii() and word.isdigit() and int(word) < MOST:
        word = str(int(word))
    elif word != "?" and word not in LIMITS:
        return Item("no-item")
    return Item(expected=word, words=words_of(rest))


def words_of(text):
    for c in SPACES:
        text = text.replace(c, " ")
    return [word for word in text.split(" ") if word]


def report_of(items, answer):
    """The lines for each item and the last one, and whether an item differs or is bad. An answer is what came and the trees' texts."""
    cases, counts = [], collections.Counter()
    for number, item in enumerate(items, 1):
        if item.bad:
            counts["bad"] += 1
            cases.append([f"item {number} {item.bad}"])
            continue
        got, trees = answer(item.words)
        written = set(item.trees)
        kept, lost, gained = len(written & set(trees)), len(written - set(trees)), sum(tree not in written for tree in trees)
        if not item.trees:
            lost = gained = 0
        if item.expected == "?":
            verdict, told = "new", got
        elif item.expected == got and lost == 0 and gained == 0:
            verdict, told = "same", got
        else:
            verdict, told = "differs", f"{item.expected} {got}"
        counts[verdict] += 1
        cases.append([f"item {number} {verdict} {told}"])
        if item.trees:
            cases[-1].append(f"  trees kept {kept} lost {lost} gained {gained}")
    last = f"batch items {len(items)} " + " ".join(f"{verdict} {counts[verdict]}" for verdict in ("same", "differs", "new", "bad"))
    if cases:
        cases[-1].append(last)
    else:
        cases.append([last])
    return cases, counts["differs"] + counts["bad"] > 0
