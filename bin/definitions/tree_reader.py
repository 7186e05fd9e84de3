"""Lines that write trees, by a plain slow reader: all ways in which a line's bytes may go on are followed side by side."""

BLANK, QUOTE, OPEN, CLOSE, SLASH = b' "()\\'
# (a stack is a pair of what comes next and the rest; it is None where the tree is whole)
MOST_NODE = 1 << 32


class Names:
    """The nodes of trees by name: entries, lexical rules, and phrase rules with their numbers of daughters."""

    def __init__(self, grammar):
        self.entries, self.lexical = ([name for name, _ in grammar.case[kind]] for kind in ("entries", "lexical"))
        self.arity = {name: grammar.arity_of(name) for name, _ in grammar.case["rules"]}

    def opened(self, is_lexical, rest):
        """What may follow the parenthesis of a tree, or of a lexical tree."""
        for name in self.entries:
            yield ("name", name.encode(), (QUOTE, ("word", (CLOSE, rest)))), None
        for name in self.lexical:
            yield ("name", name.encode(), ("lexical", (CLOSE, rest))), None
        for name, arity in () if is_lexical else self.arity.items():
            after = (CLOSE, rest)
            for k in range(arity):
                after = ("tree", (BLANK, after) if k else after)
            yield ("name", name.encode(), after), None


def steps(names, stack, byte):
    """The stacks after one byte more."""
    top, rest = stack
    if isinstance(top, int):
        return [rest] if byte == top else []
    if isinstance(top, tuple):
        return name_steps(top, byte) if top[0] == "name" else number_steps(top, rest, byte)
    if top in ("line", "tree", "lexical"):
        if top == "line" and byte == BLANK:
            return [stack]
        return list(names.opened(top == "lexical", rest)) if byte == OPEN else []
    return word_steps(top, rest, byte)


def name_steps(top, byte):
    _, left, after = top
    if left:
        return [(("name", left[1:], after), None)] if byte == left[0] else []
    return [after] if byte == BLANK else []


def word_steps(top, rest, byte):
    """Within a text: a word is still empty, or not, or a backslash stands before what comes; or the text is closed."""
    if top == "escaped":
        return [("more", rest)] if byte in (QUOTE, SLASH) else []
    if top == "closed":
        return [rest[1]] if byte == CLOSE else [(("node", 0, ""), rest)] if byte == BLANK else []
    if byte == SLASH:
        return [("escaped", rest)]
    if byte == BLANK:
        return [("word", rest)] if top == "more" else []
    if byte == QUOTE:
        return [("closed", rest)] if top == "more" else []
    return [("more", rest)]


def number_steps(top, rest, byte):
    """Within the two nodes of a lexical tree: digits without a zero before them."""
    _, which, digits = top
    if digits and byte == (CLOSE if which else BLANK):
        return [rest[1]] if which else [(("node", 1, ""), rest)]
    new = digits + chr(byte)
    if not (new.isascii() and new.isdigit()) or str(int(new)) != new or int(new) >= MOST_NODE:
        return []
    return [(("node", which, new), rest)]


def fault_of(names, line):
    """The byte from which on no tree's text goes on as the line does, or none where it is one."""
    stacks = {("line", None)} if names.entries else set()
    if not stacks:
        return 0
    for at, byte in enumerate(line):
        stacks = {new for stack in stacks if stack is not None for new in steps(names, stack, byte)}
        if not stacks:
            return at
    return None if None in stacks else len(line)


def tree_of(names, line):
    """The tree that a line writes, or the byte of its first fault: where it isn't UTF-8, that of its longest front that is, or its end."""
    try:
        front = line.decode().encode()
    except UnicodeDecodeError as error:
        front = line[: error.start]
    fault = fault_of(names, front)
    if fault is None and len(front) == len(line):
        return Builder(names, line.lstrip(b" ")).tree()
    return len(front) if fault is None else fault


class Builder:
    """The tree of a text that is known to be one. Over a lexical tree, a name of both kinds of rules is that of the lexical one."""

    def __init__(self, names, text):
        self.names, self.text, self.at = names, text, 0

    def tree(self):
        end = self.text.index(b" ", self.at)
        name, self.at = self.text[self.at + 1 : end].decode(), end + 1
        if self.text[self.at] == QUOTE:
            return self.leaf(name)
        daughters = [self.tree()]
        while self.text[self.at] == BLANK:
            self.at += 1
            daughters.append(self.tree())
        self.at += 1
        (kind, entry, rules, *rest) = daughters[0] if daughters[0][0] == "leaf" else ("phrase", None, None)
        if kind == "leaf" and len(daughters) == 1 and name in self.names.lexical:
            return ("leaf", entry, (*rules, name), *rest)
        return "phrase", name, tuple(daughters)

    def leaf(self, entry):
        said, self.at = bytearray(), self.at + 1
        while self.text[self.at] != QUOTE:
            self.at += self.text[self.at] == SLASH
            said.append(self.text[self.at])
            self.at += 1
        end = self.text.index(b")", self.at)
        nodes, self.at = tuple(int(digits) for digits in self.text[self.at + 1 : end].split()), end + 1
        return "leaf", entry, (), tuple(said.decode().split(" ")), nodes
