"""What is wrong with an input, in plain words, and how the programs say so."""
import re
import sys

# The rest of a text in quotes, with the quote that ends it.
END = re.compile(r'[^"\\]*(?:\\.[^"\\]*)*"', re.DOTALL)


class Wrong(Exception):
    """An input that isn't of its form: the file, its line from 1 (0: the whole file), and what was expected."""

    def __init__(self, where, line, what):
        super().__init__(f"{where}, line {line}: {what}" if line else f"{where}: {what}")


def shown(text, most=60):
    """A text as a message quotes it: not too long, and with nothing that a terminal would obey."""
    short = text if len(text) <= most else text[: most - 3] + "..."
    return "'" + "".join(c if c.isprintable() else "?" for c in short) + "'"


def is_open_after(line, is_open):
    """Whether a text in quotes is open where a line ends, if it was open, or none was, where the line begins."""
    at = 0
    while True:
        if not is_open:
            at = line.find('"', at) + 1
            if at == 0:
                return False
        end = END.match(line, at)
        if end is None:
            return True
        at, is_open = end.end(), False


class Lines:
    """The lines of an input, one after the other, with the number of the line that comes next."""

    def __init__(self, where, text):
        self.where, self.at = where, 0
        self.lines = text.split("\n")
        if self.lines[-1] == "":
            self.lines.pop()

    def __bool__(self):
        return self.at < len(self.lines)

    def peek(self):
        return self.lines[self.at] if self else ""

    def take(self):
        self.at += 1
        return self.lines[self.at - 1]

    def whole(self):
        """The line that comes next, with those after it where a text in quotes goes on over the line's end; it isn't taken."""
        parts, more = [self.peek()], self.at + 1
        is_open = is_open_after(parts[0], False)
        while is_open and more < len(self.lines):
            parts.append(self.lines[more])
            is_open = is_open_after(parts[-1], True)
            more += 1
        return "\n".join(parts)

    def pass_over(self, text):
        self.at += text.count("\n") + 1

    def wrong(self, what, back=0):
        """The fault of the line that comes next, or of one before it."""
        number = self.at + 1 - back
        return Wrong(self.where, min(number, max(len(self.lines), 1)), what)


def text_of(name):
    """The text of a file, or of standard input where the name is `-`, with the name that messages use."""
    where = "standard input" if name == "-" else name
    try:
        data = sys.stdin.buffer.read() if name == "-" else open(name, "rb").read()
    except OSError as fault:
        raise Wrong(where, 0, f"can't be read: {fault.strerror}") from fault
    try:
        return where, data.decode("utf-8")
    except UnicodeDecodeError as fault:
        raise Wrong(where, data[: fault.start].count(b"\n") + 1, "isn't UTF-8") from fault


def ended(program, main):
    """Runs a program; its status is 2 where its words or an input are wrong, and 6 where its output can't be written."""
    try:
        main()
        sys.stdout.flush()
    except Wrong as wrong:
        print(f"{program}: {wrong}", file=sys.stderr)
        sys.exit(2)
    except BrokenPipeError:
        sys.stderr.close()
        sys.exit(6)
    except OSError as fault:
        print(f"{program}: {fault.filename or 'standard output'}: can't be written: {fault.strerror}", file=sys.stderr)
        sys.exit(6)
