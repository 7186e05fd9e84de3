"""The man page lkb(1): the program's help, the first lines of the README, and what the guide's page of messages says of each."""
import re
import textwrap


def roff(text):
    """A line of text as roff: what `man` would take for its own is escaped, and code stands in bold."""
    text = text.replace("\\|", "|").replace("\\", "\\e").replace("-", "\\-")
    text = re.sub(r"\[([^\]]*)\]\([^)]*\)", r"\1", text)
    text = re.sub(r"\*\*([^*]+)\*\*", r"\\fI\1\\fR", text)
    text = re.sub("`([^`]+)`", r"\\fB\1\\fR", text)
    return "\\&" + text if text.startswith((".", "'")) else text


def told(text):
    """Text as lines of roff, each short."""
    lines = textwrap.wrap(roff(text), 78, break_long_words=False, break_on_hyphens=False)
    return ["\\&" + line if line.startswith((".", "'")) else line for line in lines]


def words_of(text):
    """The words of a command or an option: names in bold, values in italics."""
    return " ".join(f"\\fI{word}\\fR" if word.isupper() else f"\\fB{roff(word)}\\fR" for word in text.split())


def table_rows(page, heading):
    """The rows of the tables below a heading of a page, without their heads. A row whose first cell is empty goes with the one above."""
    part = page.split(f"\n## {heading}\n", 1)[1].split("\n## ")[0]
    name = ""
    for line in part.split("\n"):
        cells = [cell.strip() for cell in re.split(r"(?<!\\)\|", line)[1:-1]]
        if len(cells) > 1 and not cells[0].startswith("---"):
            name = cells[0] or name
            yield name, cells[1:]


def paragraph(text):
    return [".PP", *told(text)]


def entry(name, text):
    return [".TP", name, *told(text)]


def faults(messages):
    """Each fault of a grammar's files with its causes."""
    causes = {}
    for name, cells in table_rows(messages, "Faults of a grammar"):
        if re.fullmatch("`[A-Z][A-Za-z0-9]*`", name) and cells[0]:
            causes.setdefault(name, []).append(cells[0])
    return [line for name, said in causes.items() for line in entry(roff(name), "; or ".join(said))]


def report_lines(messages):
    for name, cells in table_rows(messages, "In the report"):
        if name.startswith("`"):
            yield from entry(roff(name), cells[0])


def manual(help_page, version, day, readme, messages, pages):
    """The page as a text."""
    first = next(part for part in readme.split("\n\n") if part.startswith("`lkb`")).replace("\n", " ")
    lines = [f'.TH LKB 1 "{day}" "lkb {version}" "User Commands"', ".SH NAME", f"{help_page.name} \\- {roff(help_page.short)}", ".SH SYNOPSIS"]
    for word in (word for words, _ in help_page.commands for word in words.split(", ")):
        more = "" if word.startswith("-") else " [\\fIOPTION\\fR]..."
        lines += [f"\\fBlkb\\fR {words_of(word)}{more}", ".br"]
    lines[-1:] = [".SH DESCRIPTION", *told(first), *(line for text in help_page.prose for line in paragraph(text)), ".SH COMMANDS"]
    lines += [line for words, text in help_page.commands for line in entry(words_of(words), text)]
    lines += [".SH OPTIONS", *(line for words, text in help_page.options for line in entry(words_of(words), text))]
    lines += [".SH EXIT STATUS", *(line for number, text in help_page.statuses for line in entry(f"\\fB{number}\\fR", text))]
    lines += [".SH LINES OF THE REPORT", *told("Of each line there is told how many classes and readings or sentences it has, or one of these.")]
    lines += report_lines(messages)
    lines += [".SH FAULTS OF A GRAMMAR", "A fault is told on standard error as"]
    lines += [".PP", ".RS", "\\fBlkb:\\fR \\fIFILE\\fR:\\fIPLACE\\fR: \\fINAME\\fR", ".RE"]
    lines += [".PP", "PLACE is a byte of the file, from 0; of a file of settings it is a line, from 1."]
    lines += [*faults(messages), ".SH EXAMPLES", *list(examples())[1:], ".SH FILES"]
    lines += entry("\\fI/usr/share/doc/lkb/docs/guide\\fR", "the guide, page by page:")
    for page, text in pages:
        lines += [".RS", *entry(f"\\fI{roff(page)}\\fR", text), ".RE"]
    lines += entry("\\fI/usr/share/doc/lkb/examples\\fR", "grammars, with what they are asked; copy the folder to try them")
    lines += [".SH SEE ALSO", *told("A. Copestake (2002), Implementing Typed Feature Structure Grammars, CSLI Publications.")]
    return "\n".join(lines) + "\n"


EXAMPLES = (
    ("All trees of each line of a file:", "lkb parse english --settings settings < lines"),
    ("The trees with their meanings, and all sentences that say the same:",
     "echo the dog barks | lkb parse english --settings settings --mrs | sed -n 's/^  \\[/[/p' | lkb generate english --settings settings"),
    ("What a grammar's files have, or where their first fault is:", "lkb check english --settings settings"),
)


def examples():
    for text, command in EXAMPLES:
        yield from paragraph(text)
        yield from (".PP", ".RS", ".nf", "\\fB" + roff(command).replace("'", "\\(aq") + "\\fR", ".fi", ".RE")
