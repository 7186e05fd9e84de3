"""What `lkb --help` says, in its parts: the man page and the completions are made of it, so they say the same."""
import re
import subprocess


class HelpPage:
    """The commands as pairs of their words and what they do, the options likewise, the statuses, and the paragraphs between."""

    def __init__(self, text):
        parts = [part.split("\n") for part in text.strip("\n").split("\n\n")]
        self.name, self.short = parts[0][0].split(": ", 1)
        self.commands, self.options, self.statuses, self.prose = [], [], [], []
        for part in parts[1:]:
            if part[0].startswith("Commands:"):
                self.commands = rows(part[1:])
            elif part[0].startswith("Options"):
                self.options = rows(part[1:])
            elif part[0].startswith("Status:"):
                said = " ".join(line.strip() for line in part).removeprefix("Status: ")
                self.statuses = [tuple(item.split(" ", 1)) for item in said.split("; ") if re.match("[0-9] ", item)]
            else:
                self.prose.append(" ".join(line.strip() for line in part))
        if not (self.commands and self.options and self.statuses):
            raise SystemExit("the program's help has no commands, no options or no statuses")

    def command_words(self):
        """The words that may stand first."""
        return [word for words, _ in self.commands for word in words.split(", ") if word.startswith("-")] + self.named()

    def named(self):
        """The commands that aren't options."""
        return [words.split()[0] for words, _ in self.commands if not words.startswith("-")]


def rows(lines):
    """Rows of two columns. A line that begins further in goes on the one above."""
    found = []
    for line in lines:
        left, _, right = line.strip().partition("  ")
        if line.startswith("   ") and found:
            found[-1] = found[-1][0], f"{found[-1][1]} {line.strip()}"
        else:
            found.append((left, right.strip()))
    return found


def said_by(program, word):
    """What the program writes for one word."""
    ran = subprocess.run([program, word], capture_output=True, text=True, check=False)
    if ran.returncode != 0:
        raise SystemExit(f"{program} {word}: status {ran.returncode}")
    return ran.stdout


def help_of(program):
    return HelpPage(said_by(program, "--help"))


def version_of(program):
    return said_by(program, "--version").split()[-1]
