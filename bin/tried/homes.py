"""Homes: where a test runs the tools. One is this checkout, the other a root in which the package was installed.

A home has `kept`, the folder of the documents and examples as they came, and `top`, that in whose `examples` the commands are run and
write. `program`, `tool` and what `scratch` makes are paths as this process has them; `run` gives a command each of them as it has it there.
"""
import contextlib
import os
import pathlib
import subprocess
import tempfile

ROOT = pathlib.Path(__file__).resolve().parent.parent.parent


class Ran:
    """What a command came to."""

    def __init__(self, ran):
        self.returncode = ran.returncode
        self.stdout, self.stderr = (said.decode("utf-8", "surrogateescape") for said in (ran.stdout, ran.stderr))


def ran(words, text="", seconds=600, **more):
    """Runs a command of this machine."""
    return Ran(subprocess.run(words, input=text.encode("utf-8", "surrogateescape"), capture_output=True, timeout=seconds, check=False, **more))


class Home:
    def has(self, program):
        """Whether a command of this name is there."""
        if program not in self.asked:
            self.asked[program] = self.run(["bash", "-c", f"command -v {program}"]).returncode == 0
        return self.asked[program]


class Checkout(Home):
    """This checkout, with the program that `bin/build` made; the commands are run in it, or in a copy `top`."""

    kept, program = ROOT, ROOT / "crates" / "lkb" / "out" / "lkb"

    def __init__(self, top=ROOT):
        self.top, self.asked = top, {}

    def tool(self, name):
        return ROOT / "bin" / name

    def run(self, words, folder=".", text="", seconds=600):
        return ran(words, text, seconds, cwd=self.top / folder)

    def scratch(self):
        return temporary()


@contextlib.contextmanager
def temporary(where=None):
    with tempfile.TemporaryDirectory(prefix="lkb-test-", dir=where) as name:
        yield pathlib.Path(name)


class Installed(Home):
    """What the package brought into a root: its documents, and a user's copy of them, as its README advises."""

    def __init__(self, root):
        self.root, self.asked = root, {}
        self.kept = root.place / "usr/share/doc/lkb"
        self.top = root.place / root.home.lstrip("/") / "lkb"
        self.program = root.place / "usr/bin/lkb"

    def tool(self, name):
        return self.top / "bin" / name

    def inside(self, word):
        return f"/{word.relative_to(self.root.place)}" if isinstance(word, pathlib.Path) else word

    def run(self, words, folder=".", text="", seconds=600):
        return self.root.run([self.inside(word) for word in words], self.inside(self.top / folder), text, seconds)

    @contextlib.contextmanager
    def scratch(self):
        """A folder in the root that its user may write."""
        with temporary(self.top.parent) as folder:
            if os.geteuid() == 0:
                os.chown(folder, self.root.number, self.root.number)
            yield folder
