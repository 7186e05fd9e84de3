"""Clean roots: folders that hold a system of their own, without the kit and without this project's sources."""
import contextlib
import os
import pathlib
import re
import shutil
import subprocess

from .homes import ran

TOOLS = ("bash", "sh", "sed", "grep", "cat", "cp", "head", "tail", "wc", "awk", "diff", "sort", "tr", "rm", "mkdir", "paste", "mktemp", "readlink", "dirname")


class Cannot(Exception):
    """Why a root can't be made here."""


def lacking(*names):
    for name in names:
        if shutil.which(name) is None:
            raise Cannot(f"{name} isn't there")


def said_of(made):
    return (made.stdout + made.stderr).strip()[-400:]


class DebianRoot:
    """A Debian system of the fewest packages, as `debootstrap` makes it from the archive, and a user `anna` of it. `apt-get` installs the
    package there with what it recommends. Her commands have no network."""

    home, number, what = "/home/anna", 1000, "a Debian system, of debootstrap"

    def __init__(self, place, archive=None):
        if os.geteuid() != 0:
            raise Cannot("debootstrap wants root's rights")
        lacking("debootstrap", "unshare", "chroot")
        self.place, system = place, release()
        more = [archive] if archive else []
        made = self.as_root(["debootstrap", "--variant=minbase", system, str(place), *more], seconds=1800)
        if made.returncode != 0:
            raise Cannot(f"debootstrap {system} ended with status {made.returncode}: {said_of(made)}")

    def as_root(self, words, text="", seconds=600, more=()):
        """What it mounts is gone with it."""
        return ran(["unshare", "--mount", *more, *words], text, seconds, env={"PATH": "/usr/sbin:/usr/bin:/sbin:/bin", "HOME": "/root", "LC_ALL": "C", "DEBIAN_FRONTEND": "noninteractive"})

    def install(self, package):
        shutil.copy(package, self.place / "tmp")
        for words in (["apt-get", "update"], ["apt-get", "install", "--yes", f"/tmp/{package.name}"], ["useradd", "--create-home", "--uid", str(self.number), "--shell", "/bin/bash", "anna"]):
            made = self.as_root(["chroot", str(self.place), *words], seconds=1800)
            if made.returncode != 0:
                return f"{' '.join(words)}: {said_of(made)}"
        return ""

    def bring(self, package):
        """Whether a package that the guide names could be installed."""
        return self.as_root(["chroot", str(self.place), "apt-get", "install", "--yes", "--no-install-recommends", package], seconds=1800).returncode == 0

    def run(self, words, folder="/", text="", seconds=600):
        script = 'mount -t proc proc "$0/proc" && exec chroot --userspec=anna "$0" env -i HOME=/home/anna PATH=/usr/bin:/bin bash -c \'cd "$0" && exec "$@"\' "$@"'
        return self.as_root(["bash", "-c", script, str(self.place), folder, *words], text, seconds, ("--pid", "--net", "--fork", "--kill-child"))


def release():
    """The name of this machine's release of Debian."""
    with contextlib.suppress(OSError):
        found = re.search(r"^VERSION_CODENAME=(\w+)$", pathlib.Path("/etc/os-release").read_text(), re.MULTILINE)
        if found:
            return found[1]
    raise Cannot("this machine doesn't say of which release it is (/etc/os-release)")


class SmallRoot:
    """The C library, a shell and some tools of this machine; no Python. `dpkg` installs the package from outside."""

    home, number, what = "/tmp", 0, "some files of this machine, without Python"

    def __init__(self, place):
        lacking("dpkg", "dpkg-query", "unshare", "ldd", *TOOLS)
        self.place = place
        version = ran(["dpkg-query", "-W", "-f", "${Version} ${Architecture}", "libc6"]).stdout.split()
        if len(version) != 2:
            raise Cannot("the C library isn't one that dpkg knows")
        for name in ("usr/bin", "usr/lib", "usr/lib64", "tmp", "dev", "etc", "var/lib/dpkg/info", "var/lib/dpkg/updates"):
            (place / name).mkdir(parents=True)
        for name in ("bin", "lib", "lib64"):
            (place / name).symlink_to(f"usr/{name}")
        (place / "dev/null").touch()
        for name in TOOLS:
            self.put(pathlib.Path(shutil.which(name)))
        (place / "var/lib/dpkg/status").write_text(
            f"Package: libc6\nStatus: install ok installed\nVersion: {version[0]}\nArchitecture: {version[1]}\nMaintainer: none\nDescription: the C library\n")
        if self.run(["bash", "-c", ":"]).returncode != 0:
            raise Cannot("the root can't be changed (unshare --map-root-user --root)")

    def put(self, tool):
        """A tool, and the files of shared libraries that it needs."""
        shutil.copy(tool.resolve(), self.place / "usr/bin" / tool.name)
        for library in re.findall(r"(/\S+) \(0x", ran(["ldd", str(tool)]).stdout):
            to = self.place / library.lstrip("/")
            to.parent.mkdir(parents=True, exist_ok=True)
            shutil.copy(pathlib.Path(library).resolve(), to)

    def install(self, package):
        made = ran(["dpkg", f"--root={self.place}", "--force-not-root", "--no-triggers", "--install", str(package)])
        return said_of(made) if made.returncode else ""

    def bring(self, package):
        return False

    def run(self, words, folder="/", text="", seconds=600):
        return ran(["unshare", "--map-root-user", "--root", str(self.place), "--wd", folder, "/bin/bash", "-c", 'exec "$@"', "-", *words], text, seconds, env={"PATH": "/usr/bin", "HOME": self.home})
