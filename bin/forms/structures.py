"""What `lkb expand` and `lkb types` write."""
import re

from .wrong import Lines, shown

NODE = re.compile(r'(\.|(?:\.[^\s.]+)+) (?:= (\.\S*)|("(?:[^"\\]|\\.)*"|[^\s"]+))', re.DOTALL)
TYPE = re.compile(r"([^\s:]+):((?: [^\s:]+)*)")


def read_structures(where, text):
    """The structures of a text, one after the other; each is a list of lines `[path, type or None, first path or None]`."""
    lines, found, paths = Lines(where, text), [], {}
    while lines:
        line = lines.whole()
        node = NODE.fullmatch(line)
        if re.fullmatch(r"\S+ unknown", line) and not line.startswith("."):
            found.append([[line.split()[0], "unknown", None]])
            paths = {}
        elif node is None:
            raise lines.wrong(f"expected `PATH TYPE` or `PATH = FIRSTPATH`, a path being `.` or features with a `.` before each, got {shown(lines.peek())}")
        else:
            if node[1] == "." and not node[2]:
                found.append([])
                paths = {}
            add_node(lines, node, paths, found)
        lines.pass_over(line)
    if not found:
        raise lines.wrong("expected a structure: a first line `. TYPE`")
    return found


def add_node(lines, node, paths, found):
    path, first = node[1], node[2]
    if path in paths:
        raise lines.wrong(f"the path {shown(path)} stands a second time")
    above = path.rpartition(".")[0] or "."
    if path != "." and paths.get(above) != "node":
        raise lines.wrong(f"the path {shown(path)} stands here, and no node at {shown(above)} above it")
    if first is not None and paths.get(first) != "node":
        raise lines.wrong(f"{shown(path)} is said to be {shown(first)}, and no node stands at that path before")
    paths[path] = "node" if first is None else "tag"
    found[-1].append([path, node[3], first])


def read_types(where, text):
    """The types in order, each with its immediate supertypes; all but the first must have some, and lie below it."""
    lines, found = Lines(where, text), {}
    while lines:
        line = TYPE.fullmatch(lines.peek())
        if line is None:
            raise lines.wrong(f"expected `NAME:` and its supertypes, a blank before each, got {shown(lines.peek())}")
        if line[1] in found:
            raise lines.wrong(f"the type {shown(line[1])} stands a second time")
        if found and not line[2]:
            raise lines.wrong(f"the type {shown(line[1])} has no supertype; only the first type, the top one, has none")
        if not found and line[2]:
            raise lines.wrong(f"the first type, {shown(line[1])}, has supertypes; the top type is expected first")
        found[line[1]] = line[2].split()
        lines.take()
    for number, (name, above) in enumerate(found.items()):
        lines.at = number
        for supertype in above:
            if supertype not in found:
                raise lines.wrong(f"the supertype {shown(supertype)} of {shown(name)} has no line of its own")
    see_all(lines, found)
    return list(found.items())


def see_all(lines, found):
    """That each type is below the top, and none below itself: types are taken away once all of their supertypes are."""
    below, waits = {name: [] for name in found}, {name: len(above) for name, above in found.items()}
    for name, above in found.items():
        for supertype in above:
            below[supertype].append(name)
    ready, gone = [name for name in found if not waits[name]], set()
    while ready:
        name = ready.pop()
        gone.add(name)
        for subtype in below[name]:
            waits[subtype] -= 1
            if not waits[subtype]:
                ready.append(subtype)
    for number, name in enumerate(found):
        if name not in gone:
            lines.at = number
            raise lines.wrong(f"the type {shown(name)} is below itself")
