"""Bodies of definitions: pairs of a path and what holds there, a list of terms. What they say, and how they are written.

A term is ("type", name), ("string", text), ("tag", name), ("avm", body), ("list", (items, end)) or ("diff", items), where an
item and an end are lists of terms. A fact says that a path exists, that its type is at or below one, or that it equals another.
"""

# What settings may call otherwise: each name with the setting that says so.
SETTINGS = {
    "list": "list-type", "cons": "cons-type", "null": "null-type", "FIRST": "first", "REST": "rest", "LIST": "diff-list", "LAST": "diff-last",
    "ARGS": "args-path", "STEM": "orth-path",
}
NAMES = {name: name for name in SETTINGS}
OTHERS = dict(zip(NAMES, ("l-t", "ne-list", "e-list", "HD", "A-TL", "L_S", "B-END", "DTRS", "ORTH")))
NULL, OPEN = [("type", "null")], [("type", "list")]


def facts_of(body, names):
    tags, facts = {}, []

    def say(path, terms):
        facts.append(("exists", path, None))
        for kind, value in terms:
            if kind == "type":
                facts.append(("below", path, ("type", names.get(value, value))))
            elif kind == "string":
                facts.append(("below", path, ("string", value)))
            elif kind == "tag":
                facts.append(("same", tags.setdefault(value, path), path))
            elif kind == "avm":
                for more, there in value:
                    say(path + named(more, names), there)
            elif kind == "list":
                say(say_cells(path, value[0]), value[1])
            else:
                facts.append(("exists", path + (names["LAST"],), None))
                facts.append(("same", say_cells(path + (names["LIST"],), value), path + (names["LAST"],)))

    def say_cells(path, items):
        facts.append(("exists", path, None))
        for item in items:
            facts.append(("below", path, ("type", names["cons"])))
            say(path + (names["FIRST"],), item)
            path += (names["REST"],)
            facts.append(("exists", path, None))
        return path

    for path, terms in body:
        say(named(path, names), terms)
    return facts


def named(path, names):
    return tuple(names.get(feature, feature) for feature in path)


def names_of(chance):
    """What a case calls its lists, its daughters and its words."""
    if chance.random() < 0.7:
        return NAMES
    return {name: OTHERS[name] if chance.random() < 0.5 else name for name in NAMES}


def text_of(terms, names):
    parts = []
    for kind, value in terms:
        if kind == "type":
            parts.append(names.get(value, value))
        elif kind == "string":
            parts.append(quoted(value))
        elif kind == "tag":
            parts.append(f"#{value}")
        elif kind == "avm":
            parts.append(avm_text(value, names))
        elif kind == "diff":
            parts.append(f"<! {', '.join(text_of(item, names) or '[ ]' for item in value)} !>")
        else:
            parts.append(list_text(*value, names))
    return " & ".join(parts)


def avm_text(body, names):
    said = ", ".join(f"{'.'.join(named(path, names))} {text_of(terms, names) or '[ ]'}" for path, terms in body)
    return f"[ {said} ]"


def list_text(items, end, names):
    inner = ", ".join(text_of(item, names) or "[ ]" for item in items)
    if end == NULL:
        return f"< {inner} >"
    if end == OPEN:
        return f"< {inner}, ... >" if items else "< ... >"
    return f"< {inner} . {text_of(end, names)} >"


def quoted(text):
    escaped = text.replace("\\", "\\\\").replace('"', '\\"')
    return f'"{escaped}"'


def listed(*items, end=None):
    """The terms of a list of these items."""
    return [("list", (list(items), NULL if end is None else end))]


def at(path, *terms):
    """What holds at a path that is written with dots."""
    return tuple(path.split(".")), list(terms)
