"""Profiles as text files of a TSDB, the data base of [incr tsdb()], as PyDelphin's `delphin.tsdb` reads it: `relations` names the
fields; a line is a record, `@` parts its fields, and `\\s`, `\\n`, `\\\\` stand for `@`, a line's end and a backslash."""
import pathlib
import re

from . import trees, udf
from .profiles import Entry
from .wrong import Wrong, shown, text_of

RELATIONS = {
    "item": "i-id:integer:key i-origin:string i-register:string i-format:string i-difficulty:integer i-category:string i-input:string i-wf:integer i-length:integer i-comment:string i-author:string i-date:date",
    "parse": "parse-id:integer:key run-id:integer:key i-id:integer:key readings:integer first:integer total:integer tcpu:integer tgc:integer treal:integer words:integer l-stasks:integer p-ctasks:integer p-ftasks:integer p-etasks:integer p-stasks:integer aedges:integer pedges:integer raedges:integer rpedges:integer tedges:integer eedges:integer ledges:integer sedges:integer redges:integer unifications:integer copies:integer conses:integer symbols:integer others:integer gcs:integer i-load:integer a-load:integer date:date error:string comment:string",
    "result": "parse-id:integer:key result-id:integer time:integer r-ctasks:integer r-ftasks:integer r-etasks:integer r-stasks:integer size:integer r-aedges:integer r-pedges:integer derivation:string surface:string tree:string mrs:string flags:string",
}


def fields(relation):
    return [field.split(":") for field in RELATIONS[relation].split()]


def escaped(text):
    return text.replace("\\", "\\\\").replace("@", "\\s").replace("\n", "\\n")


def unescaped(text):
    return re.sub(r"\\(.)", lambda found: {"s": "@", "n": "\n"}.get(found[1], found[1]), text)


def record(relation, values):
    """A line: a number that isn't said is -1, any other field is empty."""
    return "@".join(escaped(str(values.get(name, "-1" if kind[0] == "integer" else ""))) for name, *kind in fields(relation)) + "\n"


def files(entries, report=None):
    """The text of each file. With a report, its readings and trees stand in `parse` and `result`; without one, the profile's own."""
    made = {"relations": "\n".join(f"{name}:\n" + "".join("  " + " :".join(field) + "\n" for field in fields(name)) for name in RELATIONS)}
    lines = {name: [] for name in RELATIONS}
    for number, entry in enumerate(entries, 1):
        answer = report.items[number - 1] if report else None
        lines["item"].append(record("item", {
            "i-id": number, "i-input": entry.sentence, "i-wf": int(entry.expected != "0"), "i-length": len(entry.sentence.split()), "i-difficulty": 1, "i-comment": "\n".join(entry.comments)}))
        said = entry.expected if answer is None else answer.refused or str(answer.count)
        results = [(tree, "") for tree in entry.trees] if answer is None else [(reading.tree, reading.mrs or "") for reading in answer.readings]
        if said != "?" or results:
            lines["parse"].append(record("parse", {"parse-id": number, "run-id": 1, "i-id": number, "readings": said if said.isdecimal() else -1, "words": len(entry.sentence.split()), "error": "" if said.isdecimal() or said == "?" else said}))
        for result, (tree, mrs) in enumerate(results):
            lines["result"].append(record("result", {"parse-id": number, "result-id": result, "derivation": udf.write(trees.read(tree)), "surface": entry.sentence, "mrs": mrs}))
    return {**made, **{name: "".join(text) for name, text in lines.items()}}


def schema(folder):
    """The names of the fields of each file, from `relations`."""
    where, text = text_of(str(folder / "relations"))
    found, current = {}, None
    for number, line in enumerate(text.split("\n"), 1):
        line = line.split("#")[0].strip()
        if line.endswith(":") and " " not in line:
            current = found.setdefault(line[:-1], [])
        elif line and current is None:
            raise Wrong(where, number, f"expected `NAME:`, got {shown(line)}")
        elif line:
            current.append(line.split()[0])
    return found


def records(folder, names, relation):
    if relation not in names:
        raise Wrong(str(folder / "relations"), 0, f"names no file {relation}")
    where, text = text_of(str(folder / relation))
    for number, line in enumerate(text.split("\n")[:-1] if text.endswith("\n") else text.split("\n") if text else [], 1):
        values = line.split("@")
        if len(values) != len(names[relation]):
            raise Wrong(where, number, f"has {len(values)} fields; `relations` names {len(names[relation])}")
        yield where, number, dict(zip(names[relation], map(unescaped, values)))


def entries(folder):
    """The profile that the files of a folder are: what `parse` says is expected, and the trees of `result`."""
    folder = pathlib.Path(folder)
    names, items, parses = schema(folder), {}, {}
    for where, number, values in records(folder, names, "item"):
        comments = [line for line in values.get("i-comment", "").split("\n") if line]
        items[values["i-id"]] = Entry("?", values["i-input"], [line if line.startswith(";") else "; " + line for line in comments], number)
    for where, number, values in records(folder, names, "parse"):
        if values["i-id"] not in items:
            raise Wrong(where, number, f"is of an item {shown(values['i-id'])}, which `item` hasn't")
        entry = parses[values["parse-id"]] = items[values["i-id"]]
        if values.get("error") in ("lexical-depth", "unary-chain", "edges", "readings"):
            entry.expected = values["error"]
        elif values["readings"].isdecimal():
            entry.expected = values["readings"]
    for where, number, values in records(folder, names, "result"):
        if values["parse-id"] not in parses:
            raise Wrong(where, number, f"is of a parse {shown(values['parse-id'])}, which `parse` hasn't")
        try:
            parses[values["parse-id"]].trees += [trees.write(root, with_nodes=False) for root in udf.read_all(values["derivation"])]
        except udf.NoUdf as fault:
            raise Wrong(where, number, f"its derivation isn't one, at character {fault.at + 1}: {fault}") from fault
    return list(items.values())
