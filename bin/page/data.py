"""From the texts that `lkb` writes to what stands on a page: items, structures and types."""
import json
import pathlib

from forms import mrs as mrss
from forms import profiles, reports, structures, trees
from forms.wrong import Wrong, shown, text_of

HERE = pathlib.Path(__file__).resolve().parent
SCRIPTS = ("base.js", "trees.js", "meanings.js", "chart.js", "items.js", "structures.js", "types.js", "start.js")
KEPT, GAINED, LOST, CHANGED = range(4)


class Page:
    """What was read: at most one report of answers, and beside it others of the same lines."""

    def __init__(self):
        self.reports, self.structures, self.types, self.sources = {}, [], None, []

    def add(self, name):
        where, text = text_of(name)
        first = text.split("\n", 1)[0]
        self.sources.append(where)
        if first.startswith(("item ", "batch items ")):
            self.add_report(reports.read(where, text), where)
        elif first.startswith("["):
            self.add_report(reports.mrs_lines(where, text), where)
        elif first.startswith(".") or first.endswith(" unknown"):
            found = structures.read_structures(where, text)
            title = pathlib.Path(where).name if name != "-" else "structure"
            self.structures += [(title if len(found) == 1 else f"{title} {number}", lines) for number, lines in enumerate(found, 1)]
        elif structures.TYPE.fullmatch(first):
            if self.types is not None:
                raise Wrong(where, 1, "types stand in two files; one hierarchy is drawn on a page")
            self.types = structures.read_types(where, text)
        else:
            what = "the file is empty; expected" if text == "" else f"got {shown(first)}; expected"
            raise Wrong(where, 1, f"{what} what `lkb` writes with parse, generate, scope, chart, batch, expand or types, or lines of MRSs")

    def add_report(self, report, where):
        others = {"parse", "generate", "mrs"} if report.kind in ("parse", "generate", "mrs") else {report.kind}
        for kind in others & set(self.reports):
            raise Wrong(where, 1, f"a second report of items, of {report.kind}, beside {self.reports[kind].where}; a page has one (`--old` names one to compare it with)")
        self.reports[report.kind] = report

    def answers(self):
        """The report whose readings or sentences are shown."""
        for kind in ("parse", "generate", "mrs"):
            if kind in self.reports:
                return self.reports[kind]
        return None


def same_length(report, count, where, what):
    if len(report.items) != count:
        raise Wrong(report.where, 0, f"has {len(report.items)} items, and {where} has {count} {what}; both must be of the same lines")


def sentence_lines(name):
    where, text = text_of(name)
    lines = text.split("\n")
    return where, lines[:-1] if lines[-1] == "" else lines


def items_of(page, lines, old, profile):
    """The items of a page: for each, what its row in the list says, and what is drawn once it is opened."""
    main = page.answers() or next((page.reports[kind] for kind in ("chart", "batch", "scope") if kind in page.reports), None)
    if main is None:
        return []
    count = len(main.items)
    for kind in ("chart", "batch"):
        if kind in page.reports:
            same_length(page.reports[kind], count, main.where, "items")
    if old:
        if page.answers() is None or old.kind != main.kind:
            raise Wrong(old.where, 1, f"is a report of {old.kind}, and is compared with one of {main.kind}")
        same_length(old, count, main.where, "items")
    if lines:
        same_length(main, len(lines[1]), lines[0], "lines")
    if profile:
        same_length(main, len(profile[1]), profile[0], "items")
    items = [Shown(number, main.items[number - 1]) for number in range(1, count + 1)]
    for number, item in enumerate(items):
        beside = {kind: page.reports[kind].items[number] for kind in ("chart", "batch") if kind in page.reports}
        item.answer(main, old.items[number] if old else None)
        item.sides(beside, lines[1][number] if lines else None, profile[1][number] if profile else None, main)
    add_scopes(page, items, main)
    return [(item.row, item.body) for item in items]


class Shown:
    """An item on the page: its row, and its body, whose names stand in page/items.js too."""

    def __init__(self, number, item):
        self.item = item
        self.row, self.body = {"n": number}, {}

    def answer(self, main, old):
        item, row, body = self.item, self.row, self.body
        row["w"] = {"parse": "readings", "generate": "sentences", "mrs": "meanings", "chart": "classes", "scope": "scopes", "batch": "batch"}[main.kind]
        if item.refused:
            row["r"] = item.refused
        if item.classes is not None:
            row["c"] = item.classes
        if item.count is not None and main.kind in ("parse", "generate", "scope"):
            row["k"] = item.count
        if old and (old.refused or "") != (item.refused or ""):
            row["was"] = old.refused or f"{old.count} {row['w']}"
        if main.kind in ("parse", "mrs"):
            body["t"] = marked(item, old)
        elif main.kind == "generate":
            before = set(old.sentences) if old else set(item.sentences)
            now = set(item.sentences)
            body["g"] = [[text, KEPT if text in before else GAINED] for text in item.sentences]
            body["g"] += [[text, LOST] for text in (old.sentences if old else []) if text not in now]
        self.count_marks([entry[3] for entry in body.get("t", [])] + [entry[1] for entry in body.get("g", [])])

    def count_marks(self, marks):
        for name, mark in (("gained", GAINED), ("lost", LOST), ("changed", CHANGED)):
            if mark in marks:
                self.row[name] = marks.count(mark)

    def sides(self, beside, line, entry, main):
        row, body = self.row, self.body
        if "chart" in beside:
            chart = beside["chart"]
            body["e"], body["u"] = chart.edges, chart.unknown
            row.update({"u": len(chart.unknown)} if chart.unknown else {}, **({"r": chart.refused} if chart.refused else {"c": len(chart.edges)}))
        if entry:
            self.expected(entry, main)
        if "batch" in beside:
            self.batch(beside["batch"], entry, main)
        first = next((entry[0] for entry in body.get("t", []) if entry[0]), None)
        if line is not None:
            row["s"] = line
            if main.kind == "generate" and line.startswith("["):
                self.source(line)
        elif entry:
            row["s"] = entry.sentence
        elif first:
            row["s"] = trees.sentence(trees.read(first))
        elif "chart" in beside:
            row["s"] = spelled(beside["chart"])
        elif main.kind == "mrs":
            row["s"] = " ".join(ep.pred for ep in mrss.read(body["t"][0][1]).eps)

    def source(self, line):
        """The MRS that sentences were generated from, where its line can be read."""
        try:
            meaning = mrss.read(line)
        except mrss.NoMrs:
            return
        self.row["s"] = " ".join(ep.pred for ep in meaning.eps)
        self.body["t"] = [[None, line, None, KEPT, None]]

    def expected(self, entry, main):
        """What a profile says of the item, compared with the report of `parse`."""
        if entry.expected is None:
            self.row["b"] = {"said": "bad", "bad": "no-item"}
        if main.kind != "parse" or entry.expected is None:
            if entry.trees:
                self.body["p"] = list(dict.fromkeys(entry.trees))
            return
        got = self.item.refused or str(self.item.count)
        said = "new" if entry.expected == "?" else "same" if entry.expected == got else "differs"
        self.row["b"] = {"said": said, "expected": entry.expected, "got": got}
        if entry.trees:
            now, before = {reading[0] for reading in self.body["t"]}, set(entry.trees)
            for reading in self.body["t"]:
                reading[3] = KEPT if reading[0] in before else GAINED
            self.body["t"] += [[tree, None, None, LOST, None] for tree in dict.fromkeys(entry.trees) if tree not in now]
            marks = [reading[3] for reading in self.body["t"]]
            self.count_marks(marks)
            self.row["b"]["trees"] = [marks.count(KEPT), marks.count(LOST), marks.count(GAINED)]
            if said == "same" and (LOST in marks or GAINED in marks):
                self.row["b"]["said"] = "differs"

    def batch(self, item, entry, main):
        """What `batch` says; where its profile and the report of `parse` are here too, both must say the same."""
        said, ours = {key: value for key, value in item.batch.items() if value is not None}, self.row.get("b")
        if ours and main.kind == "parse" and (ours["said"], ours.get("trees")) != (said["said"], said.get("trees")):
            raise Wrong(main.where, self.item.line, f"item {self.item.number}: `batch` says {told(said)}, but profile and report of `parse` make it {told(ours)}; they aren't of the same run")
        self.row["b"] = said
        if "trees" in said and not ours:
            for name, number in (("lost", said["trees"][1]), ("gained", said["trees"][2])):
                if number:
                    self.row[name] = number


def spelled(chart):
    """The words of a chart's line, as far as its classes and unknown words tell them: the shortest at each place."""
    words = {}
    for start, end, word in chart.unknown:
        words.setdefault(start, (end, word))
    for start, end, _, _, makers in chart.edges:
        for maker, daughters in makers:
            if not daughters and (start not in words or end < words[start][0]):
                words[start] = end, trees.sentence(trees.read(maker))
    at, found = min(words, default=0), []
    while at in words:
        at, word = words[at]
        found.append(word)
    return " ".join(found)


def told(batch):
    kept = batch.get("trees")
    return batch["said"] + (f", trees kept {kept[0]} lost {kept[1]} gained {kept[2]}" if kept else "")


def marked(item, old):
    """The readings of an item, each with its mark, and after them those that the old report has alone."""
    before = {reading.tree: reading for reading in old.readings} if old else {}
    now = {reading.tree for reading in item.readings}
    found = []
    for reading in item.readings:
        other = before.get(reading.tree)
        mark = KEPT if not old else GAINED if other is None else CHANGED if other.mrs != reading.mrs and other.mrs and reading.mrs else KEPT
        found.append([reading.tree, reading.mrs, reading.missing, mark, other.mrs if mark == CHANGED else None])
    return found + [[reading.tree, reading.mrs, reading.missing, LOST, None] for reading in (old.readings if old else []) if reading.tree not in now]


def add_scopes(page, items, main):
    """Gives each MRS its scopes: item N of `scope` is the Nth MRS of the page."""
    if "scope" not in page.reports:
        return
    report = page.reports["scope"]
    if main is report:
        for item in items:
            item.body["o"] = [[None, scopes_of(item.item, None, report)]]
        return
    readings = [entry for item in items for entry in item.body.get("t", []) if entry[1] and entry[3] != LOST]
    if len(readings) != len(report.items):
        raise Wrong(report.where, 0, f"has {len(report.items)} items, and {main.where} has {len(readings)} MRSs; `scope` must have had exactly these, one a line")
    for entry, scoped in zip(readings, report.items):
        entry.append(scopes_of(scoped, mrss.read(entry[1]), report))
    for item in items:
        found = [entry[5] for entry in item.body.get("t", []) if len(entry) > 5]
        if found:
            item.row["o"] = sum(len(scopes.get("s", [])) for scopes in found)


def scopes_of(scoped, meaning, report):
    """The scopes of an MRS, each as the top's label and pairs of a hole and a label, by the names that the MRS has."""
    if scoped.refused:
        return {"f": scoped.refused}
    if meaning is None:
        return {"s": [[f"h{top}", [[f"h{hole}", f"h{label}"] for hole, label in holes]] for top, holes in scoped.scopes]}
    names = {number: name for name, number in mrss.numbers(meaning).items()}
    labels = {ep.label for ep in meaning.eps}

    def label(number):
        if names.get(number) not in labels:
            raise Wrong(report.where, scoped.line, f"item {scoped.number} names the label h{number}, and the MRS that it is given has no such label")
        return names[number]

    return {"s": [[label(top), [[names.get(hole, f"h{hole}"), label(at)] for hole, at in holes]] for top, holes in scoped.scopes]}


def packed(value):
    """JSON that may stand inside a script element, on one line and without a tab."""
    return json.dumps(value, ensure_ascii=False, separators=(",", ":")).replace("<", "\\u003c").replace("\u2028", "\\u2028").replace("\u2029", "\\u2029")


def html(page, items, title, old):
    """The whole file."""
    head = {"title": title, "sources": page.sources, "old": old.where if old else None, "batch": page.reports["batch"].summary if "batch" in page.reports else None}
    rows = "\n".join(f"{packed(row)}\t{packed(body)}" for row, body in items)
    shape = (HERE / "page.html").read_text(encoding="utf-8")
    parts = {
        "TITLE": escape(title),
        "STYLE": (HERE / "page.css").read_text(encoding="utf-8"),
        "HEAD": packed(head),
        "ITEMS": rows,
        "STRUCTURES": packed(page.structures),
        "TYPES": packed(page.types),
        "SCRIPT": "\n".join((HERE / name).read_text(encoding="utf-8") for name in SCRIPTS),
    }
    made = []
    for piece in shape.split("{{"):
        name, closed, rest = piece.partition("}}")
        made.append(parts[name] + rest if closed else piece)
    return "".join(made)


def escape(text):
    return text.replace("&", "&amp;").replace("<", "&lt;").replace('"', "&quot;")
