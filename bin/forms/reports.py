"""The reports of `lkb parse`, `generate`, `scope`, `chart` and `batch`, and plain lines of MRSs: items with what follows each."""
import re

from . import mrs as mrss
from . import trees
from .wrong import Lines, shown

HEAD = re.compile(r"item (\d+) (.*)")
ANSWER = re.compile(r"classes (\d+)(?: (readings|sentences) (\d+))?|scopes (\d+)")
REFUSED = re.compile(r"refused (lexical-depth|unary-chain|edges|readings|relation)|not-utf8|no-lattice \d+|no-mrs \d+|no-memory")
GOT = r"(\d+|lexical-depth|unary-chain|edges|readings|no-memory)"
BATCH = re.compile(rf"(?:(new|same) {GOT}|(differs) (\?|{GOT[1:-1]}) {GOT}|(too-long|not-utf8|no-item|no-memory))")
KEPT = re.compile(r"  trees kept (\d+) lost (\d+) gained (\d+)")
SUMMARY = re.compile(r"batch items (\d+) same (\d+) differs (\d+) new (\d+) bad (\d+)")
SCOPE = re.compile(r"  top=h(\d+)((?: h\d+=h\d+)*)")
CLASS = re.compile(r"  (\d+) (\d+):(\d+) (\S+)((?: \(.*)?)")
UNKNOWN = re.compile(r"  unknown (\d+):(\d+) (\S+)")


class Reading:
    """A tree with the text of its MRS, or the path that its structure lacks, where `--mrs` was given."""

    def __init__(self, tree):
        self.tree, self.mrs, self.missing = tree, None, None


class Item:
    def __init__(self, number, line):
        self.number, self.line = number, line
        self.refused = self.classes = self.count = self.batch = None
        self.readings, self.sentences, self.scopes, self.edges, self.unknown = [], [], [], [], []


class Report:
    """A report: its kind (`parse`, `generate`, `scope`, `chart`, `batch` or `mrs`), the file that it came from, and its items."""

    def __init__(self, kind, where):
        self.kind, self.where, self.items, self.summary = kind, where, [], None


def kind_of(lines):
    """What wrote the items: told by the first line that only one command writes."""
    likely = "parse"
    for line in lines:
        if SUMMARY.fullmatch(line):
            return "batch"
        head = HEAD.fullmatch(line)
        if not head:
            continue
        answer = ANSWER.fullmatch(head[2])
        if answer:
            return "scope" if answer[4] else {"readings": "parse", "sentences": "generate", None: "chart"}[answer[2]]
        if BATCH.fullmatch(head[2]) and not REFUSED.fullmatch(head[2]):
            return "batch"
        if head[2] == "refused relation":
            likely = "scope"
        elif head[2].startswith("no-mrs") and likely == "parse":
            likely = "generate"
    return likely


def read(where, text):
    """The report that a text is; `Wrong` where a line isn't as the command writes it."""
    lines = Lines(where, text)
    report = Report(kind_of(lines.lines), where)
    while lines:
        if report.summary:
            raise lines.wrong("the report goes on after the line of `batch items`, its last one")
        line = lines.peek()
        if report.kind == "batch" and SUMMARY.fullmatch(line):
            report.summary = [int(number) for number in SUMMARY.fullmatch(lines.take()).groups()]
            continue
        head, number = HEAD.fullmatch(line), len(report.items) + 1
        if head is None or int(head[1]) != number:
            raise lines.wrong(f"expected a line that begins `item {number} `, got {shown(line)}")
        item = Item(number, lines.at + 1)
        PARTS[report.kind](item, head[2], lines)
        report.items.append(item)
    if report.kind == "batch" and report.summary is None:
        raise lines.wrong("expected a last line `batch items I same A differs B new C bad D`; the report isn't whole")
    return report


def answered(item, rest, lines, form, wanted):
    """Reads the line of an item; says whether a list follows it."""
    if REFUSED.fullmatch(rest):
        item.refused = rest.removeprefix("refused ")
        lines.take()
        return False
    found = ANSWER.fullmatch(rest)
    if found is None or form(found) is None:
        raise lines.wrong(f"expected `item {item.number} {wanted}` or a refusal, got {shown(lines.peek())}")
    item.classes = int(found[1]) if found[1] else None
    item.count = int(form(found))
    lines.take()
    return True


def listed(item, lines, what, read_one):
    """Reads as many lines as the item's line says."""
    for got in range(item.count):
        if not lines.peek().startswith("  "):
            raise lines.wrong(f"item {item.number} says {item.count} {what}, and {got} follow" if lines else f"the report ends within item {item.number}: it says {item.count} {what}, and {got} follow")
        read_one(lines)


def parsed(item, rest, lines):
    if answered(item, rest, lines, lambda found: found[3] if found[2] == "readings" else None, "classes C readings K"):
        listed(item, lines, "readings", lambda lines: item.readings.append(reading(lines)))


def tree_of(lines):
    text = lines.peek()[2:]
    try:
        trees.read(text)
    except trees.NoTree as fault:
        raise lines.wrong(f"expected two blanks and a tree, got {shown(lines.peek())}: {fault}") from fault
    lines.take()
    return text


def mrs_of(lines, blanks):
    text = lines.whole()
    try:
        mrss.read(text[blanks:])
    except mrss.NoMrs as fault:
        raise lines.wrong(f"no MRS, at character {fault.at + blanks + 1} of the line: {fault}") from fault
    lines.pass_over(text)
    return text[blanks:]


def reading(lines):
    found = Reading(tree_of(lines))
    if lines.peek().startswith("  ["):
        found.mrs = mrs_of(lines, 2)
    elif lines.peek().startswith("  no mrs at ."):
        found.missing = lines.take()[len("  no mrs at "):]
    return found


def generated(item, rest, lines):
    if answered(item, rest, lines, lambda found: found[3] if found[2] == "sentences" else None, "classes C sentences K"):
        listed(item, lines, "sentences", lambda lines: item.sentences.append(lines.take()[2:]))


def scoped(item, rest, lines):
    if answered(item, rest, lines, lambda found: found[4], "scopes K"):
        listed(item, lines, "scopes", lambda lines: item.scopes.append(scope(lines)))


def scope(lines):
    """A plugging: the top hole's label, and each hole with its label, as numbers."""
    found = SCOPE.fullmatch(lines.peek())
    if found is None:
        raise lines.wrong(f"expected two blanks, `top=hA` and `hB=hC` for each hole, got {shown(lines.peek())}")
    lines.take()
    return int(found[1]), [tuple(map(int, pair.replace("h", "").split("="))) for pair in found[2].split()]


def charted(item, rest, lines):
    if not answered(item, rest, lines, lambda found: found[1] if found[1] and not found[2] else None, "classes C"):
        return
    while UNKNOWN.fullmatch(lines.peek()):
        found = UNKNOWN.fullmatch(lines.take())
        item.unknown.append([int(found[1]), int(found[2]), found[3]])
    listed(item, lines, "classes", lambda lines: item.edges.append(edge(item, lines)))


def edge(item, lines):
    """A class: its two nodes, its type, whether a root unifies, and its makers, each with the numbers of its daughters."""
    found, number = CLASS.fullmatch(lines.peek()), len(item.edges) + 1
    if found is None or int(found[1]) != number:
        raise lines.wrong(f"expected `  {number} FROM:TO TYPE MAKER ..`, got {shown(lines.peek())}")
    # (a type's own name may have stars at both ends)
    kind = found[4]
    is_root = kind.endswith("*") and (kind.endswith("**") or not kind.startswith("*"))
    kind = kind[:-1] if is_root else kind
    makers = list(makers_of(found[5], item.count, lines))
    lines.take()
    return [int(found[2]), int(found[3]), kind, is_root, makers]


def makers_of(text, most, lines):
    for part in apart(text.strip(), lines):
        rule = re.fullmatch(r"\(([^\s()\"]+)((?: \d+)+)\)", part)
        if rule:
            daughters = [int(number) for number in rule[2].split()]
            if not all(1 <= daughter <= most for daughter in daughters):
                raise lines.wrong(f"the maker {shown(part)} has a daughter that is no class from 1 to {most}")
            yield [rule[1], daughters]
            continue
        try:
            trees.read(part)
        except trees.NoTree as fault:
            raise lines.wrong(f"expected a lexical tree or `(RULE K ..)`, got {shown(part)}: {fault}") from fault
        yield [part, []]


def apart(text, lines):
    """The parts in parentheses that stand side by side in a text."""
    depth, start = 0, 0
    for found in re.finditer(r'"(?:[^"\\]|\\.)*"|[()]', text):
        depth += {"(": 1, ")": -1}.get(found[0], 0)
        if depth == 0 and found[0] == ")":
            yield text[start:found.end()].strip()
            start = found.end()
    if depth or text[start:].strip():
        raise lines.wrong(f"the parentheses of {shown(text)} don't close")


def compared(item, rest, lines):
    found = BATCH.fullmatch(rest)
    if found is None:
        raise lines.wrong(f"expected `item {item.number}` and `same GOT`, `new GOT`, `differs EXPECTED GOT` or what is bad, got {shown(lines.peek())}")
    lines.take()
    expected = found[2] if found[1] == "same" else found[4]
    item.batch = {"said": found[1] or found[3] or "bad", "expected": expected, "got": found[2] or found[5], "bad": found[6]}
    trees_line = KEPT.fullmatch(lines.peek())
    if trees_line and not found[6]:
        lines.take()
        item.batch["trees"] = [int(number) for number in trees_line.groups()]


PARTS = {"parse": parsed, "generate": generated, "scope": scoped, "chart": charted, "batch": compared}


def mrs_lines(where, text):
    """Lines of MRSs, as `generate` and `scope` read them: each an item with one meaning and no tree."""
    lines, report = Lines(where, text), Report("mrs", where)
    while lines:
        item = Item(len(report.items) + 1, lines.at + 1)
        item.readings.append(Reading(None))
        item.readings[0].mrs = mrs_of(lines, 0)
        item.count = 1
        report.items.append(item)
    return report
