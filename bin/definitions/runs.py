"""What the program is asked in one run, and what it must write: a run is a random grammar, its settings, and lines, MRSs or
names over it."""
from .bodies import NAMES
from .cases import case_of, files_of, lattice_of, line_of, options_of
from .chart_cases import changed, lattice_line, lattice_of_text, limits_of, line_of as text_of_line, sample_of
from .charts import chart_answer
from .explain_cases import line_of as line_of_tree, trees_of
from .explained import explain_answer
from .grammar import Grammar
from .items import generate_answer, parse_answer
from .mrs import Mrs, are_equal, contribution, mrs_line, mrs_of, DEFAULTS
from .faults import draft_of
from .mrs_texts import asked_texts
from .profile_cases import profile_of
from .profiles import items_of as items_of_profile, report_of, words_of
from .rule_reader import rules_of as rules_of_text
from .scope_cases import LIMITS, asked_lines
from .scopes import lines_of_scopes
from .semantic_cases import semantic_case
from .spelling_cases import lines_of, spelling_case
from .structures import TooMuch
from .transfer_cases import (
    Written, asked_lines as lines_to_transfer, changed_characters, changed_tokens, many_brackets, mrs_of as mrs_to_transfer, mrss_at_budget,
    rules_at_budget, rules_of as random_rules, text_of as rules_text,
)
from .transfers import lines_of_transfer
from .type_cases import types_asked

MOST_MRSS, BROKEN, SCOPES, TRANSFERS, TEXTS, PROFILES, CHARTS, EXPLAINED, DEFAULT_READINGS = 12, 20, 30, 25, 6, 4, 25, 60, 10000
CHECK = ["check", "g", "--settings", "set"]


class Asked:
    """The words of one process, its input, for each case of it the lines that must come, the status and a fault's text; and files
    that stand in place of the run's. Cases too large for the definitions are no cases; `passed` counts them."""

    def __init__(self, words, cases, lines=(), status=0, fault="", files=None, passed=0):
        self.words, self.cases, self.lines, self.status, self.fault = words, cases, lines, status, fault
        self.files, self.passed = files or {}, passed


def parsed(chance, case, grammar, mrs_lines=None):
    """The lines of a case. What is too large for the definitions is passed over."""
    lines, reports, refused = [], [], False
    for words in case["lines"]:
        lattice = lattice_of(chance if case["lattice"] else None, words)
        try:
            report, is_refused = parse_answer(grammar, len(lines) + 1, lattice, case["lattice"], mrs_lines)
        except TooMuch:
            continue
        refused |= is_refused
        lines.append(line_of(lattice[0], words, case["lattice"]))
        reports.append(report)
    flags = (["--lattice"] if case["lattice"] else []) + (["--mrs"] if mrs_lines else [])
    return Asked(["parse", "g", *options_of(case), *flags, *workers_of(chance)], reports, lines, 4 if refused else 0)


def workers_of(chance):
    return ["--workers", "2"] if chance.random() < 0.05 else []


def told(case, grammar, chance, most):
    """What `check`, `types` and `expand` write."""
    asked = [Asked(CHECK, [[grammar.counted()]]), Asked(["types", "g", "--settings", "set"], [grammar.types.listing()])]
    first = {}
    for name in grammar.types.names:
        first[name] = grammar.constraint(name)
    for (_, name), structure in grammar.instance.items():
        first.setdefault(name, structure)
    for name in chance.sample(list(first), min(most, len(first))):
        asked.append(Asked(["expand", "g", name, "--settings", "set"], [grammar.expanded(first[name])]))
    return asked


def whole(case):
    """The grammar of a case, and the fault of its first type or instance without a structure, if there is one."""
    grammar = Grammar(case)
    found = grammar.unstructured()
    if found is None:
        return grammar, None
    is_type, name = found
    text = "\n".join(files_of(case)["g.tdl"]) + "\n"
    place = (text.index if is_type else text.rindex)(f"\n{name} :=") + 1
    return grammar, Asked(CHECK, [[]], status=3, fault=f"lkb: g.tdl:{len(text[:place].encode())}: NoStructure {name}\n")


def syntax_run(chance):
    case = case_of(chance)
    grammar, fault = whole(case)
    if fault:
        return files_of(case), [fault]
    return files_of(case), [parsed(chance, case, grammar), *told(case, grammar, chance, 2)]


def semantics_run(chance):
    case = semantic_case(chance)
    grammar, fault = whole(case)
    if fault:
        return files_of(case), [fault]
    asked = [parsed(chance, case, grammar, lambda full: mrs_line(grammar, full)), *told(case, grammar, chance, 1)]
    found = {}
    for key in list(grammar.kept):
        if key[0] == "mrs" and isinstance(mrs := mrs_of(grammar, key[1]), Mrs) and len(mrs.eps) < 6:
            found.setdefault(mrs_line(grammar, key[1]), mrs)
    texts = list(found)
    chance.shuffle(texts)
    return files_of(case), [*asked, generated(chance, case, grammar, [found[text] for text in texts[:MOST_MRSS]])]


def spelling_run(chance):
    case = spelling_case(chance)
    grammar = Grammar(case)
    case["lines"] = lines_of(chance, grammar, case)
    asked = parsed(chance, case, grammar)
    asked.lines = [line.upper() if chance.random() < 0.1 else line for line in asked.lines]
    return files_of(case), [asked]


def generated(chance, case, grammar, mrss):
    said = DEFAULTS | case["mrs"]
    of_leaf = lambda full: grammar.keep(("said", full), lambda: contribution(grammar, grammar.structures[full], said["mrs-path"]))
    of_rule = lambda rule: contribution(grammar, grammar.instance["rules", rule], said["c-cont-path"])
    lines, reports, refused = [], [], False
    for text, mrs in asked_texts(chance, mrss):
        number = len(lines) + 1
        if isinstance(mrs, int):
            report, is_refused = [f"item {number} no-mrs {mrs}"], True
        else:
            means = lambda full: isinstance(other := mrs_of(grammar, full), Mrs) and are_equal(mrs, other)
            try:
                report, is_refused = generate_answer(grammar, number, mrs.bag(), means, (of_leaf, of_rule))
            except TooMuch:
                continue
        refused |= is_refused
        lines.append(text)
        reports.append(report)
    words = ["generate", "g", *options_of(case), "--empty", str(case["empty"]), *workers_of(chance)]
    return Asked(words, reports, lines, 4 if refused else 0)


def types_run(chance):
    """A hierarchy with features, or the first fault of its types."""
    written, text, limit, fault = types_asked(chance)
    files = {"g.tdl": [text], "set": [f"path-limit {limit}"]}
    if fault:
        return files, [Asked(CHECK, [[]], status=3, fault=f"lkb: g.tdl:{fault}\n")]
    case = {"types": written, "limit": limit, "entries": [], "lexical": [], "rules": [], "roots": []}
    return files, told(case, Grammar(case), chance, 2)


def broken_run(chance):
    """A grammar without faults, and texts of it that are broken at one known place or two, or that say the same in another way."""
    case = (case_of if chance.random() < 0.5 else semantic_case)(chance) | {"names": NAMES}
    grammar, fault = whole(case)
    if fault:
        raise TooMuch
    asked = []
    for _ in range(BROKEN):
        files, text = draft_of(chance, case)
        asked.append(Asked(CHECK, [[grammar.counted()]], files=files) if text is None else Asked(CHECK, [[]], status=3, fault=text, files=files))
    return {}, asked


def scope_run(chance):
    """MRSs, a line each, with a limit of readings. No grammar is read, and a file of settings that isn't there is no fault."""
    limit, lines, reports, refused, passed = chance.choice(LIMITS), [], [], False, 0
    for text, mrs in asked_lines(chance, SCOPES):
        number = len(lines) + 1
        if isinstance(mrs, int):
            report, is_refused = [f"item {number} no-mrs {mrs}"], True
        else:
            try:
                report, is_refused = lines_of_scopes(number, mrs, limit or DEFAULT_READINGS)
            except TooMuch:
                passed += 1
                continue
        refused |= is_refused
        lines.append(text)
        reports.append(report)
    more = ["--settings", "missing"] if chance.random() < 0.1 else []
    readings = ["--readings", str(limit)] if limit else []
    return {}, [Asked(["scope", *readings, *more, *workers_of(chance)], reports, lines, 4 if refused else 0, passed=passed)]


def transfer_run(chance):
    """Rules with lines of MRSs; and texts of rules that are out of form, or changed, with some of the lines."""
    mrss = [mrs_to_transfer(chance) for _ in range(chance.randint(2, 6))]
    lines = list(lines_to_transfer(chance, [chance.choice(mrss) for _ in range(TRANSFERS)]))
    tokens = Written(chance, 0).rules(random_rules(chance, mrss))
    asked = [transferred(chance, rules_text(chance, tokens), lines)]
    if chance.random() < 0.2:
        n, mrs = chance.choice(list(mrss_at_budget()))
        asked.append(transferred(chance, rules_text(chance, Written(chance, 0).rules(rules_at_budget(chance, n))), list(lines_to_transfer(chance, [mrs] * 2))))
    for _ in range(TEXTS):
        draw = chance.random()
        if draw < 0.4:
            text = rules_text(chance, Written(chance, 0.03).rules(random_rules(chance, mrss)))
        elif draw < 0.75:
            text = rules_text(chance, changed_tokens(chance, tokens))
        elif draw < 0.97:
            text = changed_characters(chance, rules_text(chance, tokens))
        else:
            text = many_brackets(chance, rules_text(chance, tokens))
        asked.append(transferred(chance, text, chance.sample(lines, min(3, len(lines)))))
    return {}, asked


def transferred(chance, text, lines):
    """What comes of lines by the rules of a text and the settings' names of rules that are skipped."""
    files, words, skipped, fault = {"rules": [text]}, ["transfer", "rules", *workers_of(chance)], [], None
    if chance.random() < 0.3:
        files["set"], skipped, fault = skips_of(chance)
        words += ["--settings", "set"]
    if fault is None:
        if chance.random() < 0.02:
            words[1], fault = "missing", "missing: Shelf"
        else:
            rules, found = rules_of_text((text + "\n").encode(errors="surrogateescape"))
            fault = found and f"rules:{found[0]}: {found[1]}"
    if fault is not None:
        return Asked(words, [[]], [line for line, _ in lines], 3, f"lkb: {fault}\n", files)
    said, reports, refused, passed = [], [], False, 0
    for line, mrs in lines:
        number = len(said) + 1
        try:
            report, is_refused = ([f"item {number} no-mrs {mrs}"], True) if isinstance(mrs, int) else lines_of_transfer(number, rules, skipped, mrs)
        except TooMuch:
            passed += 1
            continue
        refused |= is_refused
        said.append(line)
        reports.append(report)
    return Asked(words, reports, said, 4 if refused else 0, files=files, passed=passed)


def batch_run(chance):
    """Profiles over the lines of a grammar, or over a grammar with a fault, which is told before a missing profile."""
    case = (case_of if chance.random() < 0.8 else spelling_case)(chance)
    grammar, fault = whole(case)
    if fault:
        fault.words = ["batch", "g", chance.choice(("set", "missing")), "--settings", "set"]
        return files_of(case), [fault]
    lines = case["lines"] if case.get("lines") else lines_of(chance, grammar, case)
    found = {}

    def answer(words):
        """What comes of words, and the texts of the trees."""
        key = tuple(words)
        if key not in found:
            report, is_refused = parse_answer(grammar, 1, lattice_of(None, words), False)
            found[key] = report[0].split(" ")[-1], [tree[2:].encode() for tree in report[1:]]
        return found[key]

    asked, words = [], ["batch", "g", "profile", *options_of(case)]
    for _ in range(PROFILES):
        try:
            text = profile_of(chance, [words for words in lines if fits(answer, words)], answer)
            items = items_of_profile(text + b"\n" if not text.endswith(b"\n") else text)
            cases, is_refused = report_of(items, answer)
        except TooMuch:
            continue
        # (a file is written with a line end more)
        kept = [line.decode(errors="surrogateescape") for line in text.removesuffix(b"\n").split(b"\n")]
        more = ["--workers", str(chance.choice((2, 3, 8)))] if chance.random() < 0.3 else []
        asked.append(Asked([*words, *more, *(["--mrs", "--lattice"] if chance.random() < 0.1 else [])], cases, ["no input is read"], 4 if is_refused else 0, files={"profile": kept}))
    asked.append(Asked(["batch", "g", "missing", "--settings", "set"], [[]], status=3, fault="lkb: missing: Shelf\n"))
    return files_of(case), asked


def chart_run(chance):
    """Packed forests of lines and lattices under several limits, by a random grammar or one of `examples`."""
    files, words, grammar, lines = sample_of(chance)
    if None in grammar.instance.values() or any(grammar.constraint(name) is None for name in grammar.types.names):
        raise TooMuch
    return files, [charted(chance, [*words, *limits_of(chance, grammar)], grammar, lines) for _ in range(chance.choice((1, 2, 3)))]


def charted(chance, words, grammar, lines):
    is_lattice = chance.random() < 0.4
    known = [word for of in grammar.case["words"].values() for word in of]
    said, reports, refused, passed = [], [], False, 0
    for _ in range(CHARTS if len(grammar.case["types"]) < 60 else 3):
        line = changed(chance, chance.choice(lines) if lines else [], known)
        text = lattice_line(chance, line, known) if is_lattice else text_of_line(chance, line)
        try:
            report, is_refused = chart_report(grammar, len(said) + 1, text, is_lattice)
        except TooMuch:
            passed += 1
            continue
        refused |= is_refused
        said.append(text)
        reports.append(report)
    flags = [*(["--lattice"] if is_lattice else []), *(["--workers", str(chance.choice((2, 4)))] if chance.random() < 0.1 else []), *(["--mrs"] if chance.random() < 0.05 else [])]
    return Asked([*words, *flags], reports, said, 4 if refused else 0, passed=passed)


def explain_run(chance):
    """Trees, a line each, by a random grammar or one of `examples`; with MRSs where the grammar has meanings."""
    files, words, grammar, lines = sample_of(chance)
    if None in grammar.instance.values() or any(grammar.constraint(name) is None for name in grammar.types.names):
        raise TooMuch
    trees = list(trees_of(grammar, chance.sample(lines, min(len(lines), 12))))
    mrs_lines = (lambda full: mrs_line(grammar, full)) if "mrs" in grammar.case and chance.random() < 0.8 else None
    said, reports, refused, passed = [], [], False, 0
    for _ in range(EXPLAINED):
        line = line_of_tree(chance, grammar, trees)
        try:
            report, is_refused = explain_answer(grammar, len(said) + 1, line, mrs_lines)
        except TooMuch:
            passed += 1
            continue
        refused |= is_refused
        said.append(line.decode(errors="surrogateescape"))
        reports.append(report)
    words = ["explain", *words[1:], *(["--mrs"] if mrs_lines else []), *workers_of(chance), *(["--lattice"] if chance.random() < 0.1 else [])]
    return files, [Asked(words, reports, said, 4 if refused else 0, passed=passed)]


def chart_report(grammar, number, text, is_lattice):
    """The report on a line, and whether it is refused or can't be read."""
    if any("\udc80" <= c <= "\udcff" for c in text):
        return [f"item {number} not-utf8"], True
    if not is_lattice:
        said = [word.casefold() for word in words_of(text)]
        return chart_answer(grammar, number, lattice_of(None, said), False)
    lattice = lattice_of_text(text)
    if isinstance(lattice, int):
        return [f"item {number} no-lattice {lattice}"], True
    # (sizes are gone through one by one)
    if lattice[1] > 50:
        raise TooMuch
    return chart_answer(grammar, number, lattice, True)


def fits(answer, words):
    """Whether the definitions answer these words in time."""
    try:
        answer(words)
    except TooMuch:
        return False
    return True


def skips_of(chance):
    """A file of settings, the names of rules that it skips, and what is told of it where it is broken."""
    names = lambda: [chance.choice(("r0", "r1", "R2", "r3", "r9", "ü")) for _ in range(chance.choice((0, 1, 1, 2)))]
    skipped = names()
    lines = ["; rules that are passed over", " ".join(["transfer-skip", *names()]), "first HD", " ".join(["\ttransfer-skip", *skipped])]
    lines = lines[chance.choice((0, 2, 3)) :]
    if chance.random() < 0.1:
        at = chance.randrange(len(lines))
        lines.insert(at, chance.choice(("transfer-skip a.b", "transfer_skip r0", "transfer-skip #x1", "path-limit many", "\udcff")))
        return lines, [], f"set:{at + 1}: Settings"
    return lines, [name.lower() for name in skipped], None


RUNS = {
    "syntax": syntax_run, "semantics": semantics_run, "spelling": spelling_run, "types": types_run, "broken": broken_run, "scope": scope_run,
    "transfer": transfer_run, "batch": batch_run, "chart": chart_run,
    "explain": explain_run,
}
