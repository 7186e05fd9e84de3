"""Grammars and lines whose packed forests are asked for: random grammars in which words have several entries, grammars of `examples`,
and lines and lattices that are now and then out of form."""
import pathlib

from .cases import case_of, files_of
from .grammar import Grammar
from .profiles import words_of
from .semantic_cases import semantic_case
from .spelling_cases import lines_of as spelled_lines, spelling_case
from .tdl_reader import case_of_files

EXAMPLES = pathlib.Path(__file__).resolve().parent.parent.parent / "examples"
# (a folder of `examples`, the grammar's first file, and a file of lines)
GRAMMARS = (
    ("first", "words", "words.lines"), ("first", "agreement", "agreement.lines"), ("first", "valence", "valence.lines"),
    ("first", "inflection", "inflection.lines"), ("first", "meaning", "meaning.lines"), ("latin", "latin", "lines"),
    ("textbook", "english", "lines"), ("textbook", "english", "lines"), ("german", "german", "lines"), ("guide/lattices", "dogs", None),
    ("guide/limits", "once", None), ("guide/limits", "pairs", None), ("guide/limits", "loop", None), ("guide/limits", "unary", None),
    *(("rows/grammars", name, None) for name in ("g1", "g3", "g4", "g4b", "g4u", "g5", "g6")),
)
RESTRICTORS = (None, None, ["STEM"], [], ["CONT", "C-CONT", "STEM", "HEAD"], ["CONT", "STEM", "AGR"], ["CONT", "C-CONT", "STEM", "SPR", "COMPS"])
# (these are made ready once)
LARGE, LONGEST, MORE_MOTHERS = ("textbook", "german"), {"textbook": 7, "german": 6, "latin": 6}, 20000
NUMBERS = ("0", "1", "2", "00", "01", "65534", "65535", "99999", "100000", "-1", "+1", "", "x", "1.0", "٣")
kept = {}


def sample_of(chance):
    """Files, words of the command line, the grammar and words of its lines."""
    draw = chance.random()
    if draw < 0.15:
        return example_of(chance)
    case = doubled(chance, case_of(chance)) if draw < 0.75 else spelling_case(chance) if draw < 0.85 else semantic_case(chance)
    grammar = Grammar(case)
    lines = case["lines"] if case.get("lines") else spelled_lines(chance, grammar, case)
    return files_of(case), ["chart", "g", "--settings", "set"], grammar, lines


def doubled(chance, case):
    """The same with further entries for its words, so that one class packs several leaves and several classes pack one."""
    for name in [name for name, words in case["words"].items() if len(words) == 1 or chance.random() < 0.2]:
        for number in range(chance.choice((0, 0, 1, 1, 2, 3))):
            of, body = chance.choice(case["entries"])
            stem = dict(case["entries"])[name][1]
            if chance.random() < 0.8:
                body = [((), [("type", chance.choice(case["kinds"]))]), stem, *(said for said in body[2:] if chance.random() < 0.5)]
            else:
                body = [body[0], stem, *body[2:]]
            case["entries"].append((f"{name}-{number}", body))
            case["words"][f"{name}-{number}"] = case["words"][name]
    return case


def example_of(chance):
    folder, top, lines = chance.choice(GRAMMARS)
    path, restrictors = EXAMPLES / folder, None if folder in LARGE else chance.choice(RESTRICTORS)
    files = {file.name: file.read_text().split("\n")[:-1] for file in sorted(path.iterdir()) if file.suffix == ".tdl" or file.name in ("irregular", "settings")}
    words = ["chart", top]
    if restrictors is not None:
        files["settings"] = [*files.get("settings", []), " ".join(["restrictors", *restrictors])]
    if "settings" in files:
        words += ["--settings", "settings"]
    if (key := (folder, top, str(restrictors))) not in kept:
        case = case_of_files(path, top, "irregular" if "irregular" in files else None)
        kept[key] = Grammar(case if restrictors is None else case | {"restrictors": restrictors})
    grammar = kept[key]
    grammar.mothers = -MORE_MOTHERS
    if lines is None:
        known = [word for of in grammar.case["words"].values() for word in of]
        said = [[chance.choice(known) for _ in range(chance.choice((0, 1, 2, 3, 4, 5)))] for _ in range(20)]
    else:
        said = [words_of(line) for line in (path / lines).read_text().split("\n")]
    return files, words, grammar, [line for line in said if len(line) <= LONGEST.get(folder, 8)]


def limits_of(chance, grammar):
    """Limits, now and then the defaults, as the case has them and as words of the command line."""
    said = []
    for key, name, default, others in (("edges", "edges", 5000, (1, 3, 10, 30, 200)), ("unary", "unary", 8, (0, 1, 2, 3)), ("lexical-limit", "lexical", 7, (0, 1, 2, 2))):
        grammar.case[key] = default if chance.random() < 0.25 else chance.choice(others)
        if grammar.case[key] != default or chance.random() < 0.1:
            said += [f"--{name}", str(grammar.case[key])]
    return said


def changed(chance, words, known):
    """The words with some that are gone, changed or moved."""
    words = list(words)
    while words and chance.random() < 0.4:
        at, draw = chance.randrange(len(words)), chance.random()
        if draw < 0.35:
            words[at] = chance.choice(known)
        elif draw < 0.6:
            words[at] = chance.choice(("zzz", words[at] + "s", "unknown", "1:2", "*", '"', "straße", "ÉTÉ"))
        elif draw < 0.8:
            del words[at]
        else:
            words.insert(chance.randrange(len(words) + 1), words.pop(at))
    return words


def line_of(chance, words):
    """The text of a line of words, now and then in capitals, with blanks of all kinds, or not UTF-8."""
    written = [word.upper() if chance.random() < 0.08 else word for word in words]
    if chance.random() < 0.03:
        written.insert(chance.randrange(len(written) + 1), chance.choice(("\udcff", "a\udcc3", "\udce2\udc82")))
    between = lambda: chance.choice((" ", " ", " ", " ", "  ", "\t", "\u3000", "\u00a0"))
    return "".join(chance.choice(("", "", "", between())) * (k == 0) + word + between() * (k < len(written) - 1 or chance.random() < 0.1) for k, word in enumerate(written))


def lattice_line(chance, words, known):
    """The text of a lattice: the steps of words, further ones beside them, gaps, repeated ones, and now and then one out of form."""
    nodes = [0]
    for _ in words:
        nodes.append(nodes[-1] + (1 if chance.random() < 0.9 else chance.choice((2, 3))))
    steps = [(i, j, word) for i, j, word in zip(nodes, nodes[1:], words)]
    for _ in range(chance.choice((0, 1, 1, 2, 3)) if words else 0):
        i, j = sorted(chance.sample(nodes, 2)) if chance.random() < 0.9 else (chance.randrange(3), chance.randrange(3, 6))
        steps.append((i, j, chance.choice((*known, *known, "zzz", "a:b"))))
    if steps and chance.random() < 0.15:
        steps.append(chance.choice(steps))
    if chance.random() < 0.3:
        chance.shuffle(steps)
    if steps and chance.random() < 0.1:
        steps.pop(chance.randrange(len(steps)))
    items = [f"{'0' * (chance.random() < 0.03)}{i}:{j}:{word.upper() if chance.random() < 0.1 else word}" for i, j, word in steps]
    for _ in range(chance.choice((0,) * 12 + (1, 2))):
        items.insert(chance.randrange(len(items) + 1), wrong_of(chance))
    return line_of(chance, items) if chance.random() < 0.9 else " ".join(items)


def wrong_of(chance):
    """An item that is mostly out of form."""
    a, b = chance.choice(NUMBERS), chance.choice(NUMBERS)
    return chance.choice((f"{a}:{b}:w", f"{a}:{b}:w", f"0:1:{a}", "0:1:", "0:1", "w", ":", "::", "1:0:w", "1:1:w", "0:1w", "0:1::"))


def lattice_of_text(text):
    """What a line writes: its steps, each once, and its last node; or the byte of the first item that is out of form."""
    steps = []
    for item in words_of(text):
        first, colon, rest = item.partition(":")
        second, other, word = rest.partition(":")
        if not (colon and other and word and is_node(first) and is_node(second) and int(first) < int(second)):
            return place_of(text, len(steps))
        steps.append((int(first), int(second), word.casefold()))
    return list(dict.fromkeys(steps)), max((j for _, j, _ in steps), default=0)


def is_node(digits):
    return digits.isascii() and digits.isdigit() and len(digits) <= 5 and int(digits) <= 65534


def place_of(text, count):
    """The byte at which the item after so many begins."""
    at = 0
    for item in words_of(text)[: count + 1]:
        begin = text.index(item, at)
        at = begin + len(item)
    return len(text[:begin].encode())
