"""What the plain definition of `explain` says of the worked rows of explanations."""
import importlib.machinery
import importlib.util
import pathlib
import tempfile

from .bodies import SETTINGS
from .explained import explain_answer
from .grammar import Grammar
from .mrs import mrs_line
from .tdl_reader import case_of_files

ROOT = pathlib.Path(__file__).resolve().parent.parent.parent
# (a load that ends in a fault has this status; there is no grammar to explain trees by)
FAULT, MORE_MOTHERS = 3, 10**6


def rows_of_explanations():
    """The rows, as `bin/test-rows` reads them."""
    loader = importlib.machinery.SourceFileLoader("test_rows", str(ROOT / "bin" / "test-rows"))
    module = importlib.util.module_from_spec(importlib.util.spec_from_loader("test_rows", loader))
    loader.exec_module(module)
    return [row for row in module.Rows(ROOT / "examples" / "rows" / "explanations.rows").read() if row.status != FAULT]


def grammar_of(row, words):
    """The grammar of a row under its settings: names of lists, irregular forms and the limit on paths."""
    file = words[words.index("--settings") + 1] if "--settings" in words else None
    said = [line.split() for line in row.files[file].decode().split("\n")] if file else []
    settings = {line[0]: line[1] for line in said if len(line) == 2}
    names = {name: settings.get(setting, name) for name, setting in SETTINGS.items()}
    with tempfile.TemporaryDirectory(prefix="lkb-explained-") as folder:
        for name, text in row.files.items():
            path = pathlib.Path(folder) / name
            path.parent.mkdir(parents=True, exist_ok=True)
            path.write_bytes(text)
        case = case_of_files(pathlib.Path(folder), words[1], settings.get("irregular-file"), names)
    grammar = Grammar(case | {"limit": int(settings.get("path-limit", case["limit"]))})
    grammar.mothers = -MORE_MOTHERS
    return grammar


def report_of(row):
    """The report on a row's lines, and its status."""
    words = [word.decode() for word in row.words]
    grammar, lines = grammar_of(row, words), bytes(row.input).split(b"\n")
    mrs_lines = (lambda full: mrs_line(grammar, full)) if "--mrs" in words else None
    answers = [explain_answer(grammar, number, line, mrs_lines) for number, line in enumerate(lines if lines[-1] else lines[:-1], 1)]
    text = "".join(line + "\n" for report, _ in answers for line in report)
    return text.encode(), 4 if any(is_refused for _, is_refused in answers) else 0
