"""Files of a grammar that are broken at one known place or two. Each fault has a stage, and that of the least stage must be told;
where a fault must be told is marked while the text is made."""
from .cases import files_of, statements_of

MARKS = "\x01\x02"
HARMLESS = (
    "; a comment", "#| a block := [ ( comment |#", '"""a docstring :="""', "#| ä€ |#",
    ":begin :instance :status parse-node. lab := nowhere & [ QQ nobody ]. :end :instance.",
    ':include "empty".', "\t", ":begin :type. :end :type.",
)


class Draft:
    """The files of a grammar while they are broken: statements before the first environment, those of each environment, and what
    comes last."""

    def __init__(self, chance, case):
        self.chance, self.case = chance, case
        files = files_of(case)
        self.settings, self.irregular = list(files["set"]), list(files["irregular"])
        self.statements = [text for _, text in statements_of(case)]
        self.last, self.others = "", {"empty.tdl": []}

    def files(self):
        lines = self.statements + ([self.last] if self.last else [])
        if self.chance.random() < 0.1:
            lines[0] = "\ufeff" + lines[0]
        return {"g.tdl": lines, "set": self.settings, "irregular": self.irregular, **self.others}

    def put_last(self, text):
        """Puts text behind all statements, before what a fault of an earlier stage put there."""
        self.last = text + "\n" + self.last if self.last else text

    def put(self, text, status=None):
        """Puts a statement somewhere behind the types, or into the environment of a status."""
        first = next(k for k, said in enumerate(self.statements) if said.startswith(":begin :instance :status lex-entry"))
        if status is None:
            self.statements.insert(self.chance.randint(first - 2, first), text)
            return
        self.statements.insert(self.chance.randint(*self.inside(status)), text)

    def inside(self, status):
        """The first and the last place for a statement in the environment of a status."""
        begin = self.statements.index(f":begin :instance :status {status}.") + 1
        return begin, next(k for k in range(begin, len(self.statements)) if self.statements[k].startswith(":end"))


def draft_of(chance, case):
    """Files, and the text of their first fault, none where they have none."""
    draft = Draft(chance, case)
    for _ in range(chance.randint(0, 2)):
        text = chance.choice(HARMLESS)
        draft.put(text, None if ":begin" in text else chance.choice((None, None, "rule", "lex-entry")))
    stages = sorted(chance.sample(range(len(STAGES)), chance.choice((0, 1, 1, 1, 1, 1, 1, 1, 2, 2, 2))))
    found = [chance.choice(STAGES[stage])(draft, mark) for stage, mark in zip(stages, MARKS)]
    files = draft.files()
    cleaned = {name: [line.translate(dict.fromkeys(map(ord, MARKS))) for line in lines] for name, lines in files.items()}
    return cleaned, text_of(*found[0], files) if found else None


def text_of(name, said, files):
    """The text of a fault, with the place or the line of the first mark where the fault tells one."""
    if said.startswith(":"):
        return f"lkb: {name}:{place_of(files[name])}: {said[1:]}\n"
    if said.startswith("#"):
        return f"lkb: {name}:{1 + next(k for k, line in enumerate(files[name]) if MARKS[0] in line)}: {said[1:]}\n"
    return f"lkb: {name}: {said}\n"


def place_of(lines):
    """The byte at which the first mark stands, or the length of the file where it stands nowhere."""
    before = ("\n".join(lines) + "\n").split(MARKS[0])[0]
    return len(before.replace(MARKS[1], "").encode(errors="surrogateescape"))


# Faults: each breaks a draft, and gives the file and what is told, which begins with a colon where a place is told and with # where
# a line is.


def settings(draft, mark):
    lines = (
        "nonsense 3", "path-limit 0", "path-limit 1001", "path-limit", "top-type a b", "sort h", "sort h H1", "orth-path A..B", "first", "first A B",
        "string-type glbtype1", "Path-Limit 3", " ;x", "irregular-file a b", "top-type string", "mrs-path", "restrictors A.B", "sort handle h i",
        "path-limit -1",
        "list-type a.b", "check-paths A.", "\udcff",
    )
    draft.settings.insert(draft.chance.randint(0, len(draft.settings)), mark + draft.chance.choice(lines))
    return "set", "#Settings"


def bad_character(draft, mark):
    text = draft.chance.choice(("$", "^", "=", "/", "{", "\\", "%SUFFIX (a b)", "(", ":", "!", "#", "'", "%x", "|#", "`", "\ue000"))
    draft.put(f"{mark}{text} ;")
    return "g.tdl", ":BadChar"


def open_comment(draft, mark):
    draft.put_last(f"{mark}#| never closed")
    return "g.tdl", ":OpenComment"


def open_docstring(draft, mark):
    draft.put_last(f'{mark}"""never closed')
    return "g.tdl", ":OpenString"


def open_string(draft, mark):
    draft.put_last(f'foo := {mark}"never closed \\" .')
    return "g.tdl", ":OpenString"


def open_group(draft, mark):
    draft.put(f"%{mark}(letter-set ((!q ab)")
    return "g.tdl", ":OpenGroup"


def not_utf8(draft, mark):
    draft.put(f"; {mark}\udcff")
    return "g.tdl", ":NotUtf8"


def unexpected(draft, mark):
    texts = (
        "foo @bar.", "foo := @.", "foo := sign & @.", "foo := [ A sign @B sign ].", "foo := [ @, ].", "foo := < sign, @>.",
        "foo := < ... @, sign >.", "foo := <! sign @>.",
        "foo := sign & @& sign.", ":begin @:foo.", ":begin :instance @.", ":include @foo.", "@. ", "foo :+ @%suffix (a b) sign.",
        "foo := sign @bar := sign.", "foo := [ A.@] sign ].",
        "@:foo.", "foo := %prefix @:foo.", 'foo := "a" @"b".', "foo := [ @#a sign ].", "foo := < sign . sign @, sign >.", ":end @:foo.",
        ":begin :instance :status @.", "%(letter-set (!c ab))@& foo.",
    )
    draft.put(draft.chance.choice(texts).replace("@", mark))
    return "g.tdl", ":Unexpected"


def bad_affix(draft, mark):
    groups = ("(a)", "(a b c)", "()", "( )", "(a !c)", "(!9 a)", "(ß a)", "(a ß)")
    sets = (
        "(letter-set (c ab))", "(letter-set (!c))", "(letter-set !c ab)", "(letters (!c ab))", "(letter-set (!cab))", "(letter-set (!ß ab))",
        "(wild-card (?a bcd))", "(letter-set (!c aß))",
    )
    if draft.chance.random() < 0.5:
        draft.put("%" + mark + draft.chance.choice(sets))
    else:
        before = draft.chance.choice(("", "(a b) "))
        draft.put(f"foo := {draft.chance.choice(('%suffix', '%prefix'))} {before}{mark}{draft.chance.choice(groups)} sign.", "lex-rule")
    return "g.tdl", ":BadAffix"


def end_of_file(draft, mark):
    draft.put_last(draft.chance.choice(("foo := [ A", "foo", "foo := sign", ":begin", "foo := sign &", "foo := < sign ,", ':include "x"')))
    return "g.tdl", ":EndOfFile"


def too_deep(draft, mark):
    draft.put("foo := " + draft.chance.choice(("[ A ", "< ", "<! ")) * 200 + mark + draft.chance.choice(("[ A ", "< ", "<! ")))
    return "g.tdl", ":TooDeep"


def environment(draft, mark):
    where = draft.chance.choice(("lex-entry", "lex-rule", "rule", "root"))
    ways = (
        (f"{mark}:end :type.", None), (f"{mark}:end :instance.", None), (f"{mark}:end :type.", where), (f"{mark}:begin :type.", where),
        (f"{mark}sign :+ [ ].", where),
        (f"{mark}foo := %suffix (a b) sign.", None), (f"{mark}foo := %suffix (a b) sign.", "lex-entry"),
        (f"{mark}foo := %prefix (a b) sign.", "rule"), (f"{mark}:begin :instance :status root.", where),
    )
    draft.put(*draft.chance.choice(ways))
    return "g.tdl", ":Environment"


def environment_open(draft, mark):
    draft.put_last(mark + draft.chance.choice((":begin :type.", ":begin :instance :status rule.", ":begin :instance :status other.")))
    return "g.tdl", ":Environment"


def include_missing(draft, mark):
    draft.put(':include "nofile".', draft.chance.choice((None, "rule")))
    return "nofile.tdl", "Shelf"


def include_loop(draft, mark):
    if draft.chance.random() < 0.5:
        draft.put(':include "g".')
        return "g.tdl", "IncludeLoop"
    draft.put(':include "m".')
    draft.others["m.tdl"] = [":begin :type.", ':include "g.tdl".', ":end :type."]
    return "g.tdl", "IncludeLoop"


def include_broken(draft, mark):
    text, said = draft.chance.choice((
        (f"{mark}$", ":BadChar"), (f"foo := sign {mark}bar.", ":Unexpected"), (f'x := {mark}"a', ":OpenString"),
        (f"{mark}:end :type.", ":Environment"), (f"{mark}:begin :type.", ":Environment"),
    ))
    draft.others["m.tdl"] = ["; ä", "foo2 := *top*.", text]
    draft.put(':include "m".')
    return "m.tdl", said


def irregular_missing(draft, mark):
    draft.settings.append("irregular-file nofile2")
    return "nofile2", "Shelf"


def duplicate(draft, mark):
    chance, case = draft.chance, draft.case
    if chance.random() < 0.5:
        name = chance.choice(case["types"])[0]
        draft.statements.insert(draft.statements.index(":begin :instance :status lex-entry."), f"{mark}{name} := *top*.")
    else:
        key, status = chance.choice((("entries", "lex-entry"), ("rules", "rule"), ("roots", "root")))
        name = chance.choice(case[key])[0]
        draft.statements.insert(draft.inside(status)[1], f"{mark}{name} := sign.")
    return "g.tdl", f":Duplicate {name}"


def unknown(draft, mark):
    if draft.chance.random() < 0.6:
        draft.put(f"{mark}foo3 := *top* & nope & nobody.")
        return "g.tdl", ":Unknown foo3 nope"
    name = draft.chance.choice(draft.case["types"])[0]
    mark_statement(draft, name, mark)
    draft.put(f"{name} :+ nope.")
    return "g.tdl", f":Unknown {name} nope"


def mark_statement(draft, name, mark):
    k = next(k for k, text in enumerate(draft.statements) if text.startswith(f"{name} :="))
    draft.statements[k] = mark + draft.statements[k]


def cycle(draft, mark):
    if draft.chance.random() < 0.6:
        draft.put(f"{mark}foo4 := bar4. bar4 := baz4. baz4 := *top* & foo4.")
        return "g.tdl", ":Cycle foo4"
    mark_statement(draft, "value", mark)
    draft.put("value :+ v0.")
    return "g.tdl", ":Cycle value"


def reserved(draft, mark):
    name, said = draft.chance.choice((("glbtype7", "glbtype7"), ("*top*", "*top*"), ("GLBtype0", "glbtype0")))
    draft.put(f"{mark}{name} := [ ].")
    return "g.tdl", f":Reserved {said}"


def unknown_name(draft, mark):
    chance = draft.chance
    text, status = chance.choice((
        ("foo5 := *top* & [ HEAD @nope5 ].", None), ("foo5 := *top* & [ HEAD < value, @nope5 > ].", None),
        ("foo5 := @nope5 & [ ARGS < sign, sign > ].", "rule"), ("@nope5 :+ [ HEAD value ].", None),
        ("foo5 := sign & [ HEAD [ HEAD #x & @nope5 & nope6 ] ].", "lex-entry"), ("foo5 := @Nope5.", "root"),
        ("foo5 := sign & [ ARGS < [ HEAD @nope5 ] > ].", "lex-rule"),
    ))
    draft.put(text.replace("@", mark), status)
    return "g.tdl", ":UnknownName nope5"


def no_introducer(draft, mark):
    text, status = draft.chance.choice((
        ("foo6 := *top* & [ HEAD @[ QQ value ] ].", None), ("foo6 := @[ qq value ].", "rule"),
        ("foo6 := sign & [ HEAD value & @[ QQ value, QR value ] ].", "lex-entry"),
        ("foo6 := sign & [ ARGS < @[ HEAD value, Qq value ] > ].", "lex-rule"),
    ))
    draft.put(text.replace("@", mark), status)
    return "g.tdl", ":NoIntro QQ"


def introducers(draft, mark):
    draft.put(f"foo7 := *top* & [ QA value ]. {mark}bar7 := *top* & [ QA value ].")
    return "g.tdl", ":Intro QA foo7 bar7"


def no_structure(draft, mark):
    status = draft.chance.choice((None, None, "lex-entry", "rule", "root"))
    texts = ["sign & [ STEM value ]", "sign & [ HEAD [ HEAD list ] ]", 'sign & [ HEAD "x" ]', "sign & [ HEAD list ]", "sign & [ STEM #x & < #x > ]"]
    draft.put(f"{mark}foo8 := {draft.chance.choice(texts + (['value & sign'] if status else []))}.", status)
    return "g.tdl", ":NoStructure foo8"


def arity(draft, mark):
    texts = (
        "sign", "sign & [ ARGS < > ]", "sign & [ ARGS < sign, ... > ]", "sign & [ ARGS < sign, sign, sign, sign, sign > ]", "*top*",
        "sign & [ ARGS < sign . cons > ]",
    )
    if draft.chance.random() < 0.6:
        draft.put(f"{mark}foo9 := {draft.chance.choice(texts)}.", "rule")
    else:
        draft.put(f"{mark}foo9 := {draft.chance.choice((*texts, 'sign & [ ARGS < sign, sign > ]'))}.", "lex-rule")
    return "g.tdl", ":Arity"


def orthography(draft, mark):
    texts = (
        "sign", "sign & [ STEM < > ]", 'sign & [ STEM < "" > ]', 'sign & [ STEM < " " > ]', 'sign & [ STEM < "a", ... > ]',
        "sign & [ STEM < value > ]", "sign & [ STEM < string > ]", "*top*", 'sign & [ STEM < "a" . list > ]',
    )
    draft.put(f"{mark}foo10 := {draft.chance.choice(texts)}.", "lex-entry")
    return "g.tdl", ":Orthography"


STAGES = (
    (settings,), (bad_character, open_comment, open_docstring, open_string, open_group, not_utf8), (unexpected, bad_affix, end_of_file, too_deep),
    (environment, environment_open, include_missing, include_loop, include_broken), (irregular_missing,), (duplicate,), (unknown,), (cycle,),
    (reserved,),
    (unknown_name,), (no_introducer,), (introducers,), (no_structure,), (arity,), (orthography,),
)
