"""What a random grammar is, by plain slow definitions: structures of instances and trees, forms of stems, and chains by trying
every lexical rule on every entry. What was reckoned once is kept, since it depends on the grammar alone."""
from .bodies import NAMES, facts_of, named, quoted
from .structures import Closing, TooMuch, Types, cut, follow

MOST_CHAINS, MOST_MOTHERS = 20000, 2500
KINDS = ("entries", "lexical", "rules", "roots")


class Grammar:
    """What a case says, with the definitions over it. Structures have numbers, so that what was reckoned is found quickly."""

    def __init__(self, case):
        self.case, self.limit = case, case["limit"]
        self.words_of_lists = case.get("names", NAMES)
        self.args = named(("ARGS",), self.words_of_lists)
        self.daughters, self.restrictors = (named(case.get(key, ()), self.words_of_lists) for key in ("daughters", "restrictors"))
        self.types = Types(case["types"], self.words_of_lists)
        self.structures, self.numbers = [], {}
        self.kept, self.mothers = {}, 0
        self.place, self.instance, self.arity = {}, {}, {}
        # (instances have places in the order in which they are read)
        for key in case.get("order", [(status, name) for status in KINDS for name, _ in case[status]]):
            self.place[key] = len(self.place)
        for status in KINDS:
            for name, body in case[status]:
                self.instance[status, name] = self.close([((), facts_of(body, self.words_of_lists))])

    def constraint(self, name):
        return self.close([((), [("below", (), ("type", name))])])

    def unstructured(self):
        """The first type, else the first instance, that has no structure: whether it is a type, and its name."""
        types = ((True, name) for name in self.types.names[1:] if self.constraint(name) is None)
        instances = ((False, name) for (_, name), structure in self.instance.items() if structure is None)
        return next(types, None) or next(instances, None)

    def counted(self):
        """The line of `check`."""
        kinds = [len(self.case[key]) for key in KINDS]
        counts = [len(self.types.names), len(self.types.added()), len(self.types.introducers), *kinds]
        return "types {} added {} features {} entries {} lex-rules {} rules {} roots {}".format(*counts)

    # Structures

    def number(self, structure):
        """The number of a structure; none has none."""
        if structure is None:
            return None
        if structure not in self.numbers:
            self.numbers[structure] = len(self.structures)
            self.structures.append(structure)
        return self.numbers[structure]

    def keep(self, key, make):
        if key not in self.kept:
            self.kept[key] = make()
        return self.kept[key]

    def close(self, said, parts=(), is_closed=True):
        closing = Closing(self.types, self.limit)
        for path, facts in said:
            closing.say(closing.go(0, path), facts)
        for path, structure in parts:
            closing.enter(closing.go(0, path), structure, is_closed)
        return closing.closed()

    def mother(self, kind, rule, daughters):
        """The number of the structure under a rule over daughters with these numbers, or none."""
        return self.keep((kind, rule, daughters), lambda: self.number(self.made(self.instance[kind, rule], [self.structures[d] for d in daughters])))

    def made(self, rule, daughters):
        self.mothers += 1
        if self.mothers > MOST_MOTHERS:
            raise TooMuch
        rest, first = self.words_of_lists["REST"], self.words_of_lists["FIRST"]
        parts = [((), rule)] + [(self.args + (rest,) * k + (first,), daughter) for k, daughter in enumerate(daughters)]
        whole = self.close([], parts)
        return None if whole is None else self.close_again(whole, lambda is_root, feature: not (is_root and feature in self.daughters))

    def close_again(self, structure, keeps):
        return self.close([], [((), cut(structure, keeps))], is_closed=False)

    def abstract(self, full):
        """The number of what is left of a structure without the restrictors."""
        keeps = lambda _, feature: feature not in self.restrictors
        return self.keep(("abstract", full), lambda: self.number(self.close_again(self.structures[full], keeps)))

    def subsumes(self, general, special):
        return self.keep(("subsumes", general, special), lambda: self.covers(self.structures[general], self.structures[special]))

    def covers(self, general, special):
        map_of, waiting = {0: 0}, [0]
        while waiting:
            n = waiting.pop()
            if not self.types.is_below(special[map_of[n]][0], general[n][0]):
                return False
            arcs = dict(special[map_of[n]][1])
            for feature, to in general[n][1]:
                if feature not in arcs or map_of.setdefault(to, arcs[feature]) != arcs[feature]:
                    return False
                waiting.append(to)
        return True

    def is_rooted(self, full):
        roots = lambda: any(self.close([], [((), self.instance["roots", name]), ((), self.structures[full])]) for name, _ in self.case["roots"])
        return self.keep(("rooted", full), roots)

    def arity_of(self, rule):
        """How many daughters a phrase rule has: the elements of its ARGS."""
        structure = self.instance["rules", rule]
        return self.keep(("arity", rule), lambda: len(self.elements(structure, follow(structure, 0, self.args))))

    def elements(self, structure, cell, last=None):
        """The elements of a closed list, or none where the list is open. It ends at null, or at the node that is its LAST."""
        found = []
        while cell is not None and cell != last:
            value = structure[cell][0]
            if self.is_named(value, "null"):
                return found
            first = follow(structure, cell, (self.words_of_lists["FIRST"],))
            cell = follow(structure, cell, (self.words_of_lists["REST"],))
            if first is None or not self.is_named(value, "cons"):
                return None
            found.append(first)
        return None if cell is None else found

    def is_named(self, value, name):
        """Whether a type is at or below the list type of this name."""
        mask = self.types.below.get(self.words_of_lists[name])
        return mask is not None and self.types.is_below(value, mask)

    # Words

    def forms(self, rule, stem):
        return self.keep(("forms", rule, stem), lambda: self.formed(rule, stem))

    def formed(self, rule, stem):
        irregular = [form for form, name, of in self.case["irregular"] if name == rule and of == stem]
        if irregular:
            return list(dict.fromkeys(irregular))
        suffix, groups = self.case["spelling"][rule]
        if not groups:
            return [stem]
        for pattern, with_ in reversed(groups):
            for values in valuations(pattern, self.case.get("letters", {"c": "abst"})):
                found, new = filled(pattern, values), filled(with_, values)
                if suffix and stem.endswith(found):
                    form = stem[: len(stem) - len(found)] + new
                elif not suffix and stem.startswith(found):
                    form = new + stem[len(found):]
                else:
                    continue
                return [form] if form else []
        return []

    def chains(self, most):
        """Each entry under each list of at most so many lexical rules, where the structure exists, in each spelling: entry, rules
        from the inside out, words, number of the full structure."""
        return self.keep(("chains", most), lambda: list(dict.fromkeys(self.all_chains(most))))

    def all_chains(self, most):
        level = [(name, (), words, self.number(self.instance["entries", name])) for name, words in self.case["words"].items()]
        for depth in range(most + 1):
            yield from level
            if depth < most:
                level = [
                    (name, (*rules, rule), words[:-1] + (form,), new)
                    for name, rules, words, full in dict.fromkeys(level)
                    for rule, _ in self.case["lexical"]
                    if (new := self.mother("lexical", rule, (full,))) is not None
                    for form in self.forms(rule, words[-1])
                ]
            if len(level) > MOST_CHAINS:
                raise TooMuch

    def chains_from(self, most, word):
        """The chains whose words begin with this one."""
        return self.keep(("chains from", most, word), lambda: [chain for chain in self.chains(most) if chain[2][0] == word])

    # Texts

    def written(self, tree, nodes):
        if tree[0] == "phrase":
            return f"({tree[1]} {' '.join(self.written(d, nodes) for d in tree[2])})"
        _, entry, rules, words, span = tree
        text = f'({entry} {quoted(" ".join(words))}{f" {span[0]} {span[1]}" if nodes else ""})'
        for rule in rules:
            text = f"({rule} {text})"
        return text

    def key(self, tree):
        """What trees are ordered by."""
        if tree[0] == "leaf":
            _, entry, rules, words, span = tree
            places = [self.place["lexical", rule] for rule in reversed(rules)] + [self.place["entries", entry]]
            return (places[0], 0, places, words, span or ())
        return (self.place["rules", tree[1]], 1, [len(words_of(d)) for d in tree[2]], [self.key(d) for d in tree[2]])

    def expanded(self, structure):
        """What `expand` writes of a structure."""
        lines, first = [], {}

        def visit(n, path):
            if n in first:
                lines.append(f"{path} = {first[n]}")
                return
            first[n] = path
            value, arcs = structure[n]
            lines.append(f"{path} {quoted(value[1]) if isinstance(value, tuple) else self.types.named()[value]}")
            for feature, to in arcs:
                visit(to, f"{'' if path == '.' else path}.{feature}")

        visit(0, ".")
        return lines


def words_of(tree):
    return tree[3] if tree[0] == "leaf" else tuple(word for d in tree[2] for word in words_of(d))


def valuations(pattern, letters):
    """Each way to give the variables of a pattern letters of their sets."""
    ways = [{}]
    for k, sign in enumerate(pattern):
        if sign == "!" and k + 1 < len(pattern):
            name = pattern[k + 1]
            ways = [{**way, name: letter} for way in ways for letter in ([way[name]] if name in way else letters[name])]
    return ways


def filled(pattern, values):
    for name, letter in values.items():
        pattern = pattern.replace("!" + name, letter)
    return pattern
