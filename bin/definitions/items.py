"""Item answers by plain slow definitions, over any covers: classes by the least set, trees by recursion over all trees."""
import itertools

from .grammar import words_of
from .structures import TooMuch

MOST_TREES, MOST_MEMBERS, MOST_CALLS = 1000, 200, 20000


class Spans:
    """The covers of a line: pairs of nodes."""

    def __init__(self, end):
        self.greatest = end

    def begin(self, rule):
        return ()

    def join(self, a, b):
        if not a:
            return b
        return (a[0], b[1]) if a[1] == b[0] else None

    def size(self, a):
        return a[1] - a[0] if a else 0


class Counts:
    """The covers of an MRS: how often each of its predicates was contributed, and how many empty words, none above the bound."""

    def __init__(self, preds, bag, empty, own):
        self.preds, self.own = preds, own
        self.bound = (*(bag[pred] for pred in preds), empty)
        self.greatest = sum(self.bound)

    def begin(self, rule):
        return self.cover(self.own[rule])

    def cover(self, bag):
        """The counts of these predicates, or none where one isn't asked for or too often there."""
        if any(pred not in self.preds for pred in bag):
            return None
        return self.within((*(bag.count(pred) for pred in self.preds), 0))

    def leaf(self, bag):
        cover = self.cover(bag)
        return cover if bag or cover is None else self.within((*cover[:-1], 1))

    def within(self, counts):
        return counts if all(a <= b for a, b in zip(counts, self.bound)) else None

    def join(self, a, b):
        return self.within(tuple(x + y for x, y in zip(a, b)))

    def size(self, a):
        return sum(a)


class Item:
    """One line or MRS: its leaves are pairs of a cover and a chain with its span, none in generation."""

    def __init__(self, grammar, covers, leaves):
        self.grammar, self.covers, self.leaves, self.calls = grammar, covers, leaves, 0
        self.rules = [(name, grammar.arity_of(name), covers.begin(name)) for name, _ in grammar.case["rules"]]

    def tuples(self, arity, begin, found, size):
        """The covers found of so many daughters that join, with what the rule begins with, to one of this size: sizes add up."""
        fronts, by_size = [] if begin is None else [(begin, ())], {}
        for cover in found:
            by_size.setdefault(self.covers.size(cover), []).append(cover)
        for k in range(arity):
            rest = arity - 1 - k
            fronts = [
                (joined, (*parts, cover))
                for sum_of, parts in fronts
                for left in [size - self.covers.size(sum_of) - rest]
                for cover in itertools.chain(*(by_size.get(part, ()) for part in (range(1, left + 1) if rest else [left])))
                if (joined := self.covers.join(sum_of, cover)) is not None
            ]
        return fronts

    def class_answer(self):
        """The number of packed classes, or the limit that is broken at the least size."""
        classes = self.classes()
        return classes if isinstance(classes, str) else len(classes)

    def classes(self):
        """The packed classes, each a cover, a level and the number of a structure, or the limit that is broken at the least size."""
        case, found, classes = self.grammar.case, {}, []
        most = case["unary"]
        for size in range(1, self.covers.greatest + 1):
            made = self.members(found, size, most)
            found.update(made)
            if sum(len(row) for levels in found.values() for row in levels) > MOST_MEMBERS:
                raise TooMuch
            if any(levels[most + 1] for levels in made.values()):
                return "unary-chain"
            classes += [(cover, k, s) for cover, levels in made.items() for k in range(most + 1) for s in self.packed(levels[k])]
            if len(classes) > case["edges"]:
                return "edges"
        return classes

    def packed(self, row):
        """The structures that no other one of the same cover and level subsumes."""
        return [s for s in row if not any(o != s and self.grammar.subsumes(o, s) for o in row)]

    def members(self, found, size, most):
        """The members of the least set of this size: for each cover and level their structures."""
        made = {}

        def add(cover, level, shape):
            if shape is not None:
                made.setdefault(cover, [{} for _ in range(most + 2)])[level][shape] = True

        for cover, (_, _, _, full), _ in self.leaves:
            if self.covers.size(cover) == size:
                add(cover, 0, self.grammar.abstract(full))
        for name, arity, begin in self.rules:
            for cover, parts in self.tuples(arity, begin, found, size):
                rows = [[(k, shape) for k in range(most + 1) for shape in found[part][k]] for part in parts]
                for tuple_of in itertools.product(*rows):
                    add(cover, tuple_of[0][0] + 1 if arity == 1 else 0, self.shape(name, tuple(shape for _, shape in tuple_of)))
        for k in range(most + 1):
            for name, arity, begin in self.rules:
                for cover in list(made) if arity == 1 and begin is not None and self.covers.size(begin) == 0 else ():
                    for shape in list(made[cover][k]):
                        add(cover, k + 1, self.shape(name, (shape,)))
        return made

    def shape(self, rule, shapes):
        full = self.mother(rule, shapes)
        return None if full is None else self.grammar.abstract(full)

    def mother(self, rule, daughters):
        self.calls += 1
        if self.calls > MOST_CALLS:
            raise TooMuch
        return self.grammar.mother("rules", rule, daughters)

    def trees(self):
        """All trees of each cover, by the number of their full structure."""
        found = {}
        for size in range(1, self.covers.greatest + 1):
            made = {}
            for cover, (entry, rules, words, full), span in self.leaves:
                if self.covers.size(cover) == size:
                    made.setdefault(cover, {}).setdefault(full, []).append(("leaf", entry, rules, words, span))
            for name, arity, begin in self.rules:
                for cover, parts in self.tuples(arity, begin, found, size):
                    self.phrases(made.setdefault(cover, {}), name, [found[part] for part in parts])
            for cover, row in made.items():
                self.unary(row)
            found.update(made)
        return found

    def unary(self, row):
        """Adds what unary rules make over the trees of one cover, level by level until nothing is made."""
        level = row
        while level:
            more = {}
            for name, arity, begin in self.rules:
                if arity == 1 and begin is not None and self.covers.size(begin) == 0:
                    self.phrases(more, name, [level])
            level = more
            for full, trees in more.items():
                row[full] = row.get(full, []) + trees
            if sum(map(len, row.values())) > MOST_TREES:
                raise TooMuch

    def phrases(self, row, name, rows):
        for fulls in itertools.product(*rows):
            full = self.mother(name, fulls)
            if full is None:
                continue
            trees = row.setdefault(full, [])
            ways = itertools.product(*(rows[k][f] for k, f in enumerate(fulls)))
            trees += (("phrase", name, daughters) for daughters in itertools.islice(ways, MOST_TREES + 1))
            if len(trees) > MOST_TREES:
                raise TooMuch


def leaves_of(grammar, steps):
    """The leaves of a lattice, or none where a lexical tree has a rule too many."""
    most = grammar.case["lexical-limit"]
    words = dict.fromkeys(word for _, _, word in steps)
    leaves = [(span, chain, span) for word in words for chain in grammar.chains_from(most + 1, word) for span in spans_of(steps, chain[2])]
    return None if any(len(chain[1]) == most + 1 for _, chain, _ in leaves) else leaves


def parse_answer(grammar, number, lattice, nodes, mrs_lines=None):
    """The report on a line, and whether it is refused. After each tree come the lines of its MRS, where they are asked for."""
    steps, end = lattice
    leaves = leaves_of(grammar, steps)
    if leaves is None:
        return [f"item {number} refused lexical-depth"], True
    item = Item(grammar, Spans(end), leaves)
    classes = item.class_answer()
    if isinstance(classes, str):
        return [f"item {number} refused {classes}"], True
    whole = item.trees().get((0, end), {})
    trees = sorted(((t, full) for full, trees in whole.items() if grammar.is_rooted(full) for t in trees), key=lambda pair: grammar.key(pair[0]))
    if len(trees) > grammar.case["readings"]:
        return [f"item {number} refused readings"], True
    report = [f"item {number} classes {classes} readings {len(trees)}"]
    for tree, full in trees:
        report.append("  " + grammar.written(tree, nodes))
        report += ["  " + mrs_lines(full)] if mrs_lines else []
    return report, False


def spans_of(lattice, words):
    """The pairs of nodes between which some path of steps carries these words."""
    fronts = {(i, i) for i, _, _ in lattice}
    for word in words:
        fronts = {(start, j) for start, at in fronts for i, j, w in lattice if i == at and w == word}
    return sorted(fronts)


def generation_of(grammar, bag, contributions):
    """What may be generated with this bag of predicates, its classes not yet counted; none where there are too many lexical rules."""
    of_leaf, of_rule = contributions
    most, preds = grammar.case["lexical-limit"], sorted(bag)
    counts = Counts(preds, bag, grammar.case["empty"], {name: of_rule(name) for name, _ in grammar.case["rules"]})
    chains = [(of_leaf(chain[3]), chain) for chain in grammar.chains(most + 1)]
    if any(len(chain[1]) == most + 1 and counts.cover(said) is not None for said, chain in chains):
        return None
    leaves = [(cover, chain, None) for said, chain in chains if (cover := counts.leaf(said)) is not None]
    return Item(grammar, counts, leaves)


def generate_answer(grammar, number, bag, means, contributions):
    """The report on an MRS with this bag of predicates, and whether it is refused. What leaves and rules contribute, and which
    structures mean the MRS, is given."""
    item = generation_of(grammar, bag, contributions)
    if item is None:
        return [f"item {number} refused lexical-depth"], True
    classes = item.class_answer()
    if isinstance(classes, str):
        return [f"item {number} refused {classes}"], True
    return sentences_of(grammar, number, item, classes, means)


def sentences_of(grammar, number, item, classes, means):
    """The report on an MRS whose classes are counted."""
    bound = item.covers.bound[:-1]
    whole = [(full, trees) for cover, row in item.trees().items() if cover[:-1] == bound for full, trees in row.items()]
    found = [t for full, trees in whole if grammar.is_rooted(full) and means(full) for t in trees]
    if len(found) > grammar.case["readings"]:
        return [f"item {number} refused readings"], True
    sentences = sorted({" ".join(words_of(t)) for t in found}, key=str.encode)
    return [f"item {number} classes {classes} sentences {len(sentences)}", *("  " + s for s in sentences)], False
