"""Transfer of MRSs by plain slow definitions (Oepen et al. 2004): all ways to give the elements of a rule elementary predications, one
after the other, and of each whether it is a site; the least one at which the rule applies is rewritten, again and again."""
import itertools
import re

from .mrs import Mrs, written
from .structures import TooMuch

MOST_WAYS, MOST_TRIED = 20000, 400000
FRESH = itertools.count()


class Element:
    """An element of a rule: a predicate, the coreference of a label or none, and roles, each with the pair of "coref" or "text" and what
    it is. They stand in order of writing."""

    def __init__(self, pred, label, roles):
        self.pred, self.label, self.roles = pred, label, roles


class Rule:
    """A rule's name and its four lists of elements; FILTER may be absent, which is None. A coreference is its name."""

    def __init__(self, name, given, context, filtered, output):
        self.name, self.input, self.context, self.filter, self.output = name, given, context, filtered, output


class Trial:
    """What is tried for one MRS: too many ways are too much."""

    def __init__(self):
        self.left = MOST_TRIED

    def ways(self, mrs, elements):
        """All ways to give the elements predications of the same predicate, all different, least places first."""
        places = [[k for k, ep in enumerate(mrs.eps) if ep[0] == element.pred] for element in elements]
        count = 1
        for of in places:
            count *= len(of)
        self.left -= count
        if count > MOST_WAYS or self.left < 0:
            raise TooMuch
        return (way for way in itertools.product(*places) if len(set(way)) == len(way))

    def matches(self, mrs, elements, known):
        """The ways in which the elements fit, each with the variables of their coreferences, where some of these are known."""
        for way in self.ways(mrs, elements):
            found = variables_of(mrs, elements, way, known)
            if found is not None:
                yield way, found

    def least_site(self, mrs, rule):
        for way, found in self.matches(mrs, rule.input + rule.context, {}):
            if rule.filter is None or not any(True for _ in self.matches(mrs, rule.filter, found)):
                return way, found
        return None


def letters_of(coref):
    return re.match("[a-z]+", coref)[0]


def fillers(element, ep):
    """Pairs of what the element writes and what stands there, none where there is no such role."""
    _, label, roles, _ = ep
    written_label = [] if element.label is None else [(("coref", element.label), ("var", label))]
    return written_label + [(said, roles.get(name)) for name, said in element.roles]


def variables_of(mrs, elements, way, known):
    """The variable of each coreference where the elements fit these predications, or None."""
    found = dict(known)
    for element, place in zip(elements, way):
        for (kind, said), there in fillers(element, mrs.eps[place]):
            if there is None or (kind == "text") != (there[0] == "text"):
                return None
            if kind == "text":
                if said != there[1]:
                    return None
            elif found.setdefault(said, there[1]) != there[1]:
                return None
    fits = all(letters_of(coref) in ("u", mrs.variables[v][0]) for coref, v in found.items())
    return found if fits else None


# Application


def applied(mrs, rule, way, found):
    """The MRS with OUTPUT in the place of the first of the predications of INPUT, which are gone."""
    gone, variables, found = way[: len(rule.input)], dict(mrs.variables), dict(found)
    for coref in (coref for element in rule.output for coref in corefs_of(element)):
        if coref not in found:
            found[coref] = "new", next(FRESH)
            variables[found[coref]] = letters_of(coref), {}
    eps = []
    for place, ep in enumerate(mrs.eps):
        if place == min(gone):
            eps += [made(element, found) for element in rule.output]
        if place not in gone:
            eps.append(ep)
    new = Mrs(mrs.top, mrs.index, variables, eps, mrs.hcons, mrs.icons)
    new.variables = {v: variables[v] for v in new.occurring()}
    return new


def corefs_of(element):
    return [element.label, *(said for _, (kind, said) in element.roles if kind == "coref")]


def made(element, found):
    roles = {name: ("var", found[said]) if kind == "coref" else ("text", said) for name, (kind, said) in element.roles}
    return element.pred, found[element.label], roles, None


# Runs


def run(rules, skipped, mrs):
    """The number of applications and the last MRS, or None where there are too many applications."""
    trial, steps, most = Trial(), 0, 16 * (len(mrs.eps) + 1)
    for rule in rules:
        if rule.name in skipped:
            continue
        while (site := trial.least_site(mrs, rule)) is not None:
            steps += 1
            if steps > most:
                return None
            mrs = applied(mrs, rule, *site)
    return steps, mrs


def lines_of_transfer(number, rules, skipped, mrs):
    """The lines that come for the MRS of a line, and whether it is refused."""
    ended = run(rules, skipped, mrs)
    if ended is None:
        return [f"item {number} refused budget"], True
    steps, last = ended
    return [f"item {number} steps {steps}", "  " + written(last)], False
