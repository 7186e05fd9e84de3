"""Scoped readings by plain slow definitions (Copestake, Flickinger, Pollard and Sag 2005): all ways to give the top and each hole a
label, and of each whether it is a tree, binds what quantifiers bind, and meets the constraints. Where these are too many, trees
of labels are made from the top down; where they aren't, both must give the same."""
import itertools

from .structures import TooMuch

MOST_STEPS, MOST_WAYS = 20000, 4000
TOP_HOLE = ("the top hole",)


class OtherRelation(Exception):
    """A handle constraint that isn't `qeq`."""


def lines_of_scopes(number, mrs, limit):
    """The lines that come for the MRS of a line, and whether it is refused."""
    try:
        readings = readings_of(mrs)
    except OtherRelation:
        return [f"item {number} refused relation"], True
    if len(readings) > limit:
        return [f"item {number} refused readings"], True
    return [f"item {number} scopes {len(readings)}", *("  " + reading_text(reading) for reading in readings)], False


def reading_text(reading):
    top, holes = reading
    return " ".join([f"top=h{top}", *(f"h{hole}=h{label}" for hole, label in holes)])


def readings_of(mrs):
    """All readings in order, each as the top's label and pairs of a hole and its label, in numbers of the text that is written."""
    if any(relation != "qeq" for _, relation, _ in mrs.hcons):
        raise OtherRelation
    frame = Frame(mrs)
    number = {v: k for k, v in enumerate(mrs.occurring())}

    def readings(ways):
        for plugging in filter(lambda plugging: is_reading(frame, plugging), ways):
            yield number[plugging[TOP_HOLE]], sorted((number[hole], number[plugging[hole]]) for hole in frame.holes)

    if len(frame.labels) ** (len(frame.holes) + 1) > MOST_WAYS:
        return sorted(readings(pluggings(frame)))
    found = sorted(readings(whole_pluggings(frame)))
    if found != sorted(readings(pluggings(frame))):
        raise AssertionError("pluggings made from the top down aren't those of all ways")
    return found


class Frame:
    """What a plugging is judged by. An element is its place in the list; `leads` has a pair of its label and a hole for each role."""

    def __init__(self, mrs):
        self.top, self.hcons = mrs.top, mrs.hcons
        self.labels = list(dict.fromkeys(label for _, label, _, _ in mrs.eps))
        is_hole = lambda value: value[0] == "var" and mrs.variables[value[1]][0] == "h"
        self.leads = [(label, value[1]) for _, label, roles, _ in mrs.eps for value in roles.values() if is_hole(value)]
        self.holes = list(dict.fromkeys(hole for _, hole in self.leads))
        self.quantifiers, self.bindings = [], []
        for place, (_, label, roles, _) in enumerate(mrs.eps):
            if all(name in roles and is_hole(roles[name]) for name in ("rstr", "body")):
                restriction, body, bound = roles["rstr"][1], roles["body"][1], roles.get("arg0", ("text", ""))
                self.quantifiers.append((label, body))
                if bound[0] == "var":
                    others = (other for k, (_, other, said, _) in enumerate(mrs.eps) if k != place and bound in said.values())
                    self.bindings += [(restriction, body, other) for other in others]


def whole_pluggings(frame):
    """All ways to give the top and each hole a label, one after the other. A hole that is a label has itself."""
    holes = [TOP_HOLE, *frame.holes]
    for labels in itertools.product(frame.labels, repeat=len(holes)):
        plugging = dict(zip(holes, labels))
        if all(plugging[hole] == hole for hole in frame.holes if hole in frame.labels):
            yield plugging


def pluggings(frame, most=MOST_STEPS):
    """Pluggings that are trees, as dictionaries, among them all readings. A hole is filled when what is above it is; so where a label
    that was just put in isn't bound, or a constraint on it isn't met, this stays so whatever follows."""
    steps = 0

    def fill(plugging, still_open, rest):
        nonlocal steps
        if not still_open:
            if not rest:
                yield dict(plugging)
            return
        hole, *others = still_open
        for label in [hole] if hole in frame.labels else rest:
            if label in rest and hole not in plugging:
                steps += 1
                if steps > most:
                    raise TooMuch
                plugging[hole] = label
                if is_right(frame, plugging, label):
                    yield from fill(plugging, others + [h for over, h in frame.leads if over == label], [r for r in rest if r != label])
                del plugging[hole]

    yield from fill({}, [TOP_HOLE], frame.labels)


def is_right(frame, plugging, label):
    """Whether what is said of a label holds, of those things that are decided once all above it is known."""
    bindings = (said for said in frame.bindings if said[2] == label)
    return all(is_bound(frame, plugging, *said) for said in bindings) and all(
        is_held(frame, plugging, left, label) for left, _, right in frame.hcons if right == label)


def is_reading(frame, plugging):
    return is_tree(frame, plugging) and all(is_bound(frame, plugging, *said) for said in frame.bindings) and is_met(frame, plugging)


def label_of(frame, plugging, v):
    """The label of a label or of a hole, if it has one yet."""
    return v if v in frame.labels else plugging.get(v)


def is_tree(frame, plugging):
    root = plugging[TOP_HOLE]
    led = [plugging[hole] for _, hole in frame.leads]
    return all(led.count(label) == (label != root) for label in frame.labels) and below(frame, plugging, root) == set(frame.labels)


def below(frame, plugging, label):
    """The labels at or below a label."""
    found, todo = {label}, [label]
    while todo:
        above = todo.pop()
        for over, hole in frame.leads:
            if over == above and (to := plugging.get(hole)) not in found:
                found.add(to)
                todo.append(to)
    return found


def is_bound(frame, plugging, restriction, body, label):
    return any(label in below(frame, plugging, label_of(frame, plugging, hole)) for hole in (restriction, body))


def reached(frame, plugging, label):
    """The labels that a label reaches by qeq."""
    found, todo = {label}, [label]
    while todo:
        above = todo.pop()
        for over, body in frame.quantifiers:
            if over == above and (to := label_of(frame, plugging, body)) not in found:
                found.add(to)
                todo.append(to)
    return found


def is_held(frame, plugging, left, right):
    """Whether a constraint holds. A top that is neither label nor hole stands for the top hole."""
    if left not in frame.labels and left not in frame.holes:
        left = TOP_HOLE if left == frame.top else None
    return right in frame.labels and left is not None and right in reached(frame, plugging, label_of(frame, plugging, left))


def is_met(frame, plugging):
    """Whether the constraints hold, and what is asked of the top."""
    root, top = plugging[TOP_HOLE], frame.top
    if top in frame.labels and top not in reached(frame, plugging, root):
        return False
    if top not in frame.labels and top in frame.holes and plugging[top] != root:
        return False
    return all(is_held(frame, plugging, left, right) for left, _, right in frame.hcons)
