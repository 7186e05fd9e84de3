"""Equality of MRSs that are too large for trying all maps of variables: a map is made element by element, and each choice is tried."""
from collections import Counter

from .mrs import outline


def are_alike(a, b):
    """Whether some one-to-one map of variables makes the first MRS the second, spans aside, whatever their orders."""
    if len(a.variables) != len(b.variables) or sorted(a.bag().items()) != sorted(b.bag().items()):
        return False
    start = extended({}, a, b, [(a.top, b.top), (a.index, b.index)])
    return start is not None and goes_on(start, a, b, a.eps, b.eps)


def extended(map_of, a, b, pairs):
    """The map with these pairs too, if it stays one-to-one and each variable has the sort and properties of its image."""
    more = dict(map_of)
    for v, w in pairs:
        if more.setdefault(v, w) != w or outline(a.variables[v]) != outline(b.variables[w]):
            return None
    return more if len(set(more.values())) == len(more) else None


def goes_on(map_of, a, b, left, right):
    """Whether the elements that are left can be matched, and the constraints are then the same."""
    if not left:
        return all(are_same(map_of, *pair) for pair in ((a.hcons, b.hcons), (a.icons, b.icons)))
    ep, *rest = left
    for k, other in enumerate(right):
        pairs = pairs_of(ep, other)
        more = None if pairs is None else extended(map_of, a, b, pairs)
        if more is not None and goes_on(more, a, b, rest, right[:k] + right[k + 1:]):
            return True
    return False


def pairs_of(ep, other):
    """Which variables must be one for two elements to be the same, if their predicates, roles and texts are."""
    (pred, label, roles, _), (other_pred, other_label, other_roles, _) = ep, other
    if pred != other_pred or roles.keys() != other_roles.keys():
        return None
    values = [(roles[name], other_roles[name]) for name in roles]
    if any(v[0] != w[0] or (v[0] == "text" and v[1] != w[1]) for v, w in values):
        return None
    return [(label, other_label), *((v[1], w[1]) for v, w in values if v[0] == "var")]


def are_same(map_of, left, right):
    """Whether constraints are the same under the map, which has the variables of all elements; those of the textbook have no others."""
    return Counter((map_of[v], rel, map_of[w]) for v, rel, w in left) == Counter(right)
