"""MRSs as JSON in the form of PyDelphin's `delphin.codecs.mrsjson`: top, index, relations, constraints, variables."""
import json

from . import mrs as mrss


class NoJson(Exception):
    """The text isn't of the form, or an MRS can't be said in it."""


def value_of(mrs, role, value):
    """A role's value. JSON has one kind of text for variables and for texts; a variable is what `variables` names."""
    if isinstance(value, mrss.Text) and str(value) in mrs.variables:
        raise NoJson(f"the text \"{value}\" of the role {role} is the name of a variable, which this form can't tell apart")
    return str(value)


def relation(mrs, ep):
    made = {"label": ep.label, "predicate": ep.pred, "arguments": {role: value_of(mrs, role, value) for role, value in ep.roles}}
    if ep.span:
        made["lnk"] = {"from": ep.span[0], "to": ep.span[1]}
    return made


def variable(name, properties):
    made = {"type": mrss.VARIABLE.match(name)[1]}
    if properties:
        made["properties"] = dict(properties)
    return made


def write(mrs):
    constraints = [{"relation": name, "high": left, "low": right} for left, name, right in mrs.hcons]
    constraints += [{"relation": name, "left": left, "right": right} for left, name, right in mrs.icons]
    made = {"top": mrs.top, "index": mrs.index, "relations": [relation(mrs, ep) for ep in mrs.eps], "constraints": constraints,
            "variables": {name: variable(name, properties) for name, properties in mrs.variables.items()}}
    return json.dumps(made, ensure_ascii=False)


def write_all(texts):
    return "[\n" + ",\n".join(texts) + ("\n]\n" if texts else "]\n")


def read_all(text):
    """The MRSs of a list, or of one object."""
    try:
        found = json.loads(text)
    except json.JSONDecodeError as fault:
        raise NoJson(f"no JSON at line {fault.lineno}, character {fault.colno}: {fault.msg}") from fault
    made = []
    for number, one in enumerate(found if isinstance(found, list) else [found], 1):
        try:
            made.append(read(one))
        except (KeyError, TypeError, ValueError, AttributeError) as fault:
            raise NoJson(f"MRS {number} isn't of the form: {type(fault).__name__} {fault}") from fault
    return made


def read(one):
    mrs, said = mrss.Mrs(), one["variables"]

    def named(name):
        if not isinstance(name, str) or not mrss.VARIABLE.fullmatch(name):
            raise ValueError(f"{name!r} is no variable, as h0")
        mrs.variables.setdefault(name, dict(said.get(name, {}).get("properties", {})))
        return name

    mrs.top, mrs.index = named(one["top"]), named(one["index"])
    for each in one["relations"]:
        lnk = each.get("lnk") or {}
        span = (lnk["from"], lnk["to"]) if lnk.get("from", -1) >= 0 and lnk.get("to", -1) >= 0 else None
        ep = mrss.Ep(each["predicate"], span, named(each["label"]))
        ep.roles = [(role, named(value) if value in said else mrss.Text(value)) for role, value in each["arguments"].items()]
        mrs.eps.append(ep)
    for each in one.get("constraints", []):
        if "high" in each:
            mrs.hcons.append((named(each["high"]), each["relation"], named(each["low"])))
        else:
            mrs.icons.append((named(each["left"]), each["relation"], named(each["right"])))
    return mrs
