"""Setups of `clverify`: read as TOML, moved as `verify` moves their bodies, and written again."""

import datetime
import math
import tomllib

KINDS = ("stock", "part", "fixture")
MOST = {"stock": 16, "part": 64, "fixture": 64}
MOST_PLANES = 64
METRE = 1_000_000


class SetupFault(Exception):
    """A setup that can't be used here, and why."""


def read_table(data):
    """The table that the bytes of a setup are."""
    try:
        return tomllib.loads(data.decode("utf-8-sig"))
    except (ValueError, RecursionError) as why:
        raise SetupFault("Python's tomllib can't read it: %s" % why) from None


# ---------------------------------------------------------------- writing


def quoted(text):
    """A text in quotes, as TOML has it."""
    plain = {'"': '\\"', "\\": "\\\\"}
    return '"%s"' % "".join(plain.get(char) or (char if char >= " " and char != "\x7f" else "\\u%04X" % ord(char)) for char in text)


def value_text(value):
    """A value of any kind that TOML has."""
    if isinstance(value, bool):
        return "true" if value else "false"
    if isinstance(value, float):
        return repr(value)
    if isinstance(value, str):
        return quoted(value)
    if isinstance(value, list):
        return "[%s]" % ", ".join(map(value_text, value))
    if isinstance(value, dict):
        return "{%s}" % ", ".join("%s = %s" % (quoted(key), value_text(each)) for key, each in value.items())
    if isinstance(value, (datetime.date, datetime.time)):
        return value.isoformat()
    return str(value)


def pairs_text(table):
    return "".join("%s = %s\n" % (key if key.isascii() and key.isalnum() else quoted(key), value_text(value)) for key, value in table.items())


def table_text(table):
    """A setup as TOML: values at the top first, then tables, then lists of tables. What it means is what it meant."""
    is_list = {key: isinstance(value, list) and bool(value) and all(isinstance(each, dict) for each in value) for key, value in table.items()}
    text = pairs_text({key: value for key, value in table.items() if not isinstance(value, dict) and not is_list[key]})
    for key, value in table.items():
        name = key if key.isascii() and key.isalnum() else quoted(key)
        if isinstance(value, dict):
            text += "\n[%s]\n%s" % (name, pairs_text(value))
        elif is_list[key]:
            text += "".join("\n[[%s]]\n%s" % (name, pairs_text(each)) for each in value)
    return text.lstrip("\n")


# ---------------------------------------------------------------- bodies


def is_whole(value):
    return isinstance(value, int) and not isinstance(value, bool)


def whole_list(value, length):
    return isinstance(value, list) and len(value) == length and all(map(is_whole, value))


def box_planes(box):
    """The six planes of a box: a x + b y + c z <= d."""
    planes = []
    for axis in range(3):
        normal = [int(axis == other) for other in range(3)]
        planes += [(*normal, box[axis + 3]), (*(-n for n in normal), -box[axis])]
    return planes


def planes_of(body, name):
    """The planes of a body of a setup."""
    if isinstance(body, dict) and whole_list(body.get("box"), 6):
        return box_planes(body["box"])
    planes = body.get("planes") if isinstance(body, dict) else None
    if not isinstance(planes, list) or not planes or not all(whole_list(plane, 4) and any(plane[:3]) for plane in planes):
        raise SetupFault("%s: neither a box of six whole numbers nor planes of four" % name)
    return [tuple(plane) for plane in planes]


def bodies_of(table, kind):
    """The bodies of a list, each as its planes."""
    bodies = table.get(kind, [])
    if not isinstance(bodies, list):
        raise SetupFault("%s: it isn't a list of [[%s]] tables" % (kind, kind))
    return [planes_of(body, "%s %d" % (kind, number)) for number, body in enumerate(bodies, 1)]


def root_up(number):
    """The least whole number whose square is at least the number."""
    root = math.isqrt(number)
    return root + (root * root < number)


def moved(planes, by):
    """The planes as `verify` moves them, outwards by a number of micrometres: d grows by that times the length of the normal, rounded up."""
    return [(a, b, c, d + by * root_up(a * a + b * b + c * c)) for a, b, c, d in planes]


def check_number(table, key):
    """A number of the table `check`."""
    value = table.get("check", {}).get(key) if isinstance(table.get("check", {}), dict) else None
    if not is_whole(value):
        raise SetupFault("check.%s: it isn't a whole number" % key)
    return value


def moves_by(table):
    """By how many micrometres `verify` moves the bodies of each kind: the part inwards, the fixtures outwards, the stock not."""
    return {"stock": 0, "part": -check_number(table, "tolerance"), "fixture": check_number(table, "clearance")}
