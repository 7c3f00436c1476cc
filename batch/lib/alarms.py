"""The alarms: lines of a report or a listing that count as a failure though the program's code is 0."""

import os
import re
import tomllib
from typing import NamedTuple

from . import records

USUAL = os.path.join(os.path.dirname(os.path.dirname(os.path.abspath(__file__))), "alarms.toml")
KEYS = {"name", "text", "line", "after"}
TEXTS = ("report", "listing")
AFTER = "first tool change"
MOVE_LINE = re.compile(r"move \d+ line (\d+) ")
SHOWN = 3  # lines that are kept of an alarm


class AlarmFault(Exception):
    """A list of alarms that can't be taken."""


class Alarm(NamedTuple):
    name: str
    text: str
    line: str
    after: str


def alarm_of(table, number):
    wrong = "alarm %d: " % number
    if not isinstance(table, dict) or not {"name", "text", "line"} <= set(table) <= KEYS:
        raise AlarmFault(wrong + "it needs name, text and line, and may have after")
    if not all(isinstance(value, str) for value in table.values()):
        raise AlarmFault(wrong + "each value is a text in quotes")
    if table["text"] not in TEXTS or table.get("after", AFTER) != AFTER:
        raise AlarmFault(wrong + "text is 'report' or 'listing', and after '%s'" % AFTER)
    try:
        re.compile(table["line"])
    except re.error as why:
        raise AlarmFault(wrong + "line is no regular expression: %s" % why) from None
    return Alarm(table["name"], table["text"], table["line"], table.get("after", ""))


def read_alarms(path):
    """The alarms of a file."""
    try:
        with open(path, "rb") as f:
            table = tomllib.load(f)
    except (OSError, ValueError) as why:
        raise AlarmFault("%s: %s" % (path, why)) from None
    if set(table) - {"alarm"} or not isinstance(table.get("alarm", []), list):
        raise AlarmFault("%s: it is a list of [[alarm]] tables" % path)
    try:
        return [alarm_of(each, number) for number, each in enumerate(table.get("alarm", []), 1)]
    except AlarmFault as why:
        raise AlarmFault("%s: %s" % (path, why)) from None


def counts(alarm, line, change):
    """Whether a line that matches counts: of moves, those before the first tool change may not."""
    move = MOVE_LINE.match(line)
    return not (alarm.after and move and change is not None and int(move.group(1)) < change)


def raised(alarms, texts, data):
    """The alarms that these texts raise, by their kind, for the file with these bytes: name, how many lines, and the first of them."""
    change, found = None, []
    if any(alarm.after for alarm in alarms):
        change = records.first_tool_change(data)
    for alarm in alarms:
        pattern = re.compile(alarm.line)
        lines = [line for line in texts.get(alarm.text, "").splitlines() if pattern.search(line) and counts(alarm, line, change)]
        if lines:
            found.append({"name": alarm.name, "lines": len(lines), "first": lines[:SHOWN]})
    return found
