"""The records of a cutter location file, as far as a shop's notes are wanted: where each begins, its lines and its text.

The lines of a record are joined as `clverify` joins them: `$$` begins a comment, and a `$` at the end of a line goes on in the next.
"""

import bisect
import re
from typing import NamedTuple

BLANKS = b" \t"
WORD = re.compile(rb"[ \t]*([A-Za-z0-9_-]*)[ \t]*")
# The records of a tool change. LOAD does so only as LOAD/TOOL, TOOL as TOOL PATH/NAME,TOOL,NAME.
TOOL_WORDS = ("LOADTL", "TLDATA", "TOOLNO")
NO_OPERATION, NO_TOOL = "no operation named", "no tool named"


class Record(NamedTuple):
    line: int  # the first of its lines, from 1
    lines: int  # how many it has
    word: str  # in capitals
    rest: str  # what follows the word


def lines_of(data):
    """The lines, without their line ends."""
    lines = data.split(b"\n")
    return [line[:-1] if line.endswith(b"\r") else line for line in (lines if lines[-1] else lines[:-1])]


def joined(data):
    """The first line of each record, how many it has, and its text."""
    first, count, text = None, 0, b""
    for number, line in enumerate(lines_of(data), 1):
        first, count = first or number, count + 1
        line = line.split(b"$$")[0]
        bare = line.rstrip(BLANKS)
        if bare.endswith(b"$"):
            text += bare[:-1]
        else:
            yield first, count, text + line
            first, count, text = None, 0, b""
    if first:
        yield first, count, text


def records_of(data):
    """The records up to FINI."""
    for line, count, text in joined(data):
        if not text.strip(BLANKS):
            continue
        match = WORD.match(text)
        word = match.group(1).decode().upper()
        if word == "FINI":
            return
        yield Record(line, count, word, text[match.end():].decode("ascii", "replace").strip())


def parameters(rest):
    """What stands between the commas after a slash."""
    return [part.strip() for part in rest.lstrip("/").split(",")]


def changes_tool(record):
    """Whether a record is of a tool change."""
    if record.word == "LOAD":
        return parameters(record.rest)[0].upper() == "TOOL"
    if record.word == "TOOL":
        return bool(path_of(record)[1])
    return record.word in TOOL_WORDS


def first_tool_change(data):
    """The line of the first tool change, or None."""
    return next((record.line for record in records_of(data) if changes_tool(record)), None)


def path_of(record):
    """The name of a TOOL PATH and its tool, each maybe empty."""
    match = re.match(r"PATH\s*/(.*)", record.rest, re.I | re.S)
    if not match:
        return "", ""
    words = parameters(match.group(1))
    return words[0], words[2] if len(words) > 2 and words[1].upper() == "TOOL" else ""


class Notes:
    """What the notes before a move say of its operation and its tool."""

    def __init__(self):
        self.path = self.note = self.tool = self.loaded = self.sizes = ""

    def take(self, record):
        """Whether the record was such a note."""
        if record.word == "TOOL" and path_of(record)[0]:
            self.path, self.tool = path_of(record)
            self.note = self.loaded = self.sizes = ""
        elif record.word == "END-OF-PATH":
            self.path = self.note = ""
        elif record.word == "PPRINT":
            self.note = record.rest.lstrip("/").strip()
        elif record.word == "LOADTL":
            self.loaded, self.sizes = "tool " + parameters(record.rest)[0], ""
        elif record.word == "TLDATA":
            self.sizes = " ".join(parameters(record.rest))
        else:
            return False
        return True

    def place(self):
        """The operation and the tool, in words."""
        tool = [word for word in (self.tool, self.loaded, "" if self.tool else self.sizes) if word]
        operation = ": ".join(word for word in (self.path, self.note) if word)
        return operation or NO_OPERATION, ", ".join(tool) or NO_TOOL


class Places:
    """The operation and the tool at each line of a file."""

    def __init__(self, data):
        notes = Notes()
        self.lines, self.places = [0], [notes.place()]
        for record in records_of(data):
            if notes.take(record):
                self.lines.append(record.line)
                self.places.append(notes.place())

    def at(self, line):
        return self.places[bisect.bisect_right(self.lines, line) - 1]
