"""The plan of a batch: a table of jobs, one row each, as a CSV file."""

import csv
import io
import os
import re
from typing import NamedTuple

COLUMNS = ("name", "cl", "setup", "script", "stock")
NEEDED = COLUMNS[:3]
NAME = re.compile(r"[A-Za-z0-9][A-Za-z0-9._-]{0,119}")


class PlanFault(Exception):
    """A plan that can't be taken, with the place and the cause."""


class Job(NamedTuple):
    name: str
    cl: str
    setup: str
    script: str = ""
    stock: str = ""

    def files(self):
        """The files that it names, by their kind."""
        return {kind: getattr(self, kind) for kind in COLUMNS[1:] if getattr(self, kind)}


def separator(head):
    """What stands between the columns: whichever of comma, semicolon and tab the head has most of."""
    return max(",;\t", key=head.count)


def job_of(row, place, folder):
    """The job of a row. Names of files are relative to the plan's folder."""
    words = {column: (row.get(column) or "").strip() for column in COLUMNS}
    for column in NEEDED:
        if not words[column]:
            raise PlanFault("%s: no %s" % (place, column))
    if not NAME.fullmatch(words["name"]):
        raise PlanFault("%s: the name '%s' is to be letters, digits, '.', '_' and '-' (it becomes a folder)" % (place, words["name"]))
    files = {kind: os.path.abspath(os.path.join(folder, words[kind])) for kind in COLUMNS[1:] if words[kind]}
    return Job(words["name"], **files)


def rows_of(text):
    """The rows with the line of each; lines that are empty or begin with # are passed over."""
    lines = [(number, line) for number, line in enumerate(text.splitlines(), 1) if line.strip(" \t,;") and not line.startswith("#")]
    if not lines:
        raise PlanFault("line 1: no head; it is to be: %s" % ",".join(COLUMNS))
    between = separator(lines[0][1])
    rows = csv.reader(io.StringIO("".join(line + "\n" for _, line in lines)), delimiter=between, strict=True)
    try:
        rows = list(rows)
    except csv.Error as why:
        raise PlanFault(str(why)) from None
    if len(rows) != len(lines):
        raise PlanFault("a quoted text goes over the end of its line")
    return [(number, row) for (number, _), row in zip(lines, rows)]


def read_plan(path):
    """The jobs of a plan, in its order."""
    try:
        with open(path, encoding="utf-8-sig", newline="") as f:
            rows = rows_of(f.read())
    except (OSError, UnicodeError) as why:
        raise PlanFault("%s: %s" % (path, why)) from None
    except PlanFault as why:
        raise PlanFault("%s: %s" % (path, why)) from None
    head = [column.strip().lower() for column in rows[0][1]]
    unknown = [column for column in head if column not in COLUMNS]
    lacking = [column for column in NEEDED if column not in head]
    if unknown or lacking or len(set(head)) != len(head):
        raise PlanFault("%s: line %d: the columns are %s; script and stock may be missing" % (path, rows[0][0], ", ".join(COLUMNS)))
    jobs, seen = [], {}
    for number, row in rows[1:]:
        place = "%s: line %d" % (path, number)
        if len(row) > len(head):
            raise PlanFault("%s: more columns than the head has" % place)
        job = job_of(dict(zip(head, row)), place, os.path.dirname(os.path.abspath(path)))
        if job.name.lower() in seen:
            raise PlanFault("%s: the name '%s' stands in line %d already" % (place, job.name, seen[job.name.lower()]))
        seen[job.name.lower()] = number
        jobs.append(job)
    if not jobs:
        raise PlanFault("%s: no jobs" % path)
    return jobs


def write_plan(path, jobs):
    """Writes jobs as a plan, with names of files relative to it."""
    folder = os.path.dirname(os.path.abspath(path))
    with open(path, "w", encoding="utf-8", newline="") as f:
        rows = csv.writer(f, lineterminator="\n")
        rows.writerow(COLUMNS)
        for job in jobs:
            rows.writerow([job.name] + [os.path.relpath(name, folder) if name else "" for name in job[1:]])
