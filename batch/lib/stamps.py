"""Stamps: what was checked by what. A result carries the sums of its files, of the program and of the list of alarms."""

import functools
import hashlib
import json
import os

EDITION = 1


def sum_of(path):
    """The SHA-256 of a file, or None where it can't be read."""
    try:
        with open(path, "rb") as f:
            return hashlib.file_digest(f, "sha256").hexdigest()
    except OSError:
        return None


@functools.lru_cache(16)
def known_sum(path, *_):
    return sum_of(path)


def sum_of_program(path):
    """The sum of a file that is asked for again and again: it is read anew only where its time, its size or its place on the disk changed."""
    try:
        at = os.stat(path)
    except OSError:
        return None
    return known_sum(path, at.st_mtime_ns, at.st_ctime_ns, at.st_size, at.st_ino)


def sums_of(job, settings):
    """The sums of a job: of each file that it names, of the program, and of the alarms."""
    sums = {kind: sum_of(path) for kind, path in job.files().items()}
    sums["program"] = settings.program_sum
    sums["alarms"] = settings.alarms_sum
    return sums


def place_of(folder, name):
    """The folder of a job's results."""
    return os.path.join(folder, "jobs", name)


def read_result(folder, name):
    """The result of a job, or None where there is none, or none that can be read."""
    try:
        with open(os.path.join(place_of(folder, name), "result.json"), encoding="utf-8") as f:
            result = json.load(f)
    except (OSError, ValueError):
        return None
    return result if isinstance(result, dict) and result.get("edition") == EDITION and result.get("job") == name else None


def write_result(folder, result, own):
    """Puts a result in its place at once, by way of a file of one's own: a reader finds the one before, or this one, whole."""
    place = place_of(folder, result["job"])
    part = os.path.join(place, "result.%s.part" % own)
    with open(part, "w", encoding="utf-8") as f:
        json.dump(result, f, indent=1)
        f.write("\n")
    os.replace(part, os.path.join(place, "result.json"))


def report_of(folder, name):
    return os.path.join(place_of(folder, name), "report.txt")


def holds(result, sums, folder):
    """Whether a result is an answer of the program to these very files, and its report is still the one that was written."""
    return bool(result) and result["state"] != "failed" and result["sums"] == sums \
        and result["report"] == sum_of(report_of(folder, result["job"]))
