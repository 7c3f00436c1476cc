"""What a batch says at its end: the summary, JUnit XML, SARIF, and annotations for GitHub."""

import json
import os
import xml.etree.ElementTree as xml
from urllib.parse import quote

UNPROVED = "These scripts are not proved; what each report says is the word of the program that wrote it."
RULES = {"part": "A move cuts into the part", "fixture": "A move comes too near to a fixture", "rapid": "A rapid move crosses stock",
         "alarm": "An alarm: the file may have lost its meaning on its way", "refused": "A file was refused", "failed": "A job wasn't checked"}
WORDS = {"part": ("into the part", "maybe into the part"), "fixture": ("too near to a fixture", "maybe too near to a fixture"),
         "rapid": ("through stock in rapid motion", "maybe through stock in rapid motion")}
SARIF_SCHEMA = "https://docs.oasis-open.org/sarif/sarif/v2.1.0/errata01/os/schemas/sarif-schema-2.1.0.json"
MOST_NAMES = 20  # operations of a job in the summary


class Finding:
    """One thing that was found in a job: which rule, where, and a sentence."""

    def __init__(self, job, rule, text, file, line=None, more=()):
        self.job, self.rule, self.text, self.file, self.line, self.more = job, rule, text, file, line, list(more)


def moves_word(number):
    return "1 move" if number == 1 else "%d moves" % number


def of_group(result, group):
    """The finding of a group of moves."""
    text = "%s, %s: %s %s, %d points for sure, %d possible" % (
        group["operation"], group["tool"], moves_word(group["moves"]), WORDS[group["kind"]][group["sure"] == 0], group["sure"], group["possible"])
    more = ["move %d line %d %s %d %d" % (each["move"], each["line"], group["kind"], each["sure"], each["possible"]) for each in group["first"]]
    if group["moves"] > len(more):
        more.append("and %s more" % moves_word(group["moves"] - len(more)))
    return Finding(result["job"], group["kind"], text, result["files"]["cl"], group["first"][0]["line"], more)


def line_in(text):
    """The line of a file that a text names, as in 'line 9', or None."""
    words = text.replace(":", " ").split()
    for word, number in zip(words, words[1:]):
        if word == "line" and number.isdigit():
            return int(number)
    return None


def of_refusal(result):
    """The finding of a refusal: it names which file."""
    kind = result["why"].removeprefix("refused: ").split(" ")[0].strip(":")
    return Finding(result["job"], "refused", result["why"], result["files"].get(kind, result["files"]["cl"]), line_in(result["why"]))


def findings_of(result):
    """The findings of a job."""
    if result["state"] == "refused":
        return [of_refusal(result)]
    if result["state"] == "failed":
        return [Finding(result["job"], "failed", "not checked: " + result["why"], result["files"]["cl"])]
    found = [of_group(result, group) for group in result["found"]]
    for alarm in result["alarms"]:
        more = alarm["first"] + (["and %d lines more" % (alarm["lines"] - len(alarm["first"]))] if alarm["lines"] > len(alarm["first"]) else [])
        found.append(Finding(result["job"], "alarm", "alarm: " + alarm["name"], result["files"]["cl"], line_in(alarm["first"][0]), more))
    return found


# ---------------------------------------------------------------- the summary


def tally(results):
    """How many jobs ended in each way."""
    return {state: sum(result["state"] == state for result in results) for state in ("clean", "findings", "refused", "failed")}


def summary_of_job(result):
    lines = ["", "%s: %s" % (result["job"], result["state"]), "  %s" % result["files"]["cl"]]
    found = findings_of(result)
    for finding in found[:MOST_NAMES]:
        lines.append("  " + finding.text)
        lines += ["    " + line for line in finding.more]
    if len(found) > MOST_NAMES:
        lines.append("  and %d findings more, in its result.json" % (len(found) - MOST_NAMES))
    return lines


def summary(results, settings, kept, seconds):
    """The summary: how many of what, then each job that isn't clean, by operation and tool."""
    counts = tally(results)
    lines = ["%d jobs: %d clean, %d with findings, %d refused, %d failed" % (len(results), *counts.values()),
             "%d checked now, %d unchanged and not checked again, %.1f s" % (len(results) - kept, kept, seconds),
             "program %s" % settings.program, "sum %s" % settings.program_sum, UNPROVED]
    for result in results:
        if result["state"] != "clean":
            lines += summary_of_job(result)
    return "\n".join(lines) + "\n"


# ---------------------------------------------------------------- JUnit


def printable(text):
    """The text without what XML can't hold."""
    return "".join(char if char in "\t\n" or " " <= char <= "\ud7ff" or "\ue000" <= char <= "\ufffd" else "?" for char in text)


def junit_case(suite, result):
    case = xml.SubElement(suite, "testcase", classname="clverify", name=result["job"], time="%.3f" % result.get("seconds", 0))
    found = findings_of(result)
    if not found:
        return
    kind = "failure" if result["state"] == "findings" else "error"
    body = "\n".join("\n".join([finding.text] + ["  " + line for line in finding.more]) for finding in found)
    xml.SubElement(case, kind, type=found[0].rule, message=printable(found[0].text)).text = printable(body)


def junit(results, when):
    """The results as JUnit XML: findings and alarms are failures, what wasn't checked is an error."""
    counts = tally(results)
    numbers = {"tests": str(len(results)), "failures": str(counts["findings"]), "errors": str(counts["refused"] + counts["failed"]),
               "time": "%.3f" % sum(result.get("seconds", 0) for result in results)}
    suites = xml.Element("testsuites", numbers)
    suite = xml.SubElement(suites, "testsuite", name="clverify", timestamp=when, skipped="0", hostname=os.uname().nodename, **numbers)
    for result in results:
        junit_case(suite, result)
    xml.indent(suites)
    return '<?xml version="1.0" encoding="UTF-8"?>\n' + xml.tostring(suites, encoding="unicode") + "\n"


# ---------------------------------------------------------------- SARIF


def address(path, top):
    """A file's name for SARIF and GitHub: below the top as a relative one, else as it is."""
    inside = os.path.relpath(path, top)
    return path if inside.startswith("..") else inside


def uri(path, top):
    name = address(path, top)
    return ("file://" if os.path.isabs(name) else "") + quote(name)


def sarif_result(finding, top):
    place = {"artifactLocation": {"uri": uri(finding.file, top)}}
    if finding.line:
        place["region"] = {"startLine": finding.line}
    text = "\n".join(["%s: %s" % (finding.job, finding.text)] + finding.more)
    return {"ruleId": finding.rule, "ruleIndex": list(RULES).index(finding.rule), "level": "error", "message": {"text": text},
            "locations": [{"physicalLocation": place}]}


def sarif(results, settings, top):
    """The findings as SARIF 2.1.0, one result for each operation, tool and kind."""
    rules = [{"id": rule, "shortDescription": {"text": text}} for rule, text in RULES.items()]
    found = [sarif_result(finding, top) for result in results for finding in findings_of(result)]
    driver = {"name": "clverify-batch", "rules": rules, "fullDescription": {"text": UNPROVED},
              "properties": {"program": settings.program, "programSum": settings.program_sum}}
    whole = not any(result["state"] == "failed" for result in results)
    run = {"tool": {"driver": driver}, "invocations": [{"executionSuccessful": whole}], "columnKind": "unicodeCodePoints", "results": found}
    return json.dumps({"$schema": SARIF_SCHEMA, "version": "2.1.0", "runs": [run]}, indent=1) + "\n"


# ---------------------------------------------------------------- GitHub


def escaped(text, more=""):
    for char in "%\r\n" + more:
        text = text.replace(char, "%%%02X" % ord(char))
    return text


def annotations(results, top):
    """A line for each finding, which GitHub shows at its place in the file."""
    lines = []
    for result in results:
        for finding in findings_of(result):
            place = "file=%s" % escaped(address(finding.file, top), ":,") + (",line=%d" % finding.line if finding.line else "")
            title = escaped("clverify: " + finding.job, ":,")
            lines.append("::error %s,title=%s::%s" % (place, title, escaped("\n".join([finding.text] + finding.more))))
    return lines
