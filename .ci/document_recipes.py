"""Runs the recipes of the documents: each snippet that a user is to copy, on files as his system writes them.

A recipe is a fence of the language sh. CASES has the cases of each, found by the words with which it begins: the files that it is given,
and the code and the files or the text that are due. A recipe without a case is wrong, and so is a case without a recipe. A file of a
CAM system is given three times, with LF, with CR LF, and with CR LF and a byte order mark. Where a recipe calls `clverify`, a stand-in
answers, since no program is built yet.

A session is a fence whose lines begin with `$ `, each followed by what is printed. Where there is no program, the lines that call none
are run: they have to end with 0 and leave a file that differs from the one that they were made of. With a program all lines are run
and what they print is compared.
"""

import os
import re
import shlex
import subprocess
import tempfile

FENCE = re.compile(r"^```(\w*)\n(.*?)^```$", re.M | re.S)
MARK = b"\xef\xbb\xbf"


def as_systems_write(text):
    """A text with LF, with CR LF, and with CR LF and a byte order mark."""
    line_feeds = text.encode()
    returns = line_feeds.replace(b"\n", b"\r\n")
    return line_feeds, returns, MARK + returns


# ---------------------------------------------------------------- the cases

NX = """TOOL PATH/ROUGH,TOOL,MILL_D10_R1
TLDATA/MILL,10.0000,1.0000,75.0000,2.0000,0.0000
MSYS/0.0000,0.0000,0.0000,1.0000000,0.0000000,0.0000000,0.0000000,1.0000000,0.0000000
GOTO/0.0000,0.0000,5.0000
END-OF-PATH
TLDATA/DRILL,8.5000,118.0000,60.0000
GOTO/1.0000,0.0000,5.0000
"""
NX_DUE = """TOOL PATH/ROUGH,TOOL,MILL_D10_R1
CUTTER/10.0000,1.0000,4.0000,1.0000,0.0000,2.0000,75.0000
MSYS/0.0000,0.0000,0.0000,1.0000000,0.0000000,0.0000000,0.0000000,1.0000000,0.0000000
GOTO/0.0000,0.0000,5.0000
END-OF-PATH
CUTTER/8.5000
GOTO/1.0000,0.0000,5.0000
"""
LISTING = """clverify list 1
move 1 line 3 rapid from 0 -500 50000 to 1000 0 5000 axis 0 0 100000 to 0 0 100000 cutter none
move 2 line 4 cut from 1000 0 5000 to 1000 0 -20000 axis 0 0 100000 to 0 0 100000 cutter 6000 0 40000
move 3 line 6 cut from 1000 0 -20000 to -7000 900 -1 axis 0 0 100000 to 50000 0 86603 cutter 200 0 12000 flank 15
moves 3 passed 4
"""
REPORT = """clverify 1
moves 3 left 3 passed 4
move 1 line 3 rapid removed 0 possible 0 part 0 0 fixture 0 0 rapid 0 0 safe
move 2 line 4 cut removed 0 possible 0 part 0 0 fixture 0 0 rapid 0 0 safe
move 3 line 6 cut removed 7 possible 9 part 0 0 fixture 0 0 rapid 0 0 safe
total removed 7 possible 9 of 100
verdict clean
"""
FINDINGS = REPORT.replace("part 0 0", "part 1 2").replace("safe\ntotal", "unsafe\ntotal").replace("clean", "findings")
MARKS = "clverify point 1\nmove 1 line 3 clear\nmove 2 line 4 removed\nmoves 2\n"
CERT = "cert 1\nslabs 16\nray Z 0 0\ncell 0 0 0 1\nend\n"
JOB = {"part.cls": b"FINI\n", "setup.toml": b"[grid]\n"}
NUMBERED = "N10 UNITS/INCHES\nn0020\tGOTO/1,2,3\nGOTO/4,5,6\n"


def filters(given, due):
    """A filter of a CAM system's file, for each way to write it; the ends of lines may stay or go."""
    return [({"in.cls": form}, {"out.cls": due.encode()}, 0) for form in as_systems_write(given)]


def build(answers, code):
    """A script that calls clverify, with what that answers to each command: a code and a text."""
    return ({"answers": answers}, {}, code)


CASES = {
    "LC_ALL=C awk -F": filters(NX, NX_DUE) + [({"in.cls": NX.replace("/DRILL", "/TCUTTER").encode()}, {}, 1)],
    "LC_ALL=C awk 'NR == 1 { sub(/^\\357\\273\\277/, \"\") } {": filters(NUMBERED, "UNITS/INCHES\nGOTO/1,2,3\nGOTO/4,5,6\n"),
    "LC_ALL=C awk 'NR == 1 { sub(/^\\357\\273\\277/, \"\") } 1": filters(NX, NX),
    "iconv": [({"in.cls": text.encode("utf-16")}, {"out.cls": text.encode()}, 0) for text in (NX, NX.replace("\n", "\r\n"))],
    "awk '/^move / { for (n = 7": [({"listing.txt": LISTING.encode()}, {"stdout": b"x -7000 1000\ny -500 900\nz -20000 50000\n"}, 0)],
    "awk '/^move / { for (n = 1": [({"listing.txt": LISTING.encode()}, {"stdout": b"move 3 line 6 30\n"}, 0)],
    "grep -c": [({"report.txt": REPORT.encode()}, {"stdout": b"1\n"}, 0)],
    "clverify list": [
        build({"list": (0, LISTING), "verify": (0, REPORT)}, 0),
        build({"list": (0, LISTING), "verify": (1, FINDINGS)}, 1),
        build({"list": (3, "refused: cl line 9: Unsupported CIRCLE\n")}, 3),
        build({"list": (4, "")}, 4),
        build({"list": (0, "clverify list 1\nmoves 0 passed 7\n"), "verify": (0, REPORT)}, 1),
        build({"list": (0, LISTING.replace("cutter 6000 0 40000", "cutter none")), "verify": (0, REPORT)}, 1),
        build({"list": (0, LISTING), "verify": (0, REPORT.replace("left 3", "left 0"))}, 1),
        build({"list": (0, LISTING), "verify": (0, REPORT.replace("total removed 7", "total removed 0"))}, 1),
        build({"list": (0, LISTING), "verify": (3, "refused: setup: SetupSyntax\n")}, 3),
        build({"list": (0, LISTING), "verify": (4, "")}, 4),
    ],
    "clverify point": [
        build({"point": (0, MARKS)}, 0),
        build({"point": (0, MARKS.replace("clear", "nocutter"))}, 1),
        build({"point": (0, "clverify point 1\nmoves 0\n")}, 1),
        build({"point": (3, "refused: cl line 1: AxisZero\n")}, 3),
    ],
    "mkdir -p certificates": [
        ({**JOB, "answers": {"list": (0, LISTING), "certify": (0, CERT)}}, {"certificates/3.cert": CERT.encode()}, 0),
        ({**JOB, "answers": {"list": (0, LISTING), "certify": (1, "nocert\n")}}, {}, 1),
        ({**JOB, "answers": {"list": (0, "clverify list 1\nmoves 0 passed 7\n")}}, {}, 1),
    ],
}


# ---------------------------------------------------------------- running them

def stand_in(folder, answers):
    """A program of the name clverify that answers each command as is said."""
    cases = "".join("%s) printf %%s %s; exit %d ;;\n" % (command, shlex.quote(text), code) for command, (code, text) in answers.items())
    path = os.path.join(folder, "clverify")
    with open(path, "w", encoding="utf-8") as file:
        file.write('#!/bin/sh\ncase "$1" in\n%s*) exit 99 ;;\nesac\n' % cases)
    os.chmod(path, 0o755)


def lines_of(data):
    """A text by its lines, whichever their ends are."""
    return data.replace(b"\r\n", b"\n")


def wrong_case(recipe, case):
    """What a recipe does otherwise than is due, where it does."""
    given, due, code = case
    with tempfile.TemporaryDirectory() as folder:
        stand_in(folder, given.get("answers", {}))
        for name, data in given.items():
            if name != "answers":
                with open(os.path.join(folder, name), "wb") as file:
                    file.write(data)
        path = folder + os.pathsep + os.environ["PATH"]
        run = subprocess.run(["bash", "-c", recipe], cwd=folder, env={**os.environ, "PATH": path}, capture_output=True, check=False)
        if run.returncode != code:
            return "code %d for %d: %s" % (run.returncode, code, run.stderr.decode(errors="replace").strip()[:200])
        for name, data in due.items():
            got = run.stdout
            if name != "stdout":
                with open(os.path.join(folder, name), "rb") as file:
                    got = file.read()
            if lines_of(got) != lines_of(data):
                return "%s is %r" % (name, got[:200])
    return None


def wrong_recipes(documents):
    """The recipes that do something else than is due, and those and the cases that lack their partner; documents are texts by path."""
    used = set()
    for path, text in documents.items():
        for recipe in (body for language, body in FENCE.findall(text) if language == "sh"):
            heads = [head for head in CASES if recipe.startswith(head)]
            if len(heads) != 1:
                yield "%s: the recipe '%s' has %d rows of cases" % (path, recipe.split("\n")[0], len(heads))
                continue
            used.add(heads[0])
            for case in CASES[heads[0]]:
                wrong = wrong_case(recipe, case)
                if wrong:
                    yield "%s: the recipe '%s': %s" % (path, recipe.split("\n")[0], wrong)
    yield from ("no document has the recipe '%s'" % head for head in CASES if head not in used)


def steps_of(session):
    """The command lines of a session, each with what is printed after it."""
    steps = []
    for line in session.rstrip("\n").split("\n"):
        if line.startswith("$ "):
            steps.append((line[2:], []))
        else:
            steps[-1][1].append(line)
    return steps


def run_step(command, folder):
    return subprocess.run(["bash", "-c", command], cwd=folder, capture_output=True, text=True, check=False)


def is_filter(command):
    """Whether a line needs no program and writes a file."""
    return ">" in command and not re.search(r"\./clverify|\brt\b", command)


def wrong_filter(command, folder):
    """A line that makes a file of another one has to change something."""
    run = run_step(command, folder)
    made = re.search(r">(\S+)$", command).group(1)
    sources = [word for word in shlex.split(command) if os.path.isfile(os.path.join(folder, word))]
    if run.returncode != 0 or not os.path.getsize(os.path.join(folder, made)):
        return "code %d: %s" % (run.returncode, run.stderr.strip()[:200])
    for source in sources:
        with open(os.path.join(folder, source), "rb") as before, open(os.path.join(folder, made), "rb") as after:
            if before.read() == after.read():
                return "it changes nothing of %s" % source
    return None


def wrong_printed(command, printed, folder):
    """A line of which something else comes than is shown; a line of dots stands for any."""
    run = run_step(command, folder)
    got = (run.stdout + run.stderr).rstrip("\n").split("\n")
    due = printed
    if due and due[-1] == "...":
        due, got = due[:-1], got[:len(due) - 1]
    return None if got == (due or [""]) else "it prints %r" % "\n".join(got)[:200]


def wrong_sessions(top, documents, program=None):
    """The lines of sessions that don't do what is shown; without a program only those that need none."""
    for path, text in documents.items():
        for session in (body for _, body in FENCE.findall(text) if body.startswith("$ ")):
            with tempfile.TemporaryDirectory() as folder:
                os.symlink(os.path.join(top, "examples"), os.path.join(folder, "examples"))
                if program:
                    os.symlink(os.path.abspath(program), os.path.join(folder, "clverify"))
                for command, printed in steps_of(session):
                    wrong = None
                    if is_filter(command):
                        wrong = wrong_filter(command, folder)
                    elif program and not re.search(r"\brt\b", command):
                        wrong = wrong_printed(command, printed, folder)
                    if wrong:
                        yield "%s: the line '%s': %s" % (path, command, wrong)
