"""What the documents name: files, crates, calls, clauses, tests and mutants. Each has to be in the tree.

wrong_names(top, path, text) yields what a document names and isn't there. A name is what stands between backticks:

- with a slash in it and in lower case, a path: from the top, from `crates/`, from the document's own folder, or in any crate;
- a single word, or words joined by `::`: a word of some source;
- a call with its clauses, as in `run`: `answer`, `sound`, or `clverify`: `run`, clauses `answer` and `sound`: the call is a function of
  the crate, and the clauses are labels of its contract;
- in the last column of a table whose head speaks of mutants: an edit of some crate's must-fail.
"""

import functools
import glob
import os
import re

CODE = re.compile(r"`([^`\n]+)`")
FENCE = re.compile(r"^```.*?^```$", re.M | re.S)
PATH = re.compile(r"[a-z.][\w.-]*(/[\w.*-]+)+/?")
FILE = re.compile(r"[\w-]+\.(rt|antt|py)")
WORDS = re.compile(r"[A-Za-z_]\w*(::[A-Za-z_]\w*)*(\(.*\))?")
LIST = r"`[\w:]+`(?:(?:, and |, | and )`[\w:]+`)*"
CALLS = re.compile(r"(%s)(?: of `(\w+)`)?: (%s)(?:, clauses? (%s))?" % (LIST, LIST, LIST))
CLAUSES = re.compile(r"`([\w:]+)`(?: of `(\w+)`)?, clauses? (%s)" % LIST)
# Words of other systems, and of the past.
OUTSIDE = {"CIRC_INTERPOLATION", "POINTS_ONLY", "NotBuilt", "expandCyclePoint"}


def folders(top):
    """The folders of the tree with their files, except what is built."""
    for folder, inner, files in os.walk(top):
        inner[:] = sorted(name for name in inner if name not in (".git", "out", "__pycache__"))
        yield folder, sorted(files)


@functools.cache
def source_words(top):
    """All words of all sources, and those of the names of files."""
    words = set()
    for folder, files in folders(top):
        words.update(re.findall(r"\w+", folder[len(top):]))
        for name in files:
            words.update(re.findall(r"\w+", name))
            if not name.endswith(".md"):
                with open(os.path.join(folder, name), encoding="utf-8", errors="replace") as file:
                    words.update(re.findall(r"\w+", file.read()))
    return words


@functools.cache
def contracts(top):
    """The labels of the clauses of each function, by crate and name; functions of one name in one crate are taken together."""
    found = {}
    for path in glob.glob(os.path.join(top, "crates", "*", "src", "**", "*.rt"), recursive=True):
        crate = os.path.relpath(path, top).split(os.sep)[1]
        with open(path, encoding="utf-8") as file:
            text = file.read()
        for start in re.finditer(r"\bfn (\w+)", text):
            head = re.split(r"^\s*\{$|;$|\bfn ", text[start.end():], maxsplit=1, flags=re.M)[0]
            labels = re.findall(r"^\s*(?:ensures|requires) (\w+) \{", head, re.M)
            found.setdefault((crate, start.group(1)), set()).update(labels)
    return found


@functools.cache
def edits(top):
    return {name[:-5] for _, files in folders(top) for name in files if name.endswith(".edit")}


def is_there(top, document, path):
    """Whether a path leads somewhere, from the places that a document may mean."""
    own = os.path.dirname(document)
    starts = [top, os.path.join(top, "crates"), os.path.join(top, own), os.path.join(top, "crates", "*")]
    return "/out/" in path + "/" or any(glob.glob(os.path.join(start, path.rstrip("/") + end)) for start in starts for end in ("", ".antt", ".rt"))


def crates_of(top, document, call, crate):
    """The crates in which a document may mean this call: the one that it names, its own, or any."""
    named = [key[0] for key in contracts(top) if key[1] == call]
    own = document.split(os.sep)[1] if document.startswith("crates" + os.sep) else None
    return [crate] if crate else [own] if own in named else named


def wrong_clauses(top, document, calls, crate, labels):
    """The clauses that none of the calls has."""
    known = set()
    for call in calls:
        name = call.split("::")[-1]
        places = [place for place in crates_of(top, document, name, crate) if (place, name) in contracts(top)]
        known.update(*(contracts(top)[place, name] for place in places))
        if not places:
            yield "%s: there is no call %s%s" % (document, call, " in %s" % crate if crate else "")
    for label in labels:
        if label not in known:
            yield "%s: %s has no clause %s" % (document, ", ".join(calls), label)


def wrong_calls(top, document, text):
    """The calls that aren't there, and the clauses that a call doesn't have."""
    crates = set(os.listdir(os.path.join(top, "crates")))
    calls_of = lambda crate: {name for place, name in contracts(top) if crate in (place, None)}
    names = re.compile(r"`([\w:]+)`").findall
    for heads, of, rest, clauses in CALLS.findall(text):
        heads = names(heads)
        if heads[-1] in crates:
            for call in names(rest):
                if call.split("::")[-1] not in calls_of(heads[-1]):
                    yield "%s: %s has no call %s" % (document, heads[-1], call)
            if clauses:
                yield from wrong_clauses(top, document, names(rest), heads[-1], names(clauses))
        elif all(head.split("::")[-1] in calls_of(None) for head in heads):
            yield from wrong_clauses(top, document, heads, of, names(rest))
    for call, of, clauses in CLAUSES.findall(text):
        if call not in crates:
            yield from wrong_clauses(top, document, [call], of, names(clauses))


def wrong_mutants(top, document, text):
    """The mutants in a table that no crate has."""
    for table in re.findall(r"(?:^\|.*\|\n)+", text, re.M):
        rows = table.strip().split("\n")
        if "mutant" in rows[0].rsplit("|", 2)[1]:
            for row in rows[2:]:
                for name in CODE.findall(row.rsplit("|", 2)[1]):
                    if name not in edits(top) and not name.endswith("must-fail/"):
                        yield "%s: no crate has the mutant %s" % (document, name)


def wrong_names(top, document, text):
    """All that a document names and isn't there."""
    text = FENCE.sub("", text)
    for name in sorted(set(CODE.findall(text))):
        if PATH.fullmatch(name):
            if not is_there(top, document, name):
                yield "%s: there is no %s" % (document, name)
        elif FILE.fullmatch(name) or WORDS.fullmatch(name):
            parts = re.findall(r"[A-Za-z_]\w*", name.split("(")[0])
            if not all(part in source_words(top) or part in OUTSIDE or part.endswith("_") for part in parts):
                yield "%s: no source has %s" % (document, name)
    yield from wrong_calls(top, document, text)
    yield from wrong_mutants(top, document, text)
