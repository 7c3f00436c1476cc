"""One job: the program is run on its files, and its answer is judged and kept with a stamp."""

import contextlib
import os
import re
import signal
import socket
import subprocess
import tempfile
import threading
import time
from typing import NamedTuple

from . import alarms, records, reports, stamps

# What a code of the program means that is no answer about the files.
FAILED = {2: "the program doesn't know these words: is it older than the scripts?", 4: "a file couldn't be read",
          5: "the report couldn't be written: is the disk full?", 6: "no memory was found",
          125: "the program wasn't built, or gave no answer", 126: "the program can't be run", 127: "the program isn't there, or can't be loaded"}
CLEAN, FINDINGS, REFUSED, UNREAD = 0, 1, 3, 4
MOST_SAID = 300  # characters of what a program says on standard error
PART = re.compile(r"(?:report|listing|result)\.(.*)\.([0-9]+)\.[0-9]+\.part")
running, stopping = set(), threading.Event()


class Settings(NamedTuple):
    """How jobs are run. All of it is plain data, which a queue carries to other machines."""
    program: str
    program_sum: str
    alarms: list
    alarms_sum: str
    workers: int = 1
    seconds: float = 0  # 0 for no limit
    memory: int = 0  # MiB of address space, 0 for no limit


class Ended(NamedTuple):
    """How a run of the program ended: its code, or why there is none; and what it said on standard error."""
    code: int | None
    why: str
    said: str


def limited(command, memory):
    """The command, with a limit of its memory."""
    return ["sh", "-c", 'ulimit -v "$0" && exec "$@"', str(1024 * memory)] + command if memory else command


def run(words, settings, output):
    """Runs the program on these words, its output into an open file."""
    with tempfile.TemporaryFile() as said:
        try:
            process = subprocess.Popen(limited([settings.program] + words, settings.memory), stdin=subprocess.DEVNULL, stdout=output, stderr=said)
        except OSError as why:
            return Ended(None, "the program couldn't be started: %s" % why, "")
        running.add(process)
        try:
            code, why = process.wait(settings.seconds or None), ""
        except subprocess.TimeoutExpired:
            process.kill()
            code, why = process.wait(), "it took more than %g seconds" % settings.seconds
        finally:
            running.discard(process)
        said.seek(0)
        text = " ".join(said.read(MOST_SAID).decode(errors="replace").split())
    if not why and code < 0:
        why = "killed by signal %d (%s)" % (-code, signal_name(-code))
    return Ended(None if why else code, why, text)


def signal_name(number):
    try:
        return signal.Signals(number).name
    except ValueError:
        return "?"


def stop_all():
    """Ends the programs that run now, where the batch itself is to end."""
    stopping.set()
    for process in list(running):
        process.kill()


def words_of(job, settings):
    words = ["verify", job.cl, job.setup]
    for option, value in (("--script", job.script), ("--stock", job.stock)):
        words += [option, value] if value else []
    return words + (["--workers", str(settings.workers)] if settings.workers > 1 else [])


def read(path):
    with open(path, "rb") as f:
        return f.read()


def failed(result, why):
    result.update(state="failed", why=why)
    return result


def judge_report(result, job, text):
    """Judges a report: what was found, by operation and tool."""
    try:
        report = reports.read_report(text)
    except reports.Unreadable as why:
        return failed(result, str(why))
    result.update(state="clean" if report.is_clean else "findings", moves=report.head[0], left=report.head[1], passed=report.head[2],
                  unsafe=sum(not move.is_safe() for move in report.moves), totals=report.totals)
    if not report.is_clean:
        result["found"] = reports.grouped(report, records.Places(read(job.cl)))
    return result


def add_alarms(result, job, settings, text, scratch):
    """Looks for alarms in the report and, where some alarm asks for it, in the listing."""
    texts = {"report": text}
    if any(alarm.text == "listing" for alarm in settings.alarms):
        with open(scratch, "w+b") as output:
            ended = run(["list", job.cl], settings, output)
            output.seek(0)
            texts["listing"] = output.read().decode("ascii", "replace")
        if ended.code != 0:
            return failed(result, "no listing came: %s" % (ended.why or "code %d" % ended.code))
    result["alarms"] = alarms.raised(settings.alarms, texts, read(job.cl))
    if result["alarms"] and result["state"] == "clean":
        result["state"] = "findings"
    return result


def judge(result, job, settings, ended, text, scratch):
    """Judges how the program ended, and what it wrote."""
    result["code"] = ended.code
    if ended.code in (CLEAN, FINDINGS):
        judge_report(result, job, text)
        if result["state"] == "failed":
            return result
        if (result["state"] == "clean") != (ended.code == CLEAN):
            return failed(result, "the code %d contradicts the report" % ended.code)
        return add_alarms(result, job, settings, text, scratch)
    if ended.code == REFUSED and text.startswith("refused: ") and text.endswith("\n"):
        result.update(state="refused", why=text.strip())
        return result
    why = ended.why or FAILED.get(ended.code, "code %s" % ended.code)
    if ended.code == UNREAD:
        why += "".join(": %s" % path for kind, path in job.files().items() if result["sums"][kind] is None)
    return failed(result, why + (": " + ended.said if ended.said else ""))


def is_alive(number):
    try:
        os.kill(number, 0)
    except ProcessLookupError:
        return False
    except PermissionError:
        pass
    return True


def clear(place, is_over=False):
    """Takes away what runs that were killed left in a job's folder: those of this machine, and all where the batch is over. A run on a lost
    machine that still writes finds its file gone then, and leaves the result that is there."""
    for name in os.listdir(place) if os.path.isdir(place) else []:
        match = PART.fullmatch(name)
        if match and (is_over or match.group(1) == socket.gethostname() and not is_alive(int(match.group(2)))):
            with contextlib.suppress(FileNotFoundError):
                os.remove(os.path.join(place, name))


def run_job(job, settings, folder):
    """Runs a job, and puts its report and its result in their place. What isn't whole never stands there."""
    place = stamps.place_of(folder, job.name)
    os.makedirs(place, exist_ok=True)
    clear(place)
    own = "%s.%d.%d" % (socket.gethostname(), os.getpid(), threading.get_ident())
    part, scratch = (os.path.join(place, "%s.%s.part" % (kind, own)) for kind in ("report", "listing"))
    sums, began = stamps.sums_of(job, settings), time.time()
    result = {"edition": stamps.EDITION, "job": job.name, "state": "failed", "why": "", "files": job.files(), "sums": sums,
              "program": settings.program, "host": socket.gethostname(), "when": time.strftime("%Y-%m-%d %H:%M:%S", time.gmtime(began)),
              "report": None, "alarms": [], "found": []}
    try:
        with open(part, "wb") as output:
            ended = run(words_of(job, settings), settings, output)
        if stopping.is_set():
            return None
        text = read(part).decode("ascii", "replace")
        result["report"] = stamps.sum_of(part)
        if stamps.sum_of_program(settings.program) != settings.program_sum:
            failed(result, "the program on this machine isn't the one of the batch")
        else:
            judge(result, job, settings, ended, text, scratch)
        if stamps.sums_of(job, settings) != sums:
            failed(result, "its files changed while it was checked")
        result["seconds"] = round(time.time() - began, 3)
        os.replace(part, stamps.report_of(folder, job.name))
        stamps.write_result(folder, result, own)
    except OSError as why:
        failed(result, "its result couldn't be kept: %s" % why)
    finally:
        for path in (part, scratch):
            if os.path.exists(path):
                os.remove(path)
    return result
