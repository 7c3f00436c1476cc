"""A batch: the jobs of a plan, run by an engine into a folder of results, which is taken up again where it was stopped."""

import fcntl
import os
import sys
import time

from . import alarms, engines, jobs, programs, stamps

# Seconds between two looks at the lock: a process that a killed batch was just starting may hold it for a moment.
WAITS = (0.1, 0.2, 0.3, 0.4, 0)


class Taken(Exception):
    """Another batch is at work in the folder."""


def add_words(parser):
    """The options that say how jobs are run."""
    parser.add_argument("--program", help="the program (without it the one of this copy of the repository, or clverify on the PATH)")
    parser.add_argument("--jobs", type=positive, default=os.cpu_count() or 1, metavar="N",
                        help="how many jobs run at a time; with GNU parallel on each host (default: the processors of this machine)")
    parser.add_argument("--workers", type=positive, default=1, metavar="N", help="workers of each job, 1 to 16 (default 1)")
    parser.add_argument("--engine", choices=engines.ENGINES, default="local", help="what runs the jobs (default local)")
    parser.add_argument("--sshlogin", action="append", default=[], metavar="HOST", help="a host of GNU parallel, as its --sshlogin; may be repeated")
    parser.add_argument("--engine-option", action="append", default=[], metavar="OPTION",
                        help="a word for parallel or sbatch, such as --engine-option=--partition=night; may be repeated")
    parser.add_argument("--tries", type=positive, default=2, metavar="N", help="how often a job that an engine lost is handed over in all (default 2)")
    parser.add_argument("--seconds", type=float, default=0, metavar="S", help="a job that takes longer is ended, and failed (default: no limit)")
    parser.add_argument("--memory", type=positive, default=0, metavar="MIB", help="the most memory of a job (default: no limit)")


def called(main):
    """Calls a script's main function. Where the reader of its output went away, it ends without a word."""
    try:
        main()
    except BrokenPipeError:
        os.dup2(os.open(os.devnull, os.O_WRONLY), sys.stdout.fileno())
        sys.exit(1)


def positive(text):
    if not text.isdigit() or int(text) == 0:
        raise ValueError(text)
    return int(text)


def settings_by(options, list_of_alarms, alarms_sum):
    """How the jobs are run, by the options."""
    program = programs.find(options.program)
    return jobs.Settings(program, stamps.sum_of(program), list_of_alarms, alarms_sum, options.workers, options.seconds, options.memory)


def settings_with(options, path):
    """The same with the alarms of a file."""
    return settings_by(options, alarms.read_alarms(path), stamps.sum_of(path))


class Lock:
    """Keeps a second batch out of a folder. It ends with the process, however that ends."""

    def __init__(self, folder):
        os.makedirs(folder, exist_ok=True)
        self.file = open(os.path.join(folder, "lock"), "w")
        for wait in WAITS:
            try:
                fcntl.flock(self.file, fcntl.LOCK_EX | fcntl.LOCK_NB)
                return
            except OSError:
                time.sleep(wait)
        raise Taken("another batch is at work in %s" % folder)


class Teller:
    """Writes one line a job while the batch runs."""

    def __init__(self, stream, of, done):
        self.stream, self.of, self.done = stream, of, done

    def __call__(self, result):
        self.done += 1
        print("%*d of %d  %-8s  %s%s" % (len(str(self.of)), self.done, self.of, result["state"], result["job"], details(result)),
              file=self.stream, flush=True)


def details(result):
    """What the line of a job says next to its state."""
    parts = [result["why"]] if result.get("why") else []
    if result.get("unsafe"):
        parts.append("%d of %d moves unsafe" % (result["unsafe"], result["left"]))
    parts += ["alarm: " + alarm["name"] for alarm in result["alarms"]]
    if "seconds" in result:
        parts.append("%.2f s" % result["seconds"])
    return "  " + ", ".join(parts) if parts else ""


def run_batch(todo, settings, folder, options, again=False, stream=None):
    """Runs the jobs that have no result yet that holds. The results of all, in the order of the jobs, and how many were kept."""
    folder, stream = os.path.abspath(folder), stream or sys.stdout
    lock = Lock(folder)
    results = {}
    for job in todo:
        result = None if again else stamps.read_result(folder, job.name)
        if result and stamps.holds(result, stamps.sums_of(job, settings), folder):
            results[job.name] = result
    kept = len(results)
    if kept:
        print("%d of %d jobs haven't changed since they were checked" % (kept, len(todo)), file=stream, flush=True)
    left = [job for job in todo if job.name not in results]
    results.update(engines.run_all(left, settings, folder, options, Teller(stream, len(todo), kept)))
    for job in left:
        jobs.clear(stamps.place_of(folder, job.name), True)
    lock.file.close()
    return [results[job.name] for job in todo], kept
