"""What runs the jobs: processes of this machine, or an engine that is there already, GNU parallel or Slurm.

An engine gets a queue, a file that names the jobs and how they are run, and starts `run-one` on it. What comes back is the folder of
results alone: a job is done where its result stands in its place, whoever put it there and however often.
"""

import concurrent.futures
import json
import os
import shlex
import shutil
import subprocess
import sys
import time

from . import alarms, jobs, plans, stamps

HERE = os.path.dirname(os.path.dirname(os.path.abspath(__file__)))
RUN_ONE = os.path.join(HERE, "run-one")
MOST_NAMES, SHARES = 20, 4  # jobs that GNU parallel hands over at once, at most, and how many such shares each place gets at least
MOST_TASKS = 1_000  # of an array, where Slurm doesn't say
TASKS_EACH = 16  # tasks of an array for each that runs at a time: starting one takes Slurm about a second
POLL = 0.5  # seconds between two looks for results
ASKS = 4  # looks for results for each question to Slurm


class EngineFault(Exception):
    """An engine that can't be used."""


# ---------------------------------------------------------------- the queue


def queue_path(folder):
    return os.path.join(folder, "queue", "queue.json")


def write_queue(folder, todo, settings):
    """Writes the queue of these jobs, and takes away what an earlier run left of them."""
    os.makedirs(os.path.join(folder, "queue"), exist_ok=True)
    for job in todo:
        result = os.path.join(stamps.place_of(folder, job.name), "result.json")
        if os.path.exists(result):
            os.remove(result)
    part = queue_path(folder) + ".part"
    with open(part, "w", encoding="utf-8") as f:
        json.dump({"folder": folder, "settings": settings._asdict(), "jobs": todo}, f)
    os.replace(part, queue_path(folder))


def read_queue(path):
    """The folder, the settings and the jobs of a queue."""
    with open(path, encoding="utf-8") as f:
        queue = json.load(f)
    settings = queue["settings"]
    settings["alarms"] = [alarms.Alarm(*alarm) for alarm in settings["alarms"]]
    return queue["folder"], jobs.Settings(**settings), [plans.Job(*job) for job in queue["jobs"]]


def share(names, number, of):
    """Every OF-th name, from the number on."""
    return names[number::of]


# ---------------------------------------------------------------- this machine


def run_local(todo, settings, folder, options, tell):
    """Runs the jobs by processes of this machine."""
    with concurrent.futures.ThreadPoolExecutor(options.jobs) as pool:
        waiting = [pool.submit(jobs.run_job, job, settings, folder) for job in todo]
        try:
            for each in concurrent.futures.as_completed(waiting):
                tell(each.result())
        except BaseException:
            for each in waiting:
                each.cancel()
            jobs.stop_all()
            raise


# ---------------------------------------------------------------- engines


def report_as_they_come(todo, folder, tell, is_over):
    """Reports the results as they come, until the engine is over; those that came last too. One that failed waits for the end: on a machine
    that is going down the program may be killed a moment before what waits for it, and the engine may run that job once more."""
    missing = [job.name for job in todo]
    while True:
        over = is_over()
        for name in list(missing):
            result = stamps.read_result(folder, name)
            if result and (over or result["state"] != "failed"):
                missing.remove(name)
                tell(result)
        if over or not missing:
            return
        time.sleep(POLL)


def needs(command, package):
    if not shutil.which(command):
        raise EngineFault("%s isn't on this machine (Debian's package is %s)" % (command, package))


def hand_over(pipe, text):
    """Writes a text into the input of an engine, which may have ended already."""
    try:
        pipe.write(text)
        pipe.close()
    except BrokenPipeError:
        pass


def run_parallel(todo, settings, folder, options, tell):
    """Hands the jobs to GNU parallel."""
    needs("parallel", "parallel")
    at_a_time = options.jobs * max(1, len(options.sshlogin))
    names_each = max(1, min(MOST_NAMES, len(todo) // (SHARES * at_a_time)))
    words = ["parallel", "--will-cite", "--jobs", str(options.jobs), "--retries", "2", "--max-args", str(names_each)]
    for host in options.sshlogin:
        words += ["--sshlogin", host]
    words += options.engine_option + [shlex.quote(RUN_ONE), shlex.quote(queue_path(folder)), "{}"]
    names = "".join(job.name + "\n" for job in todo)
    with open(os.path.join(folder, "queue", "parallel.txt"), "ab") as said:
        process = subprocess.Popen(words, stdin=subprocess.PIPE, stdout=said, stderr=said, text=True)
        try:
            hand_over(process.stdin, names)
            report_as_they_come(todo, folder, tell, lambda: process.poll() is not None)
            process.wait()
        except BaseException:
            process.terminate()
            process.wait()
            raise


def asked(words):
    """What a command says, or None where it fails."""
    done = subprocess.run(words, stdin=subprocess.DEVNULL, capture_output=True, text=True)
    return done.stdout if done.returncode == 0 else None


def most_tasks():
    """How many tasks an array of this Slurm may have."""
    for line in (asked(["scontrol", "show", "config"]) or "").splitlines():
        name, _, value = line.partition("=")
        if name.strip() == "MaxArraySize" and value.strip().isdigit():
            return max(1, min(int(value) - 1, 100 * MOST_TASKS))
    return MOST_TASKS


def in_queue(number):
    """Whether Slurm has tasks of the array that aren't over. Where it doesn't answer, it may have."""
    done = subprocess.run(["squeue", "--noheader", "--jobs", number, "--format", "%T"], stdin=subprocess.DEVNULL, capture_output=True, text=True)
    if done.returncode != 0:
        return "Invalid job id" not in done.stderr
    return bool(done.stdout.strip())


def array_script(folder, tasks):
    """What each task of an array does: it takes its share of the queue."""
    return "#!/bin/sh\nexec %s %s --share \"$SLURM_ARRAY_TASK_ID\" %d\n" % (shlex.quote(RUN_ONE), shlex.quote(queue_path(folder)), tasks)


def array_words(folder, tasks, at_a_time):
    said = os.path.join(folder, "queue", "slurm-").replace("%", "%%") + "%A_%a.txt"
    return ["sbatch", "--parsable", "--job-name=clverify-batch", "--requeue", "--open-mode=append", "--output=" + said,
            "--array=0-%d%%%d" % (tasks - 1, at_a_time)]


def forget_array(folder):
    """Cancels the array of a batch that was stopped: its jobs are handed over anew."""
    path = os.path.join(folder, "queue", "slurm_job")
    if os.path.exists(path):
        with open(path) as f:
            number = f.read().strip()
        if number.isdigit() and in_queue(number):
            asked(["scancel", number])
        os.remove(path)


def run_slurm(todo, settings, folder, options, tell):
    """Hands the jobs to Slurm, as an array each of whose tasks takes a share of them."""
    needs("sbatch", "slurm-client")
    forget_array(folder)
    tasks = min(len(todo), most_tasks(), TASKS_EACH * options.jobs)
    done = subprocess.run(array_words(folder, tasks, options.jobs) + options.engine_option, input=array_script(folder, tasks),
                          capture_output=True, text=True)
    if done.returncode != 0:
        raise EngineFault("sbatch: %s" % done.stderr.strip())
    number = done.stdout.strip().split(";")[0]
    with open(os.path.join(folder, "queue", "slurm_job"), "w") as f:
        f.write(number + "\n")
    looks = iter(range(sys.maxsize))
    try:
        report_as_they_come(todo, folder, tell, lambda: next(looks) % ASKS == ASKS - 1 and not in_queue(number))
    except BaseException:
        asked(["scancel", number])
        raise
    os.remove(os.path.join(folder, "queue", "slurm_job"))


ENGINES = {"local": run_local, "parallel": run_parallel, "slurm": run_slurm}


def run_all(todo, settings, folder, options, tell):
    """Runs the jobs. Those that an engine lost are handed over again, as often as the options say; what is lost after that is reported as lost."""
    told = {}

    def tell_once(result):
        if result and result["job"] not in told:
            told[result["job"]] = result
            tell(result)

    left = todo
    for _ in range(options.tries):
        if left:
            write_queue(folder, left, settings)
            ENGINES[options.engine](left, settings, folder, options, tell_once)
            left = [job for job in left if job.name not in told]
    for job in left:
        tell_once({"edition": stamps.EDITION, "job": job.name, "state": "failed", "alarms": [], "found": [], "files": job.files(),
                   "why": "lost: no result came back in %d tries; was it killed, or its machine?" % options.tries, "sums": {}})
    return told
