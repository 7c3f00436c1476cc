"""Tests of the engines with the real ones: generated jobs by local processes, by GNU parallel over ssh, and by a Slurm array; and a node of
each that is lost in the middle."""

import os
import re
import shutil
import threading
import time

from . import batches, calls, generated_jobs, nodes

EVERY = 7  # of the generated jobs one has a fault
LONG = 300  # seconds in which a third of the jobs is done
TIMELY = ("host", "when", "seconds", "program")  # of a result, what may differ


def results_alike(tally, name, folder, other):
    """Both folders have the same results and the same reports."""
    one, two = ({job: {key: value for key, value in result.items() if key not in TIMELY} for job, result in batches.results_of(each).items()}
                for each in (folder, other))
    tally.same(name + ": the results are those of local processes", [job for job in one if one[job] != two.get(job)] + [job for job in two if job not in one], [])
    unlike = [job for job in one if batches.read(folder, "jobs", job, "report.txt") != batches.read(other, "jobs", job, "report.txt")]
    tally.same(name + ": and so are the reports", unlike, [])


def told_once(tally, name, out, count):
    """Each job has one line, and the lines count up."""
    lines = [match.groups() for line in out.splitlines() if (match := re.match(r" *(\d+) of \d+  \w+ +(\S+)", line))]
    tally.same(name + ": one line a job", ([int(number) for number, _ in lines], len({job for _, job in lines})), (list(range(1, count + 1)), count))


class Losing:
    """Loses a node once a number of results are there. It comes back after some seconds, or where `back` is called."""

    def __init__(self, node, results, at, seconds):
        self.node, self.results, self.at, self.seconds, self.seen, self.is_back = node, results, at, seconds, None, False
        self.thread = threading.Thread(target=self.work, daemon=True)
        self.thread.start()

    def work(self):
        ends = time.time() + LONG
        while self.seen is None and time.time() < ends:
            done = len(batches.results_of(self.results)) if os.path.isdir(self.results) else 0
            if done >= self.at:
                self.node.lose()
                self.seen = done
            time.sleep(0.05)
        if self.seen is not None and self.seconds:
            time.sleep(self.seconds)
            self.node.start()
            self.is_back = True

    def back(self):
        self.thread.join()
        if self.seen is not None and not self.is_back:
            self.node.start()


def slowed(folder, program):
    """The program, made slow enough that a node can be lost in the middle of jobs."""
    return calls.stand_in(folder, "slowed.sh", program, '[ -z "$file" ] || sleep 0.1')


def by_engine(tally, name, made, plan, program, local, words):
    results = os.path.join(os.path.dirname(plan), name + ".results")
    began = time.time()
    called = calls.call("clverify-batch", plan, "--program", program, "--results", results, *words)
    print("%s: %d jobs in %.1f s" % (name, len(made), time.time() - began), flush=True)
    tally.same(name + ": its code", called.code, 1)
    told_once(tally, name, called.out, len(made))
    batches.check_made(tally, name, made, results)
    if local:
        results_alike(tally, name, results, local)
    called = calls.call("clverify-batch", plan, "--program", program, "--results", results, *words)
    tally.true(name + ": unchanged", "0 checked now, %d unchanged" % len(made) in called.out, called.out[:300])
    return results


def with_a_lost_node(tally, name, made, plan, program, node, words, seconds, is_alone):
    """A node is lost in the middle, with the jobs that run there. It comes back after some seconds, or, with 0, after the batch has ended;
    if it was the only one, its jobs are then lost, by name, and the same words go on."""
    results = os.path.join(os.path.dirname(plan), name + ", lost.results")
    slow = slowed(os.path.dirname(plan), program)
    losing = Losing(node, results, len(made) // 3, seconds)
    called = calls.call("clverify-batch", plan, "--program", slow, "--results", results, *words)
    losing.back()
    tally.true("%s, a node lost after %s of %d jobs" % (name, losing.seen, len(made)), losing.seen and losing.seen < len(made))
    told_once(tally, name + ", a node lost", called.out, len(made))
    if is_alone:
        lost = int(re.search(r"refused, (\d+) failed", called.out).group(1))
        said = len(re.findall("not checked: lost: no result came back in 2 tries", called.out))
        tally.true("%s, the node stayed away: what was lost is said by name" % name, lost == said > 0, (lost, said))
        called = calls.call("clverify-batch", plan, "--program", slow, "--results", results, *words)
        tally.true("%s, the same words go on" % name, "%d checked now, %d unchanged" % (lost, len(made) - lost) in called.out, called.out[:200])
    batches.check_made(tally, name + ", a node lost", made, results)


def killed_and_gone_on(tally, name, made, plan, program, words):
    """The batch itself is killed while its engine works; the same words go on, and nothing is lost or counted twice."""
    results = os.path.join(os.path.dirname(plan), name + ", killed.results")
    slow = slowed(os.path.dirname(plan), program)
    running = calls.started("clverify-batch", plan, "--program", slow, "--results", results, *words)
    for _ in range(len(made) // 4):
        running.stdout.readline()
    running.kill()
    running.wait()
    running.stdout.close()
    done = len(batches.results_of(results))
    called = calls.call("clverify-batch", plan, "--program", slow, "--results", results, *words)
    checked, kept = map(int, re.search(r"(\d+) checked now, (\d+) unchanged", called.out).groups())
    tally.true(name + ", killed and gone on", checked + kept == len(made) and kept >= len(made) // 4 and kept >= min(done, kept), (done, checked, kept))
    batches.check_made(tally, name + ", killed and gone on", made, results)


def run(tally, folder, program, count, at_a_time):
    made, plan = generated_jobs.make(os.path.join(folder, "made"), count, EVERY)
    few, few_plan = generated_jobs.make(os.path.join(folder, "few"), 40, EVERY)
    jobs = ("--jobs", at_a_time)
    local = by_engine(tally, "local", made, plan, program, None, jobs)
    batches.reports_are_the_programs(tally, "local", made, local, program)
    parallel(tally, folder, program, made, plan, few, few_plan, local, jobs)
    slurm(tally, folder, program, made, plan, few, few_plan, local, jobs)


def split(tally, name, folder, program, words):
    """The windows of a grid by an engine give the report of the whole grid."""
    files = [os.path.join(calls.TOP, "examples", "verify_gouge", file) for file in ("part.cls", "setup.toml")]
    due = calls.program(program, "verify", *files)
    called = calls.call("clverify-split", *files, 3, 2, 2, "--program", program, "--folder", os.path.join(folder, name + " windows"), *words)
    tally.same(name + ": windows of a grid", (called.code, called.out), (due.code, due.out))


def parallel(tally, folder, program, made, plan, few, few_plan, local, jobs):
    os.makedirs(os.path.join(folder, "ssh"))
    node = nodes.SshNode(os.path.join(folder, "ssh"))
    words = (*jobs, "--engine", "parallel", "--sshlogin", node.login)
    try:
        by_engine(tally, "parallel", made, plan, program, local, words)
        split(tally, "parallel", folder, program, words)
        with_a_lost_node(tally, "parallel", few, few_plan, program, node, words, 0, True)
        with_a_lost_node(tally, "parallel with a second host", few, few_plan, program, node, (*words, "--sshlogin", ":"), 0, False)
        killed_and_gone_on(tally, "parallel", few, few_plan, program, words)
    finally:
        node.stop()


def slurm(tally, folder, program, made, plan, few, few_plan, local, jobs):
    os.makedirs(os.path.join(folder, "slurm"))
    node = nodes.SlurmNode(os.path.join(folder, "slurm"))
    os.environ["SLURM_CONF"] = node.conf
    words = (*jobs, "--engine", "slurm")
    try:
        by_engine(tally, "slurm", made, plan, program, local, words)
        split(tally, "slurm", folder, program, words)
        with_a_lost_node(tally, "slurm", few, few_plan, program, node, words, 15, False)
        killed_and_gone_on(tally, "slurm", few, few_plan, program, words)
    finally:
        del os.environ["SLURM_CONF"]
        node.stop()


def are_there():
    return all(map(shutil.which, ("parallel", "sbatch", "slurmctld", "slurmd", "munged", "ssh-keygen"))) and os.path.exists("/usr/sbin/sshd")
