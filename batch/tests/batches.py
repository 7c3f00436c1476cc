"""Tests of clverify-batch: states, findings by operation and tool, stamps, what is kept, and what is lost."""

import glob
import json
import os
import re
import shutil
import xml.etree.ElementTree as xml

from lib import engines, jobs, plans, stamps

from . import calls, generated_jobs

EXAMPLES = os.path.join(calls.TOP, "examples")
NOTED = """$$ ROUGHING
PPRINT OPERATION NAME : Pocketing.1
CUTTER/8,0,4,0,0,0,30
LOADTL/3,ADJUST,3
FROM/0,0,60
GOTO/-8,-6,5
GOTO/-8,-6,-7
PPRINT/ SECOND
TLDATA/MILL,8.0,0.0,30.0
GOTO/8,-6,-7
GOTO/8,-6,20
FINI
PPRINT AFTER FINI
"""
# A plan, and what is said of it.
WRONG_PLANS = [
    ("", "no head"),
    ("name,cl\na,b\n", "the columns are"),
    ("name,cl,setup,speed\na,b,c,1\n", "the columns are"),
    ("name,cl,setup\n", "no jobs"),
    ("name,cl,setup\na,,c\n", "line 2: no cl"),
    ("name,cl,setup\n# a note\na,b,c,d\n", "line 3: more columns than the head has"),
    ("name,cl,setup\na b,b,c\n", "line 2: the name 'a b'"),
    ("name,cl,setup\n../a,b,c\n", "line 2: the name '../a'"),
    ("name,cl,setup\na,b,c\nA,b,c\n", "line 3: the name 'A' stands in line 2 already"),
    ('name,cl,setup\na,"b,c\n', "plan.csv"),
]
WRONG_ALARMS = [("x = 1\n", "[[alarm]]"), ('[[alarm]]\nname = "a"\n', "alarm 1: it needs"), ("[[alarm]\n", "alarms.toml"),
                ('[[alarm]]\nname = "a"\ntext = "report"\nline = "("\n', "no regular expression"),
                ('[[alarm]]\nname = "a"\ntext = "page"\nline = "a"\n', "text is 'report' or 'listing'")]


def results_of(folder):
    """The results in a folder, by job."""
    found = {}
    for path in glob.glob(os.path.join(folder, "jobs", "*", "result.json")):
        with open(path) as f:
            found[os.path.basename(os.path.dirname(path))] = json.load(f)
    return found


def read(*path):
    with open(os.path.join(*path), encoding="utf-8") as f:
        return f.read()


def checked_now(called):
    """How many jobs a batch checked, and how many it took as they were; or what it said in place of that."""
    match = re.search(r"(\d+) checked now, (\d+) unchanged", called.out)
    return tuple(map(int, match.groups())) if match else called


def check_made(tally, name, made, folder):
    """The results of generated jobs are those that were planted, each once, and nothing else."""
    results = results_of(folder)
    tally.same(name + ": the jobs", sorted(results), sorted(job.name for job in made))
    wrong = [job.name for job in made if results.get(job.name, {}).get("state") != generated_jobs.FAULTS[job.fault][0]]
    tally.same(name + ": the states", wrong, [])
    text = read(folder, "summary.txt")
    parts = {part.split(":")[0]: part for part in text.split("\n\n")[1:]}
    unlike = [job.name for job in made if (generated_jobs.FAULTS[job.fault][1] not in parts.get(job.name, "")) or (job.fault == "clean") != (job.name not in parts)]
    tally.same(name + ": the summary", unlike, [])
    tally.same(name + ": nothing in part", glob.glob(os.path.join(folder, "jobs", "*", "*.part")), [])
    counts = {state: sum(generated_jobs.FAULTS[job.fault][0] == state for job in made) for state in ("clean", "findings", "refused")}
    tally.true(name + ": the count", text.startswith("%d jobs: %d clean, %d with findings, %d refused, 0 failed\n" % (len(made), *counts.values())), text[:80])


def reports_are_the_programs(tally, name, made, folder, program):
    """Each report is what the program itself writes."""
    unlike = [job.name for job in made if read(folder, "jobs", job.name, "report.txt") != calls.program(program, "verify", job.cl, job.setup).out]
    tally.same(name + ": the reports", unlike, [])


def states(tally, folder, program):
    made, plan = generated_jobs.make(os.path.join(folder, "made"), 16, 2)
    results = os.path.join(folder, "made", "plan.results")
    called = calls.call("clverify-batch", plan, "--program", program, "--jobs", 2)
    tally.same("a batch: its code", called.code, 1)
    check_made(tally, "a batch", made, results)
    reports_are_the_programs(tally, "a batch", made, results, program)
    lines = [line for line in called.out.splitlines() if re.match(r" *\d+ of 16 ", line)]
    tally.same("one line a job", [line.split()[0] for line in lines], [str(n) for n in range(1, 17)])
    outputs_agree(tally, made, results)
    unchanged(tally, made, plan, results, program)


def outputs_agree(tally, made, results):
    """JUnit and SARIF say the same."""
    suite = xml.parse(os.path.join(results, "junit.xml")).getroot().find("testsuite")
    cases = {case.get("name"): [each.tag for each in case] for case in suite}
    tags = {"clean": [], "findings": ["failure"], "refused": ["error"]}
    tally.same("JUnit: the cases", cases, {job.name: tags[generated_jobs.FAULTS[job.fault][0]] for job in made})
    tally.same("JUnit: the counts", [suite.get(key) for key in ("tests", "failures", "errors")], ["16", "7", "1"])
    run = json.loads(read(results, "results.sarif"))["runs"][0]
    found = {(result["ruleId"], result["message"]["text"].split(":")[0]) for result in run["results"]}
    due = {"gouge": "part", "rapid": "rapid", "clamp": "fixture", "arc": "refused", "cutter": "alarm", "empty": "alarm", "nostock": "alarm"}
    tally.same("SARIF: the results", found, {(due[job.fault], job.name) for job in made if job.fault != "clean"})
    rules = [rule["id"] for rule in run["tool"]["driver"]["rules"]]
    tally.true("SARIF: the rules", all(rules[result["ruleIndex"]] == result["ruleId"] for result in run["results"]))


def unchanged(tally, made, plan, results, program):
    """What hasn't changed isn't checked again; what has, is."""
    def again(name, due, *words):
        called = calls.call("clverify-batch", plan, "--program", program, *words)
        tally.same(name, checked_now(called), (due, 16 - due))

    again("nothing has changed", 0)
    with open(made[3].cl, "a") as f:
        f.write("$$ a note\n")
    again("one file has changed", 1)
    with open(os.path.join(results, "jobs", made[4].name, "report.txt"), "a") as f:
        f.write("\n")
    again("one report was changed", 1)
    calls.write(os.path.join(results, "jobs", made[5].name), "result.json", '{"edition": 1, "job')
    again("one result was cut off", 1)
    alarms = calls.write(os.path.dirname(plan), "none.toml", "")
    called = calls.call("clverify-batch", plan, "--program", program, "--alarms", alarms)
    tally.true("a shop's own list of alarms", "11 clean, 4 with findings" in called.out, called.out.splitlines()[-40:])
    again("the list of alarms has changed", 16)
    again("all of them again", 16, "--again")
    check_made(tally, "after all that", made, results)


def notes(tally, folder, program):
    """Findings by operation and tool, and the four alarms with what they pass over."""
    calls.write(folder, "block.toml", generated_jobs.SETUP)
    calls.write(folder, "noted.cls", NOTED)
    calls.write(folder, "ahead.cls", NOTED.replace("CUTTER/8,0,4,0,0,0,30\n", "").replace("GOTO/-8,-6,-7", "CUTTER/8,0,4,0,0,0,30").replace(
        "LOADTL/3,ADJUST,3\nFROM/0,0,60\nGOTO/-8,-6,5\n", "FROM/0,0,60\nGOTO/-8,-6,5\nLOADTL/3,ADJUST,3\n").replace(",-7", ",2"))
    calls.write(folder, "undone.script", "run 1 2\nundo 2\n")
    rows = "name;cl;setup;script\nnoted;noted.cls;block.toml;\nahead;ahead.cls;block.toml;\nundone;noted.cls;block.toml;undone.script\n"
    plan = calls.write(folder, "noted.csv", "\ufeff" + rows)
    called = calls.call("clverify-batch", plan, "--program", program, "--github", "--top", folder)
    for line in ("  OPERATION NAME : Pocketing.1, tool 3: 1 move into the part", "  SECOND, tool 3, MILL 8.0 0.0 30.0: 2 moves into the part",
                 "    moves 4 left 0 passed 4", "3 jobs: 1 clean, 2 with findings, 0 refused, 0 failed"):
        tally.true("notes: %s" % line.strip(), line in called.out, called.out)
    tally.true("an annotation", "::error file=noted.cls,line=7,title=clverify%3A noted::OPERATION NAME : Pocketing.1, tool 3: 1 move into" in called.out, called.out)
    tally.true("a move before the first tool change", "cutter none" in calls.program(program, "list", os.path.join(folder, "ahead.cls")).out)


def failures(tally, folder, program):
    """A job that is killed, finds no memory, takes too long or isn't there is one failed job, by name."""
    made, plan = generated_jobs.make(os.path.join(folder, "failing"), 6, 7)
    body = 'case $file in *0001*) kill -9 $$ ;; *0002*) exit 6 ;; *0003*) exec sleep 30 ;; *0004*) echo nonsense; exit 0 ;; esac'
    fake = calls.stand_in(folder, "failing.sh", program, body)
    os.remove(made[5].cl)
    called = calls.call("clverify-batch", plan, "--program", fake, "--seconds", 1)
    tally.same("failures: the code", called.code, 1)
    for line in ("not checked: killed by signal 9 (SIGKILL)", "not checked: no memory was found", "not checked: it took more than 1 seconds",
                 "not checked: the text isn't a whole report", "not checked: a file couldn't be read: %s" % made[5].cl,
                 "6 jobs: 1 clean, 0 with findings, 0 refused, 5 failed"):
        tally.true("failures: %s" % line, line in called.out, called.out)
    path_of = os.path.join(folder, "failing", "plan.results")
    tally.same("failures are tried again", checked_now(calls.call("clverify-batch", plan, "--program", program)), (6, 0))
    tally.same("what a failure left", {name: each["state"] for name, each in results_of(path_of).items()},
               {job.name: "failed" if job is made[5] else "clean" for job in made})


def stopped(tally, folder, program):
    """A batch that is killed goes on where it was, and keeps others out while it runs. From the fifth job on the program waits for a file."""
    made, plan = generated_jobs.make(os.path.join(folder, "stopped"), 14, 4)
    results, go = os.path.join(folder, "stopped", "plan.results"), os.path.join(folder, "go")
    slow = calls.stand_in(folder, "slow.sh", program, 'case $file in ""|*000[0-3]*) ;; *) while [ ! -e "%s" ]; do sleep 0.05; done ;; esac' % go)
    running = calls.started("clverify-batch", plan, "--program", slow, "--jobs", 2)
    told = [running.stdout.readline().split()[4] for _ in range(4)]
    other = calls.call("clverify-batch", plan, "--program", slow)
    tally.true("a second batch in the folder", other.code == 2 and "another batch is at work" in other.said, other.said)
    running.kill()
    running.wait()
    running.stdout.close()
    done = results_of(results)
    tally.same("killed in the middle", (sorted(told), sorted(done)), (["job_%04d" % n for n in range(4)],) * 2)
    # What the program still wrote for a batch that isn't there any more is no result.
    calls.write(folder, "go", "")
    called = calls.call("clverify-batch", plan, "--program", slow, "--jobs", 4)
    tally.same("it goes on", checked_now(called), (10, 4))
    tally.same("what was done isn't done again", {name: results_of(results)[name] for name in done}, done)
    check_made(tally, "killed and gone on", made, results)


def shares(tally, folder, program):
    """What an engine starts: it takes names or a share, leaves what is done, and knows another program from the batch's."""
    made, plan = generated_jobs.make(os.path.join(folder, "shared"), 5, 9)
    results, own = os.path.join(folder, "shared", "results"), calls.stand_in(folder, "own.sh", program, "")
    settings = jobs.Settings(own, stamps.sum_of(own), [], "")
    engines.write_queue(results, plans.read_plan(plan), settings)
    queue = engines.queue_path(results)
    tally.same("run-one by names", (calls.call("run-one", queue, made[1].name).code, sorted(results_of(results))), (0, [made[1].name]))
    before = results_of(results)[made[1].name]
    tally.same("run-one by a share", calls.call("run-one", queue, "--share", 1, 2).code, 0)
    tally.same("its share", sorted(results_of(results)), [made[1].name, made[3].name])
    tally.same("what is done is left", results_of(results)[made[1].name], before)
    calls.stand_in(folder, "own.sh", program, "# another program")
    calls.call("run-one", queue, made[0].name)
    tally.same("another program", results_of(results)[made[0].name]["why"], "the program on this machine isn't the one of the batch")


def refusals(tally, folder, program):
    """Plans, alarms and programs that can't be taken are named, and nothing runs."""
    for text, words in WRONG_PLANS:
        called = calls.call("clverify-batch", calls.write(folder, "plan.csv", text), "--program", program)
        tally.true("a plan: %s" % words, called.code == 2 and words in called.said and "Traceback" not in called.said, called.said)
    plan = calls.write(folder, "plan.csv", "name,cl,setup\na,b,c\n")
    for text, words in WRONG_ALARMS:
        called = calls.call("clverify-batch", plan, "--program", program, "--alarms", calls.write(folder, "alarms.toml", text))
        tally.true("alarms: %s" % words, called.code == 2 and words in called.said, called.said)
    for name, words in (("nothing-of-that-name", "isn't there"), ("/bin/true", "isn't clverify")):
        called = calls.call("clverify-batch", plan, "--program", name)
        tally.true("a program: %s" % words, called.code == 2 and words in called.said, called.said)
    shutil.rmtree(os.path.join(folder, "plan.results"), ignore_errors=True)


def faults(tally, folder, program):
    """All faults of a file, and where each stands."""
    text = "PARTNO X\nCIRCLE/0,0,0,1\nFROM/0,0,$\n0,x\nGODLTA/1,1,1\nCUTTER/4,2,0,2,0,0,1\nGOTO/1,1,1\nGOTO/1,1\nGOTO/2,2,2\n" \
           "CUTTER/4,2,0,2,0,0,1\r\nGOTO/2,2,2\nGOTO/1,2,3,$\n"
    called = calls.call("faults", calls.write(folder, "faults.cls", text), "--program", program)
    told = re.findall(r"^cl line (\d+): (.*)$", called.out, re.M)
    due = [("2", "Unsupported CIRCLE"), ("3", "ParamCount"), ("5", "NoPosition"), ("8", "ParamCount"), ("12", "DanglingDollar"),
           ("9", "CutterHeight"), ("11", "CutterHeight")]
    tally.same("faults: each of them", (called.code, told), (1, due))
    tally.true("faults: what was cut out", "    cut out: line 3 to 4: FROM/0,0,$ 0,x\n" in called.out and "line 10: CUTTER" in called.out, called.out)
    called = calls.call("faults", os.path.join(folder, "faults.cls"), "--program", program, "--most", 2)
    tally.true("faults: at most two", called.code == 1 and "2 faults at least" in called.out, called.out)
    called = calls.call("faults", os.path.join(EXAMPLES, "cam_nx", "part.cls"), "--program", program)
    tally.same("faults: none", (called.code, called.out), (0, "no faults\n"))
    for path in sorted(glob.glob(os.path.join(EXAMPLES, "refused", "*.cls"))):
        called = calls.call("faults", path, "--program", program)
        first = read(path).split("\n")[0].removeprefix("$$ refused: ")
        tally.true("faults: %s" % os.path.basename(path), called.code == 1 and called.out.startswith(first + "\n"), called.out)
    tally.same("faults: no such file", calls.call("faults", os.path.join(folder, "no.cls"), "--program", program).code, 4)


def run(tally, folder, program):
    for each in (states, notes, failures, stopped, shares, refusals, faults):
        own = os.path.join(folder, each.__name__)
        os.makedirs(own)
        each(tally, own, program)
