"""generated jobs: small programs of two operations in one setup, some with a fault that was planted. What is due of each is known from how it
was made, not from what the program says."""

import os
import random
from typing import NamedTuple

from . import calls

SETUP = """# A block of 40 x 30 x 10 mm with a pocket of 5 mm. Micrometres; zero is the middle of its top.
[grid]
origin = [-19_970, -14_970, -9_970]
pitch = 2_000
step = 500
counts = [20, 15, 7]

[check]
tolerance = 20
clearance = 500
slabs = 16
depth = 6

[tool]
diameter = 8_000
radius = 0
height = 30_000

[[stock]]
box = [-20_000, -15_000, -10_000, 20_000, 15_000, 0]

[[part]]
box = [-20_000, -15_000, -10_000, 20_000, 15_000, -5_000]

[[fixture]]
box = [-20_000, -15_000, 0, -16_000, 15_000, 4_000]
"""
ELSEWHERE = SETUP.replace("[-19_970, -14_970, -9_970]", "[100_000, 100_000, 100_000]")
# What is planted, and the state and the words that are due in the summary.
FAULTS = {
    "clean": ("clean", ""),
    "gouge": ("findings", "FINISH, MILL_6, tool 2: 2 moves into the part"),
    "rapid": ("findings", "ROUGH, MILL_8, tool 1: 1 move through stock in rapid motion"),
    "clamp": ("findings", "ROUGH, MILL_8, tool 1: 2 moves too near to a fixture"),
    "arc": ("refused", "Unsupported CIRCLE"),
    "cutter": ("findings", "alarm: cutter none"),
    "empty": ("findings", "alarm: moves 0"),
    "nostock": ("findings", "alarm: total of 0"),
}


class Made(NamedTuple):
    name: str
    fault: str
    cl: str
    setup: str


def path_of(number, fault):
    """The text of a program."""
    rng = random.Random("job %d" % number)
    x, y = 8 + rng.randrange(0, 40) / 10, 6 + rng.randrange(0, 20) / 10
    rapid = "RAPID\n" if fault == "rapid" else ""
    lines = ["PARTNO JOB %d" % number, "UNITS/MM", "TOOL PATH/ROUGH,TOOL,MILL_8", "LOADTL/1"]
    lines += [] if fault == "cutter" else ["CUTTER/8,0,4,0,0,0,30"]
    lines += ["FROM/0,0,60", "RAPID", "GOTO/-8,-6,8", "FEDRAT/MMPM,300", "GOTO/-8,-6,-2", "GOTO/%.3f,-6,-2" % x]
    lines += ["GOTO/-17,-6,-2"] * (fault == "clamp")
    lines += ["CIRCLE/0,0,0,4"] * (fault == "arc")
    lines += [(rapid + "GOTO/%.3f,%.3f,-2" % (x, y)), "GOTO/-8,%.3f,-2" % y, "GOTO/-8,-6,-2", "GOTO/-8,-6,1", "RAPID", "GOTO/-8,-6,60", "END-OF-PATH"]
    lines += ["TOOL PATH/FINISH,TOOL,MILL_6", "LOADTL/2"] + ([] if fault == "cutter" else ["CUTTER/6,0,3,0,0,0,30"])
    lines += ["RAPID", "GOTO/-8,-6,8", "GOTO/-8,-6,-4.98", "GOTO/%.3f,-6,-4.98" % x]
    lines += ["GOTO/%.3f,-4,-6.5" % x] * (fault == "gouge")
    lines += ["GOTO/%.3f,-6,1" % x] if fault == "gouge" else ["GOTO/%.3f,%.3f,-4.98" % (x, y), "GOTO/%.3f,%.3f,1" % (x, y)]
    lines += ["RAPID", "GOTO/0,0,60", "END-OF-PATH", "FINI"]
    if fault == "empty":
        lines = lines[:4] + ["FINI"]
    return "\n".join(lines) + "\n"


def fault_of(number, every):
    """The fault of a job: one job in `every` has one, each fault in turn."""
    faults = [fault for fault in FAULTS if fault != "clean"]
    return faults[number // every % len(faults)] if number % every == every - 1 else "clean"


def make(folder, count, every):
    """Writes a number of jobs and their plan. The jobs, and the plan's path."""
    os.makedirs(folder, exist_ok=True)
    setups = {name: calls.write(folder, name + ".toml", text) for name, text in (("block", SETUP), ("elsewhere", ELSEWHERE))}
    made, rows = [], ["name,cl,setup"]
    for number in range(count):
        name, fault = "job_%04d" % number, fault_of(number, every)
        cl = calls.write(folder, name + ".cls", path_of(number, fault))
        setup = setups["elsewhere" if fault == "nostock" else "block"]
        made.append(Made(name, fault, cl, setup))
        rows.append("%s,%s,%s" % (name, os.path.basename(cl), os.path.basename(setup)))
    return made, calls.write(folder, "plan.csv", "\n".join(rows) + "\n")
