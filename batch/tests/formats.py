"""Tests of what is written for others, by their own readers: SARIF by the object model of python3-sarif-python-om, JUnit by
python3-junitparser, PLY and STL by python3-vtk9.

No JSON schema of SARIF 2.1.0 and no schema of JUnit was found among Debian's packages. The object model was generated from the schema:
its classes have each member's name, and those without a default are required. So every object is held against its class here."""

import importlib
import json
import os
import re

from . import calls, generated_jobs

# The class of each member that holds objects.
CLASSES = {"runs": "Run", "tool": "Tool", "driver": "ToolComponent", "rules": "ReportingDescriptor", "invocations": "Invocation", "results": "Result",
           "message": "Message", "locations": "Location", "physicalLocation": "PhysicalLocation", "artifactLocation": "ArtifactLocation",
           "region": "Region", "shortDescription": "MultiformatMessageString", "fullDescription": "MultiformatMessageString"}
VALUES = {"version": ["2.1.0"], "level": ["none", "note", "warning", "error"], "columnKind": ["utf16CodeUnits", "unicodeCodePoints"]}
WHOLE = ("startLine", "ruleIndex")


def wrong_in(model, name, value, place):
    """What is wrong with an object, by the class of that name."""
    members = {field.metadata["schema_property_name"]: field for field in getattr(model, name).__attrs_attrs__}
    nothing = importlib.import_module("attr").NOTHING
    yield from ("%s: no %s" % (place, key) for key, field in members.items() if field.default is nothing and key not in value)
    for key, each in value.items():
        own = "%s.%s" % (place, key)
        if key not in members and key != "$schema":
            yield "%s isn't known" % own
        elif key in CLASSES:
            for one in each if isinstance(each, list) else [each]:
                yield from wrong_in(model, CLASSES[key], one, own) if isinstance(one, dict) else [own + " isn't an object"]
        elif isinstance(each, (dict, list)) and key != "properties":
            yield "%s: nothing is said here of its class" % own
        elif each not in VALUES.get(key, [each]) or key in WHOLE and (type(each) is not int or each < 0):
            yield "%s is %r" % (own, each)


def reports(tally, folder, program):
    made, plan = generated_jobs.make(os.path.join(folder, "made"), 32, 2)
    calls.call("clverify-batch", plan, "--program", program)
    results = os.path.join(folder, "made", "plan.results")
    with open(os.path.join(results, "results.sarif"), encoding="utf-8") as f:
        log = json.load(f)
    model = importlib.import_module("sarif_om")
    tally.same("SARIF by its object model", list(wrong_in(model, "SarifLog", log, "log")), [])
    tally.true("a SARIF that is wrong", len(list(wrong_in(model, "SarifLog", {"version": "2.0", "runs": [{"results": [{"text": 1}]}]}, "log"))) >= 4)
    suites = importlib.import_module("junitparser").JUnitXml.fromfile(os.path.join(results, "junit.xml"))
    cases = [case for suite in suites for case in suite]
    counts = (suites.tests, suites.failures, suites.errors, len(cases), sum(bool(case.result) for case in cases))
    states = [generated_jobs.FAULTS[job.fault][0] for job in made]
    tally.same("JUnit by junitparser", counts, (32, states.count("findings"), states.count("refused"), 32, 32 - states.count("clean")))


def points_of(reader, path):
    reader.SetFileName(path)
    reader.Update()
    return reader.GetOutput().GetNumberOfPoints(), reader.GetOutput().GetNumberOfCells()


def viewers(tally, folder):
    vtk = importlib.import_module("vtk")
    grid, rays = "grid -20000 0 0 1000 250 40 30 20", []
    for i in range(40):
        rays += ["ray Z %d %d %d %d 60 %d" % (i, j, i % 7, 10 + j, 61 + (i + j) % 19) for j in range(30)]
    count = sum(int(b) - int(a) for ray in rays for a, b in zip(ray.split()[4::2], ray.split()[5::2]))
    path = calls.write(folder, "left.stock", "\n".join(["stock 1", grid] + rays + ["end"]) + "\n")
    for words in ((), ("--text",)):
        called = calls.call("points-to-ply", path, *words)
        told = int(re.search(r"(\d+) points", called.out).group(1))
        read, _ = points_of(vtk.vtkPLYReader(), os.path.join(folder, "left.ply"))
        tally.same("PLY by VTK %s" % " ".join(words), (told, read), (count, count))
    calls.call("setup-to-off", os.path.join(calls.TOP, "examples", "plate", "setup.toml"), "--folder", folder, "--format", "stl")
    for name, corners, facets in (("stock", 8, 12), ("fixture", 18, 28)):
        reader = vtk.vtkSTLReader()
        got = points_of(reader, os.path.join(folder, name + ".stl"))
        edges = vtk.vtkFeatureEdges()
        edges.SetInputConnection(reader.GetOutputPort())
        edges.FeatureEdgesOff()
        edges.ManifoldEdgesOff()
        edges.Update()
        tally.same("STL of the %s by VTK" % name, (*got, edges.GetOutput().GetNumberOfCells()), (corners, facets, 0))


def run(tally, folder, program):
    reports(tally, folder, program)
    viewers(tally, folder)
