"""Which program is run: the one that is named, the one of this copy of the repository, or the one on the PATH."""

import os
import shutil
import subprocess

TOP = os.path.dirname(os.path.dirname(os.path.dirname(os.path.abspath(__file__))))
BUILT = os.path.join(TOP, "crates", "clverify_main", "out", "clverify_main")
USAGE = "usage: clverify "
USAGE_CODE = 2


class NoProgram(Exception):
    """No program can be run, and why."""


def says_usage(program, said=subprocess.DEVNULL):
    """Whether a program is a clverify: called without words it writes the usage line."""
    try:
        done = subprocess.run([program], stdin=subprocess.DEVNULL, stdout=subprocess.PIPE, stderr=said)
    except OSError as why:
        raise NoProgram("%s: %s" % (program, why)) from None
    return done.returncode == USAGE_CODE and done.stdout.startswith(USAGE.encode())


def find(name):
    """The path of the program. Without a name ./clverify builds the one of this repository, where it isn't built yet."""
    if name:
        path = shutil.which(name) or ""
        if not path:
            raise NoProgram("%s isn't there, or can't be run" % name)
        path = os.path.abspath(path)
    elif os.path.exists(os.path.join(TOP, "clverify")):
        wrapper = os.path.join(TOP, "clverify")
        # It may have to prove and build, which takes long: what it says of that is shown.
        if not says_usage(wrapper, None):
            raise NoProgram("%s has no program: see what it says, or name one by --program" % wrapper)
        path = BUILT
    else:
        path = shutil.which("clverify") or ""
        if not path:
            raise NoProgram("no clverify on the PATH: name one by --program")
    if not says_usage(path):
        raise NoProgram("%s isn't clverify: called without words it doesn't write the usage line" % path)
    return path
