"""Calls of the scripts, as a user makes them."""

import contextlib
import functools
import importlib.machinery
import importlib.util
import io
import os
import subprocess
import sys
from typing import NamedTuple

HERE = os.path.dirname(os.path.dirname(os.path.abspath(__file__)))
TOP = os.path.dirname(HERE)
LONG = 600  # seconds that no call takes


class Called(NamedTuple):
    code: int
    out: str
    said: str


@functools.cache
def script(name):
    """A script of this folder, as a module."""
    loader = importlib.machinery.SourceFileLoader(name.replace("-", "_"), os.path.join(HERE, name))
    module = importlib.util.module_from_spec(importlib.util.spec_from_loader(loader.name, loader))
    loader.exec_module(module)
    return module


def call(*words, cwd=None):
    """Calls a script of this folder as its own process would, but in this one, which takes less time."""
    out, said, words, at, code = io.StringIO(), io.StringIO(), list(map(str, words)), os.getcwd(), 0
    before, sys.argv = sys.argv, [os.path.join(HERE, words[0])] + words[1:]
    try:
        os.chdir(cwd or at)
        with contextlib.redirect_stdout(out), contextlib.redirect_stderr(said):
            script(words[0]).main()
    except SystemExit as end:
        code = int(end.code or 0)
    finally:
        os.chdir(at)
        sys.argv = before
    return Called(code, out.getvalue(), said.getvalue())


def call_apart(*words, cwd=None, python=None):
    """Calls a script of this folder by its name, or by a Python, as a user does."""
    path = os.path.join(HERE, words[0])
    done = subprocess.run(([python] if python else []) + [path, *map(str, words[1:])], cwd=cwd, stdin=subprocess.DEVNULL, capture_output=True, timeout=LONG)
    return Called(done.returncode, done.stdout.decode(), done.stderr.decode())


def started(*words, cwd=None):
    """Starts a script of this folder, whose lines can be read while it runs."""
    return subprocess.Popen([sys.executable, os.path.join(HERE, words[0]), *map(str, words[1:])], cwd=cwd, stdin=subprocess.DEVNULL,
                            stdout=subprocess.PIPE, stderr=subprocess.DEVNULL, text=True)


def program(path, *words, cwd=None):
    """Calls the program itself."""
    done = subprocess.run([path, *map(str, words)], cwd=cwd, stdin=subprocess.DEVNULL, capture_output=True, timeout=LONG)
    return Called(done.returncode, done.stdout.decode(), done.stderr.decode())


def write(folder, name, text):
    path = os.path.join(folder, name)
    with open(path, "w" if isinstance(text, str) else "wb", **({"newline": ""} if isinstance(text, str) else {})) as f:
        f.write(text)
    return path


def stand_in(folder, name, program_path, body):
    """A program for tries: a shell script that does something of its own for some files, and is the real one for all others."""
    path = write(folder, name, '#!/bin/sh\nfile=${2-}\n%s\nexec "%s" "$@"\n' % (body, program_path))
    os.chmod(path, 0o755)
    return path
