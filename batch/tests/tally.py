"""Counts what passed and what failed, and says what failed."""

import difflib

LINES = 12  # of a difference that are shown


class Tally:
    def __init__(self):
        self.passed = self.failed = 0

    def true(self, name, is_so, said=""):
        """Whether a fact holds."""
        if is_so:
            self.passed += 1
        else:
            self.failed += 1
            print("FAILED: %s%s" % (name, ": " + str(said) if said else ""), flush=True)
        return is_so

    def same(self, name, got, due):
        """Whether two values are the same."""
        if got == due:
            return self.true(name, True)
        if isinstance(got, str) and isinstance(due, str):
            lines = list(difflib.unified_diff(due.splitlines(), got.splitlines(), "due", "got", lineterm=""))
            return self.true(name, False, "\n" + "\n".join(lines[:LINES]))
        return self.true(name, False, "got %.300r, due %.300r" % (got, due))
