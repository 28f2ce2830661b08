"""Counts checks, each printed with what was found if it is wrong."""


class Checks:
    """How many checks passed, and how many failed."""

    def __init__(self):
        self.passed, self.failed = 0, 0

    def check(self, what, is_right, found=""):
        self.passed, self.failed = self.passed + bool(is_right), self.failed + (not is_right)
        print(f"{'ok' if is_right else 'WRONG'}: {what}{'' if is_right else f': {found!s:.1500}'}", flush=True)

    def end(self):
        """Prints the last line. Returns the exit status."""
        print(f"{self.passed} passed, {self.failed} failed")
        return 1 if self.failed else 0
