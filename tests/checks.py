"""Counts the checks of a script, and shows those that fail."""

SHOWN = 20


class Checks:
    """The checks of the script `name`: call it with what must hold and what that says."""

    def __init__(self, name):
        self.name = name
        self.passed = self.failed = 0

    def __call__(self, holds, what):
        if holds:
            self.passed += 1
            return
        self.failed += 1
        if self.failed <= SHOWN:
            print(f"FAILED {what}"[:2000], flush=True)

    def end(self):
        """Prints the last line, which `tests/all.sh` reads. The exit status: 1 if a check failed, or if there was none."""
        print(f"{self.name}: {self.passed} passed, {self.failed} failed")
        return int(self.failed != 0 or self.passed == 0)
