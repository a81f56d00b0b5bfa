"""Counts cases, and prints a line for each."""
import traceback
from contextlib import contextmanager


class Cases:
    def __init__(self):
        self.passed = self.failed = 0

    def tell(self, name, is_right, why):
        self.passed, self.failed = self.passed + bool(is_right), self.failed + (not is_right)
        print(f"ok {name}" if is_right else f"FAILED {name}: {why}", flush=True)

    def equal(self, name, found, wanted):
        self.tell(name, found == wanted, f"{found!r}, not {wanted!r}")

    @contextmanager
    def guard(self, name):
        """What cannot even be tried fails as a case of this name, and the cases after it go on."""
        try:
            yield
        except Exception as error:
            traceback.print_exc()
            self.tell(name, False, repr(error))
