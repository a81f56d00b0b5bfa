"""Runs yimarotu-forward."""
import contextlib
import os
import signal
import subprocess
import time
from pathlib import Path

from live_parts import servers

# No case takes so long; it is for machines with much else to do.
SECONDS = 120
LISTENS, IN_USE = "yimarotu-forward: it listens\n", "Address already in use"
# What it says where it is begun as root, and no other user is named.
ROOT = "yimarotu-forward: it keeps all rights of root: a line `user` is wanted\n"
# How many ports are tried.
TRIES = 5


def wait_until(is_so, what):
    """Waits until something is so, and gives what that was."""
    until = time.monotonic() + SECONDS
    while not (found := is_so()):
        if time.monotonic() > until:
            raise RuntimeError(f"in vain: {what}")
        time.sleep(0.01)
    return found


class Running:
    """A program that runs, and what it said on standard error."""

    def __init__(self, process, said, control, port):
        self.process, self._said, self._control, self.port = process, said, control, port
        self.pid = process.pid

    def said(self):
        return self._said.read_text(errors="replace")

    def wait_for(self, text):
        def is_said():
            if self.process.poll() is not None and text not in self.said():
                raise RuntimeError(f"it ended with {self.process.returncode}: {self.said()}")
            return text in self.said()

        wait_until(is_said, f"it says {text!r}: {self.said()!r}")

    @contextlib.contextmanager
    def stopped(self):
        """Meanwhile it does nothing."""
        os.kill(self.pid, signal.SIGSTOP)
        wait_until(lambda: "T (stopped)" in Path(f"/proc/{self.pid}/status").read_text(), "it is stopped")
        try:
            yield
        finally:
            os.kill(self.pid, signal.SIGCONT)

    def control(self, *words):
        """What yimarotu-control ends with, and says."""
        command = [self._control[0], "--socket", self._control[1], *words]
        done = subprocess.run(command, capture_output=True, text=True, timeout=SECONDS)
        return done.returncode, done.stdout, done.stderr

    def counts(self):
        """What it counts, of all its processes."""
        status, told, error = self.control("statistics")
        if status:
            raise RuntimeError(error)
        found = {}
        for word, equals, number in (line.partition("=") for line in told.splitlines()):
            if equals:
                found[word] = found.get(word, 0) + int(number)
        return found


class Daemon:
    """The program as it was built, with a folder for its files."""

    def __init__(self, out, folder, name="yimarotu-forward"):
        self.program, self._control, self.folder, self.name = out / name, out / "yimarotu-control", folder, name
        self._number = 0

    def next_control(self):
        """The path of the control socket of the program that is run next."""
        return self.folder / f"{self.name}.control{self._number}"

    def write(self, *lines):
        self._number += 1
        path = self.folder / f"{self.name}.{self._number}.conf"
        path.write_text("".join(f"{line}\n" for line in lines))
        return path

    def end_of(self, *words):
        """How it ends with these words, and what it says."""
        command = [self.program, *words]
        done = subprocess.run(command, stdin=subprocess.DEVNULL, capture_output=True, text=True, timeout=SECONDS)
        return done.returncode, done.stdout, done.stderr

    @contextlib.contextmanager
    def running(self, *lines, port=None, ends=0, **how):
        """Runs it over lines of settings, at this port or at one that is free. It is ended by its id."""
        running = self._begin(lines, port, how)
        try:
            yield running
        finally:
            running.process.terminate()
            running.process.wait(SECONDS)
        if ends is not None and (running.process.returncode != ends or "Sanitizer" in running.said()):
            raise RuntimeError(f"{self.name} ended with {running.process.returncode}: {running.said()}")

    def _begin(self, lines, port, how):
        """Begins it until it listens. A port that was free may be another's by then, and then it takes the next one."""
        for tries_left in reversed(range(1 if port else TRIES)):
            running = self._start(lines, port or servers.free_port(), **how)
            try:
                running.wait_for(LISTENS)
                return running
            except RuntimeError:
                running.process.kill()
                running.process.wait(SECONDS)
                if not tries_left or IN_USE not in running.said():
                    raise

    def _start(self, lines, port, listens=("127.0.0.1",), before=(), **how):
        control = self.next_control()
        own = [f"listen {address} {port}" for address in listens] + [f"control {control}", "hosts none"]
        path = self.write(*own, *lines)
        said = path.with_suffix(".said")
        with said.open("wb") as error:
            words = [*before, self.program, "--config", path]
            process = subprocess.Popen(words, stdin=subprocess.DEVNULL, stdout=error, stderr=error, **how)
        running = Running(process, said, (self._control, control), port)
        running.path = path
        return running

    def over(self, server, *lines, **how):
        """The same over one server."""
        return self.running(f"server 127.0.0.1 {server.port}", *lines, **how)

    @contextlib.contextmanager
    def saying_nothing(self, *lines, **how):
        """The same, which has to say nothing but that it listens."""
        with self.running(*lines, **how) as running:
            yield running
        if running.said().replace(ROOT, "") != LISTENS:
            raise RuntimeError(running.said())
