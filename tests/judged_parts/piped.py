"""Programs whose lines are read while more may come. None is waited for without end."""
import os
import select
import subprocess
import time
from contextlib import contextmanager

# What takes longer will not come.
SECONDS = 60


@contextmanager
def running(words, **how):
    """A program with pipes, which is ended where it has not ended by itself."""
    # (with it any program of Python writes each line at once)
    environment = {name: value for name, value in os.environ.items() if name != "PYTHONUNBUFFERED"}
    piped = {"stdin": subprocess.PIPE, "stdout": subprocess.PIPE, "bufsize": 0, "env": environment}
    with subprocess.Popen(words, **piped, **how) as process:
        try:
            yield process
        finally:
            process.kill()


def line_within(stream, seconds=SECONDS):
    """The next line of a pipe without a buffer, or what there is of it by then."""
    until, line = time.monotonic() + seconds, b""
    while not line.endswith(b"\n") and select.select([stream], [], [], max(0, until - time.monotonic()))[0]:
        octet = stream.read(1)
        if not octet:
            break
        line += octet
    return line.decode()


def ended(process, seconds=SECONDS):
    """Its status, and what else it says on both ways once nothing more goes in."""
    said, complaint = process.communicate(timeout=seconds)
    return process.returncode, said.decode(), (complaint or b"").decode()
