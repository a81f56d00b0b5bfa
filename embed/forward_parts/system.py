"""In a network of its own (unshare(1)), at port 53: many addresses, and programs that resolve by resolv.conf."""
import shutil
import subprocess
import sys
from pathlib import Path

from . import daemon

INSIDE = Path(__file__).resolve().parent / "inside.py"
UNITS = Path(__file__).resolve().parent.parent / "c/forward"


def in_a_network(cases, run):
    """The cases of inside.py, which says them in its last line."""
    words = ["unshare", "--mount", "--net", sys.executable, INSIDE, run.program.parent, run.folder, run.name]
    done = subprocess.run(words, stdin=subprocess.DEVNULL, capture_output=True, text=True, timeout=daemon.SECONDS * 3)
    lines = done.stdout.splitlines()
    counts = [int(word) for word in lines[-1].split() if word.isdigit()] if lines else []
    if len(counts) != 2:
        cases.tell("a network of its own", False, done.stdout + done.stderr)
        return
    print("\n".join(lines[:-1]))
    cases.passed, cases.failed = cases.passed + counts[0], cases.failed + counts[1]


def units(cases, run):
    """What systemd says of the unit files, where it is there."""
    if run.name.endswith(".sanitized"):
        return
    if shutil.which("systemd-analyze") is None:
        print("systemd-analyze is not there: the unit files are not looked at")
        return
    for name in ("yimarotu-forward.service", "yimarotu-forward.socket"):
        place = run.folder / name
        place.write_text((UNITS / name).read_text().replace("/usr/local/sbin/yimarotu-forward", str(run.program)))
    for name in ("yimarotu-forward.service", "yimarotu-forward.socket"):
        words = ["systemd-analyze", "verify", "--man=no", run.folder / name]
        done = subprocess.run(words, capture_output=True, text=True, timeout=daemon.SECONDS)
        cases.equal(f"systemd-analyze verify {name}", (done.returncode, done.stdout + done.stderr), (0, ""))


ALL = (in_a_network, units)
