"""Runs the tools."""
import os
import subprocess
from pathlib import Path

from .packages import PYTHON

TOOLS = Path(__file__).resolve().parents[2] / "tools"
SECONDS = 120
ENVIRONMENT = {**os.environ, "PYTHONDONTWRITEBYTECODE": "1"}


def run(tool, *words):
    """The status, standard output and standard error of a tool."""
    words = [PYTHON, str(TOOLS / tool), *map(str, words)]
    how = {"stdin": subprocess.DEVNULL, "capture_output": True, "text": True, "env": ENVIRONMENT}
    done = subprocess.run(words, timeout=SECONDS, **how)
    return done.returncode, done.stdout, done.stderr


def replayed(program, *files):
    done = subprocess.run([program, *files], stdin=subprocess.DEVNULL, capture_output=True, timeout=SECONDS, text=True)
    return done.stdout if done.returncode == 0 else f"status {done.returncode}: {done.stderr}"
