"""What the benchmarks have in common: how long a program runs, how many instructions, and which."""

import re
import subprocess
import time
from pathlib import Path

TOP = Path(__file__).resolve().parent.parent


def seconds(words):
    """How long a run took, and what it printed."""
    begun = time.monotonic()
    printed = subprocess.run(words, check=True, capture_output=True, text=True).stdout
    return time.monotonic() - begun, printed


def instructions(words):
    """How many instructions a run executed, and what it printed."""
    counting = ["valgrind", "--tool=callgrind", "--callgrind-out-file=/dev/null"]
    ran = subprocess.run([*counting, *words], check=True, capture_output=True, text=True)
    return int(re.search(r"Collected : (\d+)", ran.stderr)[1]), ran.stdout


def program():
    """The program that is measured: that of release/ where it is of these sources, else the built
    one."""
    asked = subprocess.run([TOP / "refresh", "--sources"], capture_output=True, text=True)
    said = (TOP / "release" / "from").read_text().splitlines()
    if asked.returncode == 0 and f"sources {asked.stdout.strip()}" in said:
        return TOP / "release" / "bipr"
    return TOP / "crates" / "bipr" / "out" / "bipr"
