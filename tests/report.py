"""What the tests in Python share: which program they run, and how they end.

The program is the first argument, or the one that CRONSIM names, or the one that ./cronsim runs. A
test ends with the line `NAME: N passed, M failed, K skipped`. A line `NAME: skipped WHAT: WHY`
above it names what was left out. With QUICK=1 a test runs fewer cases, since a build without proofs
is slow.
"""
import json
import os
import re
import subprocess
import sys
from datetime import datetime
from pathlib import Path

ROOT = Path(__file__).resolve().parent.parent
# How many runs of the program go side by side, and for how many seconds a run may last.
WORKERS = 2
PATIENCE = 1800
# A run over more instants than these takes half a minute on a build without proofs.
MOST_INSTANTS = 600
IS_QUICK = os.environ.get("QUICK") == "1"
# Where a fault of YAML stands, as the program itself says.
PLACE = re.compile(r"^-:\d+:\d+: .*\n", re.M)
BUILT = 'root=$1; . "$root/tools/common"; built'


def program(given=None):
    """The path of the program under test; of none where nothing is built."""
    if given or os.environ.get("CRONSIM"):
        return Path(given or os.environ["CRONSIM"]).resolve()
    words = ["bash", "-c", BUILT, "bash", str(ROOT)]
    found = subprocess.run(words, capture_output=True, text=True).stdout.strip()
    if not found:
        print(
            "no program is built from these sources: ./cronsim --help builds one", file=sys.stderr
        )
    return Path(found or ROOT / "no program")


def few(usual, quick):
    """How many cases to run."""
    return quick if IS_QUICK else usual


def is_long(row):
    """Whether a row runs a scenario over many instants."""
    if row["words"][:1] != ["run"] or row["status"] != 0 or not row["input"]:
        return False
    try:
        said = json.loads(row["input"])
    except ValueError:
        # (YAML, whose rows are short)
        return False
    start, end = (
        datetime.fromisoformat(said[it].replace("Z", "+00:00")) for it in ("start", "end")
    )
    return (end - start).total_seconds() / said.get("stepSeconds", 60) > MOST_INSTANTS


def moment_of(words):
    """What the words say of `--now`: its value, or None where they don't name it."""
    for word, value in zip(words, [*words[1:], ""]):
        if word == "--now" or word.startswith("--now="):
            return value if word == "--now" else word.partition("=")[2]
    return None


def can_be_asked(row):
    """Whether the built program can be given the row's words."""
    return not any("\0" in word for word in row["words"])


def left_out(usual, quick, what):
    """What QUICK=1 leaves out, as `close` takes it."""
    why = "a build without proofs is slow; tests/run has them"
    return [(f"{usual - quick} of {usual} {what}", why)] if IS_QUICK and quick < usual else []


def close(name, ran, wrong, skips=()):
    """Prints what was left out and the closing line, and ends the test."""
    for what, why in skips:
        print(f"{name}: skipped {what}: {why}")
    print(f"{name}: {ran - wrong} passed, {wrong} failed, {len(skips)} skipped")
    sys.exit(wrong > 0)
