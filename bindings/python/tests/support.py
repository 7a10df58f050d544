"""What the tests share: samples, changed messages, and the lines that the program writes of them.

CAPVET_PROGRAM is the program; CAPVET_CASES is how many cases of each kind are made."""
import os
import random
import shutil
import struct
import subprocess
import sys
from pathlib import Path

import pytest

import capvet

HERE = Path(__file__).resolve()
# (in a source distribution the files of the repository are below this folder)
TOP = HERE.parent / "shared" if (HERE.parent / "shared").exists() else HERE.parents[3]
sys.path.insert(0, str(TOP / "tests/shared"))
from made import changed, made_up, samples  # noqa: E402

PROGRAM = os.environ.get("CAPVET_PROGRAM") or shutil.which("capvet") or str(TOP / "build/capvet")
# How long a test waits for another process. Only a hang takes longer, however busy the machine is.
SECONDS = 180
CASES = int(os.environ.get("CAPVET_CASES", "1000"))
FILES = sorted((TOP / "examples").glob("*.bin"))
LAX = capvet.Limits(allow_nonstrict=True, allow_amplified=True)
STRICT = ["--strict", "--unamplified"]


def program(*words, data=None):
    """What the program writes on both outputs, and its status."""
    if not Path(PROGRAM).exists():
        pytest.skip("no program capvet: it has to be on the path or in CAPVET_PROGRAM")
    ran = subprocess.run([PROGRAM, *map(str, words)], input=data, capture_output=True)
    return ran.stdout, ran.stderr.decode(), ran.returncode


def line(verdict):
    """The line of `vet` about a message."""
    number = verdict.number
    if isinstance(verdict, capvet.Refusal):
        return f"message {number}: {verdict}\n"
    report = verdict.report
    return (f"message {number}: accepted charge {report.charge} depth {report.depth} pointers {report.pointers} "
            f"caps {report.capabilities}\n")


def lines(messages):
    """The lines of `vet` about messages, and the reason why they end, if there is one."""
    text = ""
    try:
        for message in messages:
            text += line(message)
    except capvet.FrameError as error:
        return text.encode(), error.reason
    return text.encode(), None


def bytes_of(verdict):
    """The bytes of a message that is accepted or refused."""
    return bytes(verdict.unvetted if isinstance(verdict, capvet.Refusal) else verdict.data)


def many(count, seed=7):
    """Messages of a fixed seed: small samples with changed bytes, and messages of few words."""
    chance = random.Random(seed)
    small = [message for message in samples() if len(message) < 1000]
    return [made_up(chance) if chance.randrange(3) == 0 else changed(chance.choice(small), chance) for _ in range(count)]


def framed(*words):
    """A message of one segment."""
    return struct.pack(f"<II{len(words)}Q", 0, len(words), *words)
