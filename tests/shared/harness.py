"""What the test scripts share: the built program and archive, cases and how many of them passed, commands, and the frames of
messages.

A case is one call of `compare` or `expect`. Each failure is printed as it comes. `ended` prints the last line of a script,
'N passed, M failed', and returns its status. Cases may come from several threads.

A message is written by its segments: `framed("0000000000000100 | 2a00000000000000")` has the words of two segments, by their
digits from the first byte on. `framed([1 << 48, 0], [42])` has them as numbers, and `framed(bytes(8))` as bytes.
"""
import re
import struct
import subprocess
import sys
import tempfile
from pathlib import Path
from threading import RLock

import amount  # noqa: F401 (it takes its options from the command line)

TOP = Path(__file__).resolve().parents[2]
VALGRIND = ["valgrind", "-q", "--error-exitcode=9"]
# Texts that are longer than this are shown from near the first difference on.
SHOWN = 2000
COUNTING = RLock()
passed = failed = 0


def built(name, is_archive):
    """The file that the command line gives in place of a built one. An archive is a word that ends in '.a'."""
    words = [word for word in sys.argv[1:] if word.endswith(".a") == is_archive]
    return Path(words[0] if words else TOP / "build" / name).resolve()


PROGRAM, ARCHIVE = built("capvet", False), built("libcapvet.a", True)


def file_of(name):
    """The script of this name in tools/ or in a folder of tests/, or None. No two of them have the same name."""
    return next((file for file in (TOP / "tools" / name, *TOP.glob(f"tests/*/{name}")) if file.is_file()), None)


# Cases

def count(more_passed, more_failed=0):
    """Counts cases that another program judged."""
    global passed, failed
    with COUNTING:
        passed, failed = passed + more_passed, failed + more_failed


def expect(name, holds, *said, cases=1):
    """A case, which fails if something doesn't hold. `said` is shown then. A text may also be a call that makes it."""
    with COUNTING:
        count(cases * bool(holds), cases * (not holds))
        if not holds:
            first, *more = (str(text() if callable(text) else text) for text in (name, *said))
            print(f"FAILED: {first}", *more, sep="\n  ", flush=True)


def compare(name, expected, got):
    """A case, which fails if what came isn't what was expected. How they differ is shown then."""
    expect(name, expected == got, *(differences(expected, got) if expected != got else ()))


def differences(expected, got):
    """The lines that show how two values differ: of tuples the parts that do, and long texts from near the first difference on."""
    if isinstance(expected, tuple) and isinstance(got, tuple) and len(expected) == len(got):
        return [line for pair in zip(expected, got) if pair[0] != pair[1] for line in differences(*pair)]
    lines = []
    if isinstance(expected, (str, bytes)) and isinstance(got, type(expected)) and max(len(expected), len(got)) > SHOWN:
        at = next((at for at, pair in enumerate(zip(expected, got)) if pair[0] != pair[1]), min(len(expected), len(got)))
        lines = [f"the lengths are {len(expected)} and {len(got)}, and the first difference is at {at}"]
        expected, got = (text[max(0, at - 50):][:SHOWN] for text in (expected, got))
    return [*lines, f"expected {expected!r}", f"     got {got!r}"]


def differ(name, expected, got):
    """Two cases for two lists: their lengths, and the first few elements that differ."""
    compare(f"{name}, how many", len(expected), len(got))
    compare(name, [], [(number, *pair) for number, pair in enumerate(zip(expected, got)) if pair[0] != pair[1]][:3])


def ended():
    """Prints how many cases passed; the status."""
    print(f"{passed} passed, {failed} failed")
    return failed > 0


# Commands

def run(command, timeout=3600, **how):
    """What a command wrote, on its standard error too, and its status."""
    ran = subprocess.run([str(word) for word in command], stdin=subprocess.DEVNULL, stdout=subprocess.PIPE,
                         stderr=subprocess.STDOUT, timeout=timeout, text=True, errors="replace", **how)
    return ran.stdout, ran.returncode


def outputs(command, stdin=b"", timeout=600, **how):
    """What a command wrote on its standard output and on its standard error, as bytes, and its status. `stdin` is bytes, or a
    file."""
    given = {"stdin" if hasattr(stdin, "fileno") else "input": stdin}
    try:
        ran = subprocess.run(command, timeout=timeout, **{"stdout": subprocess.PIPE, "stderr": subprocess.PIPE, "cwd": TOP} | given | how)
    except subprocess.TimeoutExpired:
        return b"", b"", f"no end within {timeout} seconds"
    return ran.stdout or b"", ran.stderr or b"", ran.returncode


def over_file(command, data):
    """The same of a command that reads a file, which has these bytes."""
    with tempfile.NamedTemporaryFile(prefix="capvet-") as file:
        file.write(data)
        file.flush()
        return outputs([*command, file.name], timeout=3600)


def under_valgrind(name, watched, built, data, *options):
    """A case: over a file of these bytes a program writes under valgrind what another build of it writes."""
    out, err, status = over_file([*VALGRIND, *options, watched], data)
    expect(name, (out, status) == (over_file([built], data)[0], 0), err[:SHOWN])


def instructions(command):
    """How many instructions a command takes, by valgrind."""
    text, status = run(["valgrind", "--tool=callgrind", "--callgrind-out-file=/dev/null", *command])
    compare(f"{' '.join(map(str, command))} under valgrind", 0, status)
    found = re.search(r"Collected : (\d+)", text)
    return int(found[1]) if found else 0


def with_lengths(texts):
    """Texts one after another, each after its length."""
    return b"".join(struct.pack("<I", len(text)) + text for text in texts)


# Messages

def table(sizes):
    """The table of a message whose segments have these sizes in words."""
    numbers = [len(sizes) - 1, *sizes]
    numbers += [0] * (len(numbers) % 2)
    return struct.pack(f"<{len(numbers)}I", *numbers)


def segment_bytes(segment):
    if isinstance(segment, str):
        return bytes.fromhex(segment)
    return segment if isinstance(segment, bytes) else struct.pack(f"<{len(segment)}Q", *segment)


def framed(*segments):
    """The frame of a message."""
    if len(segments) == 1 and isinstance(segments[0], str):
        segments = segments[0].split("|")
    parts = [segment_bytes(segment) for segment in segments]
    return table([len(part) // 8 for part in parts]) + b"".join(parts)
