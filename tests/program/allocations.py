#!/usr/bin/env python3
"""Makes each allocation of the tests of crates/test_memory fail in turn, and reads how each test ended.

A run over all tests, which `rt try` builds and doesn't prove, makes the allocation of one number fail in each
test's own process. A test ends well where it made fewer of them. Else it has to end with the error `refused`:
the call that it tests answered out of memory, and left what it promises. The numbers go up from 1 until each test
ends well. A test with a number in `ALLOCATIONS` has to end well from the next number on. How a test ended in a run is a case.
Failures are printed as they come. The last line is 'N passed, M failed', and the status is 1 where a case failed.
"""
import re
import sys
from pathlib import Path

sys.path[1:1] = map(str, Path(__file__).resolve().parents[1].iterdir())

from harness import TOP, ended, expect, run

CRATE = TOP / "crates/test_memory"
# How many allocations these tests make, no more and no fewer: one for a canonical copy. A message that is too large is
# refused before any allocation. So the only one in its test is the test's own, at the end, and that is the one that fails.
ALLOCATIONS = {
    "reading::a_table_past_the_limits": 1,
    "copies::a_copy_in_words": 1,
    "copies::a_copy_in_bytes": 1,
    "copies::a_copy_over_a_buffer": 1,
}
# More allocations than any test makes.
MOST = 20


def ends(number):
    """How each test ended where the allocation of this number failed: 'ok', 'refused', or the lines of its failure."""
    command = ["rt", "try", "--test", "--fail-alloc", str(number)]
    text, _ = run(command, cwd=CRATE)
    found = {}
    for name, end, lines in re.findall(r"^test (\S+) \.\.\. (\w+)\n((?:    .*\n)*)", text, re.M):
        found[name] = "ok" if end == "ok" else "refused" if '    error: "refused"\n' in lines else lines or end
    counted = re.search(r"^tests: (\d+)$", text, re.M)
    if not counted or int(counted[1]) != len(found) or not found:
        sys.exit(f"{text}{' '.join(command)}: not every test ended\n0 passed, 1 failed")
    return found


for number in range(1, MOST + 1):
    found = ends(number)
    for name, end in found.items():
        if name in ALLOCATIONS:
            expected = {"refused"} if number <= ALLOCATIONS[name] else {"ok"}
        else:
            expected = {"refused"} if number == 1 else {"ok", "refused"}
        expect(f"{name}, allocation {number}", end in expected, f"expected {' or '.join(sorted(expected))}, got {end}")
    count = sum(end == "refused" for end in found.values())
    print(f"allocation {number}: refused in {count} of {len(found)} tests", flush=True)
    if all(end == "ok" for end in found.values()):
        break
else:
    expect(f"each test ends well with allocation {MOST}", False)
sys.exit(ended())
