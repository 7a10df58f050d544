#!/usr/bin/env python3
"""Fuzzing of all that isn't proved, by the targets of tests/fuzz/fuzz_targets.py.

    fuzz.py PROGRAM ARCHIVE [--full]                  replays the corpus; with --full each target then searches for a minute
    fuzz.py PROGRAM ARCHIVE --seconds N [TARGET..]    searches with each target for N seconds, side by side
    fuzz.py PROGRAM ARCHIVE --lines [TARGET..]        prints the lines of the glue that no input reached
    fuzz.py PROGRAM ARCHIVE --faults [TARGET..]       puts faults into a copy: each has to be found
    fuzz.py PROGRAM ARCHIVE --keep [TARGET..]         adds inputs of build/fuzz to the corpus that reach something new

Inputs that reach something new are kept in build/fuzz, and so are those of findings: later runs begin with them. fuzz_corpus.py
makes the corpus, with the inputs of tests/fuzz/found.zip. A line says what isn't tested for lack of something. The last line is 'N passed, M failed';
the status is 1 where something was found, or where a fault wasn't.
"""
import argparse
import os
import sys
import tempfile
from concurrent.futures import ThreadPoolExecutor
from pathlib import Path

sys.path[1:1] = map(str, Path(__file__).resolve().parents[1].iterdir())

import fuzz_corpus
import fuzz_faults
from amount import IS_FULL
from fuzz_targets import TARGETS, Tree
from harness import TOP, compare, ended
from needs import missing

KEPT = TOP / "build/fuzz"
# The gate searches for a minute, from the same seed each time. (Go takes none)
FULL_SECONDS, FULL_SEED = 60, 1


def usable(names):
    """The targets of these names, or all, without those for which something is missing."""
    chosen = [it for it in TARGETS if not names or it.name in names]
    return [it for it in chosen if not missing(f"fuzzing by the target {it.name}", *it.needs)]


def side_by_side(call, targets):
    """The results of a call for each target, as many at a time as there are cores."""
    with ThreadPoolExecutor(len(os.sched_getaffinity(0))) as cores:
        yield from zip(targets, cores.map(call, targets))


def built(tree, targets):
    """The targets that were built."""
    for target, wrong in side_by_side(lambda it: it.build(tree), targets):
        compare(f"{target.name} is built", "", wrong)
        if not wrong:
            yield target


def report(target, result, least):
    """A case: nothing was found, by so many inputs at least."""
    compare(f"{target.name}: what was found", ("", None), (result.finding, result.input))
    compare(f"{target.name}: at least {least} inputs ran", True, result.runs >= least)
    if result.finding:
        print(result.text[-3000:])


def replay(tree, targets):
    """Each input of the corpus, by each target."""
    compare("each fault has its place", [], fuzz_faults.displaced())
    least = 4 if not targets else len(list(tree.corpus.iterdir())) // 2
    with tempfile.TemporaryDirectory() as folder:
        for target, result in side_by_side(lambda it: it.replay(tree, Path(folder) / it.name), targets):
            report(target, result, least if target.uses_corpus else 1)


def search(tree, targets, seconds, seed=0):
    """Searches, and prints how much each target did. The seed 0 is another one each time."""
    for target, result in side_by_side(lambda it: it.search(tree, KEPT / it.name, seconds, seed), targets):
        report(target, result, 1)
        print(f"fuzz: {target.name}: {result.runs} runs in {seconds} seconds, found {result.finding or 'nothing'}", flush=True)


def ranges(lines):
    """The numbers of lines as a text, such as '3-5 9'."""
    parts = []
    for line in sorted(lines):
        if parts and line == parts[-1][1] + 1:
            parts[-1][1] = line
        else:
            parts.append([line, line])
    return " ".join(str(one) if one == two else f"{one}-{two}" for one, two in parts)


def lines(tree, targets):
    """Prints for each file how many of its lines the inputs reach, and which they don't."""
    reached = {}
    for _, found in side_by_side(lambda it: it.coverage(tree, KEPT / it.name), targets):
        for name, counts in found.items():
            all_counts = reached.setdefault(name, {})
            for line, count in counts.items():
                all_counts[line] = max(all_counts.get(line, 0), count)
    for name, counts in sorted(reached.items()):
        if counts and "test" not in name:
            hit = sum(count > 0 for count in counts.values())
            rest = ranges(line for line, count in counts.items() if count == 0)
            print(f"fuzz: {name}: {100 * hit / len(counts):.1f} % of {len(counts)} lines" + (f", not {rest}" if rest else ""))
    compare("files with lines", True, len(reached) > 0)


def keep(tree, targets):
    """Adds to the corpus the inputs that were kept and that reach something new, if they are small."""
    with tempfile.TemporaryDirectory() as folder:
        for target in (it for it in targets if hasattr(it, "merged")):
            (KEPT / target.name).mkdir(parents=True, exist_ok=True)
            found = target.merged(tree, KEPT / target.name, Path(folder) / target.name)
            fuzz_corpus.add(found)
            print(f"fuzz: {target.name}: {len(found)} inputs were added to the corpus", flush=True)


def options(words):
    parser = argparse.ArgumentParser(usage=__doc__)
    parser.add_argument("built", nargs="*")
    for name in ("--faults", "--lines", "--keep"):
        parser.add_argument(name, nargs="*", metavar="TARGET")
    parser.add_argument("--seconds", nargs="+")
    asked = parser.parse_args(words)
    names = {*(asked.faults or ()), *(asked.lines or ()), *(asked.keep or ()), *(asked.seconds or (0,))[1:]}
    unknown = names - {it.name for it in TARGETS}
    if unknown:
        parser.error(f"unknown: {' '.join(sorted(unknown))}")
    return asked, names


def main():
    asked, names = options(sys.argv[1:])
    if asked.faults is not None:
        return fuzz_faults.find(usable(names))
    with tempfile.TemporaryDirectory() as folder:
        tree, targets = Tree(Path(folder) / "tree"), usable(names)
        if asked.lines is not None:
            if not missing("the lines that inputs reach", "llvm-cov-14", "coverage"):
                lines(tree, targets)
            return ended()
        targets = list(built(tree, targets))
        if asked.keep is not None:
            keep(tree, targets)
        elif asked.seconds:
            search(tree, targets, int(asked.seconds[0]))
        else:
            replay(tree, targets)
            if IS_FULL:
                search(tree, targets, FULL_SECONDS, FULL_SEED)
    return ended()


if __name__ == "__main__":
    sys.exit(main())
