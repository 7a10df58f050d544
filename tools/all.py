#!/usr/bin/env python3
"""Tests all of it: the program and the library for C, as their users run and install them, and the tests in Rattle.

    all.py [--prove | --gate [--anew]] [--full] [--scripts FILE..] [--skip NAMES]

Without an option cargo builds the program and the library, of the proved text without its contracts. That takes a minute or two.
The scripts run over these, and the tests in Rattle where `rt` is. What cargo needs is installed first, if it is missing and this is
Debian's superuser. Where cargo can't build, and `rt` is there, all.py does what it does with --prove.

With --prove the crates are proved first, and the scripts run over what Rattle's compiler builds. Some of them are for this build
alone: those of other machines and of packages, and those that compare both builds. With --gate the tests in Rattle are proved safe
too, the prover has to refuse each must-fail edit, Coq checks its proofs, and some scripts run on Debian 13. Then --anew takes nothing
from earlier runs on this machine. After the scripts over the proved build they run over the one by cargo, and once more as on a new
machine (bare.py). With --full the scripts make all of their cases.

Scripts run side by side, one for each core. What each of them writes is shown at its end, in the order of SCRIPTS.
Each step ends with a line 'N passed, M failed'. With --scripts nothing is proved or built, and only these files run.
A table of the steps follows them, with the time that each took and the processor time of all its processes. After the table
comes what was not tested, with the packages that it needs. Then the first lines FAILED of each step are shown again, at most ten.
The last line sums up the cases, and the status is 1 where one failed. Where the proofs fail, nothing else is run.

Scripts about sockets, processes and clocks (TIMED) can fail on a busy machine without a fault. One that has failed runs once
more, after the others and alone, and its second result counts. What failed at first is shown at the end too.

A step that tests nothing, and says nothing of it, has failed. With --skip a step has also failed if something wasn't tested,
unless it is for lack of one of NAMES, which are names of needs.py and may be none. So `make gate` is green only where
everything was tested, or named.
"""
import argparse
import os
import re
import subprocess
import sys
import time
from concurrent.futures import ThreadPoolExecutor
from dataclasses import dataclass, field
from pathlib import Path

sys.path[1:1] = map(str, (Path(__file__).resolve().parents[1] / "tests").iterdir())

import needs
from amount import IS_FULL, IS_IDLE
from harness import file_of
from needs import NEEDS

TOP = Path(__file__).resolve().parent.parent
# What the scripts run over: for each build the program and the library for C. In SCRIPTS they are PROGRAM and ARCHIVE.
PLAIN, PROVED = ("build/cargo/capvet", "build/cargo/libcapvet.a"), ("build/capvet", "build/libcapvet.a")
PROGRAM, ARCHIVE = "PROGRAM", "ARCHIVE"
COUNTED = re.compile(r"(\d+) passed, (\d+) failed")
UNTESTED = re.compile(r"not tested(?:, without (\S+) )?")
# How many failures of a step are shown again at the end, and how many characters of each.
FAILURES, WIDEST = 10, 300
# (those that take longest come first, so that none of them is left over at the end)
SCRIPTS = (
    ("the package for Python", ["python.py", PROGRAM, ARCHIVE]),
    ("fuzzing", ["fuzz.py", PROGRAM, ARCHIVE]),
    ("the guard", ["guard.py", PROGRAM, ARCHIVE]),
    ("attacks on the guard", ["guard_attacks.py", PROGRAM, ARCHIVE]),
    ("messages before their readers", ["before_readers.py", PROGRAM, ARCHIVE]),
    ("RPC of Rust", ["rust_rpc.py", PROGRAM, ARCHIVE]),
    ("the library from C, C++ and Rust", ["library.py", PROGRAM, ARCHIVE]),
    ("attacks on servers of RPC", ["attacks.py", PROGRAM, ARCHIVE]),
    ("archives", ["scale.py", PROGRAM, ARCHIVE]),
    ("the Go package", ["go.py", PROGRAM, ARCHIVE]),
    ("the crates for Rust", ["crates.py", PROGRAM]),
    ("each language beside the program", ["languages.py", PROGRAM, ARCHIVE]),
    ("the adapters to the crate capnp", ["adapters.py"]),
    ("the library for C by cargo", ["capvet_c.py"]),
    ("the built program", ["program.py", PROGRAM]),
    ("the calls from C, packed messages", ["calls.py", ARCHIVE, PROGRAM, "streams"]),
    ("first differences from canonical copies", ["differences.py", ARCHIVE]),
    ("the filter", ["filter.py", PROGRAM]),
    ("objects of JSON", ["json_lines.py", PROGRAM]),
    ("exactly one message", ["one.py", PROGRAM]),
    ("several files", ["files.py", PROGRAM]),
    ("refusals that are explained", ["explain.py", PROGRAM, ARCHIVE]),
    ("pipes that stay open", ["live.py", PROGRAM]),
    ("the calls from C, flags and reports", ["calls.py", ARCHIVE, PROGRAM, "flags"]),
    ("the calls from C, messages", ["calls.py", ARCHIVE, PROGRAM, "messages"]),
    ("strict messages by other readers", ["readers.py", PROGRAM]),
    ("the calls from C, packed bytes", ["calls.py", ARCHIVE, PROGRAM, "packed"]),
    ("the calls from C, nodes", ["calls.py", ARCHIVE, PROGRAM, "nodes"]),
    ("the calls from C, paths", ["calls.py", ARCHIVE, PROGRAM, "paths"]),
    ("the stack of the calls", ["stack.py", ARCHIVE]),
    ("the proxy in front of RPC", ["socat_proxy.py", PROGRAM]),
    ("what is installed", ["install.py", PROGRAM, ARCHIVE]),
    ("the pages", ["pages.py", PROGRAM]),
    ("the table of names", ["names.py", PROGRAM]),
    ("the messages of Cap'n Proto's own tests", ["upstream.py", PROGRAM]),
    ("the header", ["header.py"]),
    ("the header by other compilers", ["compilers.py"]),
    ("what is not tested", ["untested.py", PROGRAM]),
    ("what is kept of must-fail edits", ["kept_edits.py"]),
    ("cycles between modules", ["cycles.py"]),
    ("the definitions in Coq", ["mirror.py", PROGRAM]),
)
# Those for the proved build alone.
OVER_PROVED = (
    ("builds for other machines", ["machines.py", PROGRAM, ARCHIVE]),
    ("the inspector", ["inspector.py", PROGRAM, ARCHIVE]),
    ("the packages", ["dist.py", PROGRAM, ARCHIVE]),
    ("the calls of both builds", ["plain.py", PROGRAM, ARCHIVE]),
    ("the programs of both builds", ["plain_program.py", PROGRAM]),
    ("the package for JavaScript", ["js.py", PROGRAM, ARCHIVE]),
    ("the program by npx", ["npx.py", PROGRAM]),
    ("old processors", ["processors.py", PROGRAM, ARCHIVE]),
)
# Those for the gate alone.
IN_GATE = (("Debian 13", ["releases.py", PROGRAM, ARCHIVE]),)
# Those of which the gate makes all cases over the proved build.
WHOLE = {"mirror.py"}
# Those in which something other than a fault can be late: a peer, a timer, a browser.
TIMED = {"attacks.py", "before_readers.py", "fuzz.py", "go.py", "guard.py", "guard_attacks.py", "inspector.py", "js.py", "library.py", "live.py",
         "npx.py", "python.py", "releases.py", "socat_proxy.py", "rust_rpc.py", "scale.py"}
# What comes before the scripts over the build by cargo. (with the proofs these tests run beside them)
BUILD = ("the build by cargo", ["build.py"])
IN_RATTLE = ("the tests in Rattle", ["prove.py", "--tests"])


@dataclass
class Step:
    """A step that has run: its name and its line of the table, how many cases passed and failed, the text that wasn't shown yet,
    the lines of what it didn't test, each with the name of what was missing, its lines FAILED, and its script with arguments."""
    name: str
    line: str
    passed: int
    failed: int
    text: str = ""
    untested: dict = field(default_factory=dict)
    failures: list = field(default_factory=list)
    words: list = field(default_factory=list)


def minutes(seconds):
    whole = round(seconds)
    return f"{whole // 60} min {whole % 60:2} s"


def run(name, words, skips, show):
    """Runs a script. `show` gets each line as it comes. Where `skips` is None, no part has to be tested."""
    begin, counted, untested, failures = time.monotonic(), None, {}, []
    script = subprocess.Popen([sys.executable, file_of(words[0]), *words[1:]], cwd=TOP, stdin=subprocess.DEVNULL,
                              stdout=subprocess.PIPE, stderr=subprocess.STDOUT, text=True, errors="replace")
    show(f"== {name}\n")
    for line in script.stdout:
        show(line)
        counted = COUNTED.match(line) or counted
        if absent := UNTESTED.match(line):
            untested[line.rstrip()] = absent[1]
        if line.startswith("FAILED") and line.rstrip() not in failures:
            failures.append(line.rstrip())
    _, status, used = os.wait4(script.pid, 0)
    script.returncode = os.waitstatus_to_exitcode(status)
    passed, failed = (int(number) for number in counted.groups()) if counted else (0, 0)
    # (a script that counts nothing has failed too, and so has one that was killed)
    faults = [f"{words[0]} ended with status {script.returncode}"] if script.returncode or not counted else []
    if not (passed or failed or untested):
        faults.append(f"{words[0]} tested nothing")
    if skips is not None:
        faults += [line for line, absent in untested.items() if absent not in skips]
    faults = [f"FAILED: {fault}" for fault in faults]
    for fault in faults:
        show(f"{fault}\n")
    failed = max(failed, len(faults))
    took = f"{minutes(time.monotonic() - begin):>14}, {minutes(used.ru_utime + used.ru_stime):>14} of processor time"
    return Step(name, f"{name:36}{took}: {passed} passed, {failed} failed", passed, failed, untested=untested, failures=failures + faults,
                words=words)


def run_apart(name, words, skips):
    """Runs a script beside others, and keeps what it writes."""
    lines = []
    step = run(name, words, skips, lines.append)
    step.text = "".join(lines)
    return step


def show(text):
    """Shows what a script prints as it comes."""
    print(text, end="", flush=True)


def run_scripts(scripts, skips, show=show):
    """Runs scripts side by side, and shows what each of them wrote, in their order. Then those that may have been late run again."""
    late = []
    with ThreadPoolExecutor(len(os.sched_getaffinity(0))) as cores:
        for step in cores.map(lambda script: run_apart(*script, skips), scripts):
            show(step.text)
            if step.failed and step.words[0] in TIMED:
                late.append(step)
            else:
                yield step
    for step in late:
        yield run_again(step, skips, show)


def run_again(step, skips, show):
    """Runs a script that has failed once more, alone. The second result counts, and the lines FAILED of both are kept."""
    again = run(f"{step.name}, again and alone", step.words, skips, show)
    again.failures = [f"(at first) {line}" for line in step.failures] + again.failures
    return again


def over(build, scripts, whole=()):
    """These scripts over the files of a build. With --full all of them make all of their cases, and else those of `whole`."""
    files = dict(zip((PROGRAM, ARCHIVE), build))
    return [(name, [*(files.get(word, word) for word in words), *["--full"] * (IS_FULL or words[0] in whole)]) for name, words in scripts]


def show_untested(steps):
    """Prints what the steps didn't test, and the command that installs what they lacked."""
    untested = {line: absent for step in steps for line, absent in step.untested.items()}
    if untested:
        print("\n".join(["what was not tested:", *untested]))
        packages = {name for absent in untested.values() for name in NEEDS.get(absent, "").split()}
        print(f"to test it on Debian 12: apt-get install {' '.join(sorted(packages))}")


def show_failures(steps):
    """Prints the first failures of each step again, since a log may be kept by its last lines alone."""
    for step in steps:
        for line in step.failures[:FAILURES]:
            print(f"{step.name}: {line[:WIDEST]}")
        if len(step.failures) > FAILURES:
            print(f"{step.name}: and {len(step.failures) - FAILURES} more")


def options(words):
    """The command line, with the names of --skip as a set, or None without it."""
    parser = argparse.ArgumentParser(usage=__doc__)
    parser.add_argument("--prove", action="store_true")
    parser.add_argument("--gate", action="store_true")
    parser.add_argument("--anew", action="store_true")
    parser.add_argument("--scripts", nargs="+", metavar="FILE")
    parser.add_argument("--skip", metavar="NAMES")
    asked = parser.parse_args(words)
    unknown = set(asked.scripts or ()) - {words[0] for _, words in (*SCRIPTS, *OVER_PROVED, *IN_GATE)}
    if asked.skip is not None:
        asked.skip = set(asked.skip.split())
        unknown |= asked.skip - NEEDS.keys()
    # (times mean nothing where scripts run side by side)
    if asked.anew and not asked.gate:
        parser.error("--anew is of --gate")
    if unknown or IS_IDLE:
        parser.error(f"unknown: {' '.join(sorted(unknown) or ['--idle'])}")
    return asked


def chosen(asked):
    """The steps for these scripts alone, over what is there."""
    is_proved = asked.prove or asked.gate
    scripts = (*SCRIPTS, *OVER_PROVED, *IN_GATE) if is_proved else SCRIPTS
    named = [it for it in scripts if it[1][0] in asked.scripts]
    yield from run_scripts(over(PROVED if is_proved else PLAIN, named), asked.skip)


def of_the_plain_build(asked):
    """The steps of `make test`."""
    built = run(*BUILD, asked.skip, show)
    if built.untested and needs.has("rt"):
        print("The proved build is tested instead, so the crates are proved first. This takes 20 to 45 minutes on four cores.", flush=True)
        yield from of_the_proved_build(asked)
        return
    # (without both there is nothing to test)
    built.failed += bool(built.untested)
    yield built
    if not built.failed:
        yield from run_scripts([IN_RATTLE, *over(PLAIN, SCRIPTS)], asked.skip)


def of_the_proved_build(asked):
    """The steps of `make prove` and of `make gate`."""
    if asked.gate:
        proofs = run("proofs and must-fail edits", ["prove.py", "--edits", *["--anew"] * asked.anew], asked.skip, show)
    else:
        proofs = run("proofs", ["prove.py"], asked.skip, show)
    yield proofs
    if not proofs.failed:
        scripts = (*OVER_PROVED, *IN_GATE * asked.gate, *SCRIPTS)
        yield from run_scripts(over(PROVED, scripts, WHOLE if asked.gate else ()), asked.skip)


def of_the_gate(asked):
    """The steps of `make gate`."""
    steps = list(of_the_proved_build(asked))
    yield from steps
    if not steps[0].failed:
        yield run(*BUILD, asked.skip, show)
        yield from run_scripts(over(PLAIN, SCRIPTS), asked.skip)
        yield run("the scripts on a new machine", ["bare.py"], asked.skip, show)


def main(words):
    begin, asked = time.monotonic(), options(words)
    ways = ((asked.scripts, chosen), (asked.gate, of_the_gate), (asked.prove, of_the_proved_build), (True, of_the_plain_build))
    steps = list(next(way for is_asked, way in ways if is_asked)(asked))
    print("\n" + "\n".join(step.line for step in steps))
    print(f"all of it took {minutes(time.monotonic() - begin)}")
    show_untested(steps)
    show_failures(steps)
    passed, failed = sum(step.passed for step in steps), sum(step.failed for step in steps)
    print(f"{passed} passed, {failed} failed")
    return failed > 0


if __name__ == "__main__":
    sys.exit(main(sys.argv[1:]))
