#!/usr/bin/env python3
"""Runs scripts as `make gate` does, where a tool is missing, and looks at what tools/all.py makes of it.

    untested.py [PROGRAM]

A tool is missing because it isn't in the only folder of the path. The names that the scripts ask for have to be names of
needs.py. Tools that this machine lacks anyway are named to `--skip`. The last line is 'N passed, M failed', and the status is 1 if a
case failed.
"""
import ast
import contextlib
import io
import os
import re
import sys
import tempfile
import unittest.mock
from pathlib import Path

sys.path[1:1] = map(str, (Path(__file__).resolve().parents[1] / "tests").iterdir())

import all as steps
import needs
from harness import PROGRAM, TOP, compare, ended, run

# The tool that is hidden, and what install.py doesn't test without it. (Debian is never without bash)
HIDDEN, WHAT = ("man", "that the manual pages are found and read") if needs.has("man") else ("bash", "what bash completes")
LINE = needs.line(WHAT, HIDDEN)
# What a script prints that the gate refuses, and the reason that it gives.
REFUSED = (("print('0 passed, 0 failed')", "{} tested nothing"),
           ("print('not tested: a part\\n1 passed, 0 failed')", "not tested: a part"),
           ("print('not tested, without go (install golang-go): a part\\n1 passed, 0 failed')",
            "not tested, without go (install golang-go): a part"),
           ("print('1 passed, 0 failed'); print('not tested: all\\n1 passed, 0 failed')", "not tested: all"),
           ("print('1 passed, 0 failed'); raise SystemExit(1)", "{} ended with status 1"))


def gate(words, environment):
    """The status of all.py over install.py alone, with the line of the failure, and with what was not tested and its package."""
    proved = ["--prove"] * (PROGRAM == TOP / "build/capvet")
    text, status = run([sys.executable, TOP / "tools/all.py", *proved, "--scripts", "install.py", *words], env=environment)
    lines, _, remedy = text.partition("what was not tested:\n")[2].partition("to test it on Debian 12: apt-get install ")
    is_named = LINE in lines.splitlines() and needs.NEEDS[HIDDEN] in remedy.partition("\n")[0].split()
    return status, f"FAILED: {LINE}\n" in text, is_named


def of_a_tool(folder):
    """A missing tool is a failure where no part may be left out, and else a line at the end."""
    environment = {**os.environ, "PATH": needs.path_without(HIDDEN, folder)}
    absent = " ".join(name for name in needs.NEEDS if not needs.has(name))
    for skips, expected in ((None, (0, False, True)), (absent, (1, True, True)), (f"{absent} go", (1, True, True)),
                            (f"{absent} {HIDDEN}", (0, False, True))):
        words = () if skips is None else ("--skip", skips)
        compare(f"all.py {words} without {HIDDEN}", expected, gate(words, environment))
    compare(f"all.py --skip '{absent}', with the tools of this machine", (0, False, False), gate(("--skip", absent), os.environ))
    text, status = run([sys.executable, TOP / "tests/shared/needs.py"], env=environment)
    unpackaged = any(not needs.has(name) for name, packages in needs.NEEDS.items() if not packages and name not in needs.MADE)
    compare("needs.py names the package", (True, unpackaged), (needs.NEEDS[HIDDEN] in text.splitlines(), status))
    text, status = run([sys.executable, TOP / "tools/all.py", "--skip", "nothing"])
    compare("all.py --skip of a name that is unknown", (True, 2), (text.endswith("unknown: nothing\n"), status))


def of_failures(folder):
    """The first ten failures of a step are shown again at the end, each on a line that isn't too long, and the others are counted."""
    script = folder / "failing.py"
    words = [str(script)]
    status = f"FAILED: {words[0]} ended with status 1"
    for count, last in ((0, []), (1, [status]), (9, [status]), (10, ["and 1 more"]), (13, ["and 4 more"])):
        script.write_text(f"for it in range({count}):\n    print('FAILED: case', it, 'x' * 400)\n    print('  got it')\n"
                          f"print('1 passed, {count} failed')\nraise SystemExit({count} > 0)\n")
        step = steps.run("a script", words, None, lambda _: None)
        with contextlib.redirect_stdout(io.StringIO()) as out:
            steps.show_failures([step, step])
        lines = [f"FAILED: case {it} {'x' * 400}"[:300] for it in range(min(count, 10))] + last
        compare(f"{count} failures, shown again", "".join(f"a script: {line}\n" for line in lines * 2), out.getvalue())


def of_a_script(folder):
    """A script that tests nothing, or leaves out a part without a name that is allowed, has failed."""
    script = folder / "script.py"
    words = [str(script)]
    for text, reason in REFUSED:
        script.write_text(text)
        shown = []
        step = steps.run("a script", words, {"jq"}, shown.append)
        compare(f"the gate, of a script {text}", True, step.failed > 0)
        compare(f"its reason, of a script {text}", [f"FAILED: {reason.format(words[0])}\n"], shown[-1:])
    script.write_text("print('not tested, without jq (install jq): a part\\n0 passed, 0 failed')")
    compare("the gate, of a script that a skip names", 0, steps.run("a script", words, {"jq"}, lambda _: None).failed)


def of_late_scripts(folder):
    """A script of TIMED that has failed runs once more, and its second result counts. Others run once."""
    script = folder / "late.py"
    words = [str(script)]
    for first, second, is_timed, expected in ((0, 0, True, [0]), (1, 0, True, [1, 0]), (1, 2, True, [1, 2]), (1, 0, False, [1])):
        (folder / "runs").write_text("")
        script.write_text(f"runs = open({str(folder / 'runs')!r}, 'a+')\nruns.seek(0)\nhas_run = bool(runs.read())\nruns.write('x')\n"
                          f"failed = {second} if has_run else {first}\nprint('FAILED: case', has_run) if failed else None\n"
                          "print(f'1 passed, {failed} failed')\nraise SystemExit(failed > 0)\n")
        shown, timed = [], {words[0]} if is_timed else set()
        with unittest.mock.patch.object(steps, "TIMED", timed):
            ran = list(steps.run_scripts([("a script", words)], None, shown.append))
        text = "".join(shown)
        compare(f"results {first}, {second} of a script, timed: {is_timed}", ([expected[-1]], [f"1 passed, {it} failed" for it in expected]),
                ([step.failed for step in ran], re.findall(r"^1 passed, \d failed$", text, re.M)))
        compare("what failed at first is kept", len(expected) > 1, any(line.startswith("(at first) FAILED: case") for line in ran[0].failures))


def names_of(script):
    """The names that a script passes to `missing` and `line`."""
    calls = (node for node in ast.walk(ast.parse(script.read_text())) if isinstance(node, ast.Call))
    for call in calls:
        if getattr(call.func, "id", getattr(call.func, "attr", None)) in ("missing", "line"):
            yield from (word.value for word in call.args[1:] if isinstance(word, ast.Constant))


def main():
    scripts = [file for files in ("tests/*/*.py", "tools/*.py", "bindings/python/tests/*.py") for file in TOP.glob(files)]
    names = {name for script in scripts for name in names_of(script)}
    compare("names that needs.py lacks", set(), names - needs.NEEDS.keys())
    compare("scripts ask for tools", True, len(names) > 10)
    silent = [script.name for script in scripts if re.search(r"if [^\n]*shutil\.which\(\"", script.read_text())]
    compare("scripts that look for a tool and say nothing", [], silent)
    called = [script.name for files in ("tests/*/*.py", "tools/*.py", "tools/*/*.py", "packaging/*.py", "bench/*.py") for script in TOP.glob(files)]
    compare("names that two scripts have", [], sorted({name for name in called if called.count(name) > 1}))
    own = [script.name for script in scripts if re.search(r'print\(f?["\']not tested', script.read_text())]
    compare("scripts with a line of their own for what isn't tested", ["untested.py"], own)
    with tempfile.TemporaryDirectory() as scratch:
        for part in (of_a_tool, of_failures, of_a_script, of_late_scripts):
            (Path(scratch) / part.__name__).mkdir()
            part(Path(scratch) / part.__name__)
    return ended()


if __name__ == "__main__":
    sys.exit(main())
