#!/usr/bin/env python3
"""Checks a change of one crate as far as it reaches, in a part of the time of `make prove`.

    check.py CRATE

 1. the plain text, without any proof: it is written again, its tests pass, and so do the scripts of the program over a build of
    it by cargo. What cargo builds is kept in build/plain. A crate of tests has no plain text;
 2. the proof of the crate, and its layout;
 3. the crates above that use it, and beside that their tests in Rattle, without a proof that these are safe. On the cores that
    these leave, its must-fail edits of files that have changed, and of files that use something of these, over any number of
    others. If that is none, or if `lib.rt` or a file beside `src` has changed, all of its edits. What an earlier try refused counts;
 4. the scripts that its behaviour is in: those of the built program, or of the archive from C, or both. The plain builds are
    compared with the proved ones.

Each step takes all cores. Of what it writes only errors and warnings are shown, and the time that it took. The first step that
fails is the last one, and then the status is 1. `make prove` also has the packages, the bindings and the servers.
"""
import os
import re
import resource
import subprocess
import sys
import time
from concurrent.futures import ThreadPoolExecutor
from pathlib import Path

sys.path[1:1] = map(str, (Path(__file__).resolve().parents[1] / "tests").iterdir())

import all as every
import cargo
import edits
import needs
import prove

# For the program and for the archive the scripts that show their behaviour, and compare the plain build with the proved one.
SCRIPTS = {prove.PROGRAM: ("program.py", "explain.py", "json_lines.py", "one.py", "files.py", "filter.py", "live.py", "readers.py", "pages.py",
                           "plain_program.py"),
           prove.ARCHIVE: ("calls.py", "differences.py", "header.py", "stack.py", "plain.py")}
# Those of the program that run over the plain one before anything is proved.
EARLY = ("program.py", "filter.py", "live.py")
CORES = len(os.sched_getaffinity(0))
# Lines of `rt` that matter in any case, and lines that don't even matter where it fails.
LOUD = re.compile(r"\b(error|warning)\b|cannot be applied")
QUIET = re.compile(r".*: proved$|(statements|library|crate|logic |axioms|by-macro)|.*(has a line that is not read|large solution)")


def rt(folder, *words, beside=False):
    """Runs `rt` in a folder, with less priority if it works beside others, and shows what matters of what it writes. Whether it
    ended well."""
    ran = subprocess.run(["nice"] * beside + ["rt", *words], cwd=folder, stdin=subprocess.DEVNULL, stdout=subprocess.PIPE, stderr=subprocess.STDOUT,
                         text=True, errors="replace")
    for line in ran.stdout.splitlines():
        if not QUIET.match(line) if ran.returncode else LOUD.search(line):
            print(line)
    return ran.returncode == 0


def succeeds(words, **how):
    """Runs a command, and shows what it writes where it fails. Whether it ended well."""
    ran = subprocess.run(words, stdin=subprocess.DEVNULL, stdout=subprocess.PIPE, stderr=subprocess.STDOUT, text=True, errors="replace", **how)
    print(ran.stdout * (ran.returncode != 0), end="")
    return ran.returncode == 0


def try_plain(name):
    """Writes the plain text, and tests it."""
    if prove.has_tests(name) or needs.missing("the plain text", "cargo", "rustc", "rustfmt", "crates"):
        return True
    folder = prove.TOP / "build/plain"
    folder.mkdir(parents=True, exist_ok=True)
    how = {"env": cargo.environment(folder)}
    if not succeeds([sys.executable, "tools/erase/erase.py"], cwd=prove.TOP):
        return False
    if not succeeds(["cargo", "test", *cargo.CARGO, "--workspace"], cwd=prove.TOP / "rust", **how):
        return False
    if prove.PROGRAM.parts[1] not in prove.above(name) or needs.missing("the plain program", "crate-clap", "crate-sha2"):
        return True
    is_built = succeeds(["cargo", "build", *cargo.CARGO, "--profile", "checked"], cwd=prove.TOP / "rust/capvet-cli", **how)
    return is_built and run_each(EARLY, (str(folder / "target/checked/capvet"), every.PLAIN[1]))


def check(name):
    """Checks the crate alone. Of a crate of tests it proves that they are safe."""
    words = ["check", *["--test"] * prove.has_tests(name), "--jobs", str(CORES)]
    return prove.has_layout([name]) and rt(prove.TOP / "crates" / name, *words)


def prove_above(name):
    """Proves the crates that use it, and runs their tests."""
    above = prove.above(name)
    tests = [it for it in above if prove.has_tests(it)]
    return prove.prove_each([it for it in above if it not in (name, *tests)], tests, rt)


def changed():
    """The files that have changed since the last commit, or else those that it changed."""
    def listed(*words):
        ran = subprocess.run(["git", *words], cwd=prove.TOP, stdout=subprocess.PIPE, stderr=subprocess.DEVNULL, text=True)
        return ran.stdout.split()
    now = listed("diff", "--name-only", "HEAD") + listed("ls-files", "--others", "--exclude-standard")
    return now or listed("diff", "--name-only", "HEAD~1")


def users(sources, file):
    """The files of a crate that use something of this one, itself among them. A method is called without a `use` of the file of
    its type, so this goes on from user to user."""
    found, ahead = {file}, [file]
    while ahead:
        module = re.compile(rf"\b{re.escape('::'.join(('crate', *ahead.pop().with_suffix('').parts[1:])))}\b")
        more = {it for it, text in sources.items() if it not in found and module.search(text)}
        found |= more
        ahead += more
    return found


def reached(crate, files):
    """The edits of a crate that a change of these files of the repository reaches, or all of them."""
    every = sorted(crate.glob("must-fail/*.edit"))
    own = [Path(file).relative_to(f"crates/{crate.name}") for file in files if file.startswith(f"crates/{crate.name}/")]
    if any(file.parts[0] != "src" or file.name == "lib.rt" for file in own):
        return every
    sources = {file.relative_to(crate): file.read_text() for file in crate.glob("src/**/*.rt")}
    near = {str(it) for file in own for it in users(sources, file)}
    return [edit for edit in every if near & set(re.findall(r"(?m)^file: (\S+)", edit.read_text()))] or every


def try_edits(name):
    """Tries these edits of the crate, each group of them on one core. The kept work of each group begins with that of the crate."""
    crate = prove.TOP / "crates" / name
    found, every = reached(crate, changed()), len(list(crate.glob("must-fail/*.edit")))
    groups = [group for group in (found[at::CORES] for at in range(CORES)) if group]
    with ThreadPoolExecutor(CORES) as cores:
        counts = list(cores.map(lambda group: edits.try_edits(crate, group, beside=True, say=say_bad), groups))
    passed, known = (sum(column) for column in zip((0, 0), *counts))
    print(f"{passed} of {len(found)} edits are refused, {known} of them by an earlier try. The crate has {every}")
    return passed == len(found)


def say_bad(line):
    """Shows what is said of an edit where it isn't refused as it has to be."""
    if "BAD EDIT" in line or "not proved without" in line:
        print(line)


def prove_above_and_edit(name):
    """Proves the crates above, and beside that tries the edits. The crates are one after the other, so they leave cores."""
    # (first the library of this crate, since the edits begin with a copy of what its proof keeps)
    if not prove.has_tests(name) and not prove.prove_each([name], (), rt):
        return False
    with ThreadPoolExecutor(1) as beside:
        refused = beside.submit(try_edits, name)
        is_proved = prove_above(name)
        return refused.result() and is_proved


def run_scripts(name):
    """Runs the scripts over what the crates above have built."""
    built = [file for file in SCRIPTS if file.parts[1] in prove.above(name)]
    prove.take(prove.TOP, built)
    return run_each({script for file in built for script in SCRIPTS[file]}, every.PROVED)


def run_each(names, build):
    """Runs the scripts of these names, side by side, over the files of a build. Whether all passed."""
    scripts = every.over(build, [it for it in (*every.SCRIPTS, *every.OVER_PROVED) if it[1][0] in names])
    steps = list(every.run_scripts(scripts, None, lambda _: None))
    for step in steps:
        print(step.text * bool(step.failed) + step.line)
    every.show_untested(steps)
    return not any(step.failed for step in steps)


def processor_time():
    """The processor time of all processes that have ended, in seconds."""
    used = resource.getrusage(resource.RUSAGE_CHILDREN)
    return used.ru_utime + used.ru_stime


STEPS = {"the plain text": try_plain, "the crate": check, "the crates above and its must-fail edits": prove_above_and_edit, "the scripts": run_scripts}


def main(words):
    sys.stdout.reconfigure(line_buffering=True)
    if len(words) != 1 or words[0] not in prove.crates():
        sys.exit(f"{__doc__}\nCRATE is one of: {' '.join(prove.crates())}")
    begin = time.monotonic()
    for name, work in STEPS.items():
        began, used = time.monotonic(), processor_time()
        print(f"== {name}")
        passes = work(words[0])
        print(f"{name}: {'passed' if passes else 'FAILED'} in {every.minutes(time.monotonic() - began)}, "
              f"{every.minutes(processor_time() - used)} of processor time")
        if not passes:
            return 1
    print(f"all of it took {every.minutes(time.monotonic() - begin)}, {every.minutes(processor_time())} of processor time")
    return 0


if __name__ == "__main__":
    sys.exit(main(sys.argv[1:]))
