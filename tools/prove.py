#!/usr/bin/env python3
"""Proves the crates, and leaves the proved program and the proved archive in build/.

    prove.py                     each library and the program; the tests in Rattle run, and HANDLES is checked
    prove.py --code              only the crates that the program and the archive are built from
    prove.py --tests             nothing: the tests in Rattle run, where `rt` is there
    prove.py --edits [--anew]    every crate and its tests, and the prover has to refuse each must-fail edit

The layout of all files is checked first. `rt` keeps in crates/*/out what it has proved, and proves only what has changed since.
Where nothing has changed since build/ was made, `rt` isn't run at all. The tests in Rattle run beside the proofs, with checks and
without a proof that they are safe.

With --edits `rt ci` does the work on a copy of the tree, and proves the tests too. Then tools/edits.py tries the edits over what
was proved, since `rt ci` doesn't look at why an edit is refused. Both take from earlier runs on this machine what has read the
same, and with --anew nothing. While the copy is there it also builds for the other machines whose tools are there
(packaging/targets.py). Without --edits the scripts that need these builds make them.

The last line of the output is 'N passed, M failed'. Before it a line FAILED has each crate that isn't proved, or each edit that is bad,
with the reason. The status is 1 where something failed, and then build/ stays as it was.
"""
import fcntl
import hashlib
import os
import re
import shutil
import subprocess
import sys
import tempfile
import time
from concurrent.futures import FIRST_COMPLETED, ThreadPoolExecutor, wait
from contextlib import contextmanager
from pathlib import Path

sys.path[1:1] = map(str, (Path(__file__).resolve().parents[1] / "tests").iterdir())

import needs

TOP = Path(__file__).resolve().parent.parent
sys.path.insert(1, str(TOP / "packaging"))
import targets  # (it is in the folder that the line above names)

KIT = Path(shutil.which("rt") or "/").resolve().parent.parent
BUILT = TOP / "build"
PROGRAM, ARCHIVE = Path("crates/capvet/out/capvet"), Path("crates/capvet_c/out/libcapvet_c.a")
BUILDS = (PROGRAM.parts[1], ARCHIVE.parts[1])
CORES = len(os.sched_getaffinity(0))
EACH = 600
HANDLES = "Handles allowed: none.\n"
# What failed, a line each, and the lines of edits.py that are about a bad edit, or about a crate that isn't proved without one.
FAILURES, BAD = [], re.compile(r"\S+: (?:BAD EDIT|not proved without an edit): ")
# What is called of the C library for a thread, for a socket, or for another program.
BEYOND = re.compile(r"pthread_create|thrd_create|socket|socketpair|bind|connect|listen|accept4?|getaddrinfo|epoll_\w+|eventfd|"
                    r"send|sendto|sendmsg|recv|recvfrom|recvmsg|posix_spawnp?|v?fork|clone3?|exec[vl]\w*|fexecve|system|popen")


def crates(root=TOP):
    """The crates of crates.txt, each with those that it names. A crate comes after those."""
    lines = (root / "crates.txt").read_text().splitlines()
    words = [line.replace(":", " ").split() for line in lines if line and not line.startswith("#")]
    return {name: uses for name, *uses in words}


def rt(folder, *words, beside=False):
    """Runs `rt` in a folder, with less priority if it works beside others, and shows what it wrote. Whether it ended well."""
    ran = subprocess.run(["nice"] * beside + ["rt", *words], cwd=folder, stdin=subprocess.DEVNULL, stdout=subprocess.PIPE,
                         stderr=subprocess.STDOUT, text=True, errors="replace")
    print(ran.stdout, end="")
    if ran.returncode == 0 and folder.name in BUILDS:
        targets.keep_report(folder.name, ran.stdout)
    return ran.returncode == 0


def calls_beyond(file):
    """The functions of the C library that a built file calls, and that HANDLES doesn't allow."""
    words = ["llvm-nm", "-j", "--undefined-only", *["-D"] * (file.suffix != ".a"), file]
    ran = subprocess.run(words, executable=KIT / "toolchain/bin/clang", capture_output=True, text=True, check=True)
    return sorted({name for name in re.findall(r"(?m)^\w+", ran.stdout) if BEYOND.fullmatch(name)})


def holds_handles():
    """Whether HANDLES has its line, and neither the built program nor the archive calls what it doesn't allow."""
    if (TOP / "HANDLES").read_text() != HANDLES:
        print(f"HANDLES is not the line '{HANDLES[:-1]}'")
        return False
    beyond = {file: calls_beyond(TOP / file) for file in (PROGRAM, ARCHIVE)}
    for file, calls in beyond.items():
        print(f"{file} calls what HANDLES does not allow: {', '.join(calls)}" if calls else f"{file} holds to HANDLES")
    return not any(beyond.values())


def below(names):
    """These crates and all that they use, in the order of crates.txt."""
    known, found = crates(), set(names)
    for name in reversed(known):
        found |= set(known[name]) if name in found else set()
    return [name for name in known if name in found]


def above(name):
    """This crate and all that use it, in the order of crates.txt."""
    return [it for it in crates() if name in below([it])]


def has_tests(name):
    """Whether this is a crate of tests in Rattle."""
    return any("#[test]" in file.read_text() for file in (TOP / "crates" / name).glob("src/**/*.rt"))


def chains(names):
    """For each of these crates how long the longest chain of crates takes that begins with it, each used by the next. This is in
    lines of code. A crate takes as long as EACH lines more, since `rt` reads the libraries first."""
    known, lines = crates(), {}
    for name in reversed([it for it in known if it in names]):
        own = EACH + sum(file.read_bytes().count(b"\n") for file in (TOP / "crates" / name).glob("src/**/*.rt"))
        lines[name] = own + max((lines[it] for it in lines if name in known[it]), default=0)
    return lines


@contextmanager
def copy_apart(name):
    """A copy of a crate and of those below it, with what `rt` has built of them. What `rt` keeps of this crate is then as it leaves
    it in the copy. The files are links, since `rt` makes a new file where one changes."""
    used, folder = below([name]), TOP / "crates" / name
    BUILT.mkdir(exist_ok=True)
    with tempfile.TemporaryDirectory(prefix="proof-", dir=BUILT) as copied, open_locked(folder):
        root = Path(copied)
        for it in used:
            left_out = ["must-fail"] + ["incremental"] * (it != name)
            shutil.copytree(TOP / "crates" / it, root / "crates" / it, copy_function=os.link, ignore=lambda *_, it=left_out: it)
        lines = (TOP / "crates.txt").read_text().splitlines(keepends=True)
        (root / "crates.txt").write_text("".join(line for line in lines if re.split(r"[\s:]", line)[0] in used))
        yield root / "crates" / name
        if (folder / "out").is_dir():
            (folder / "out").rename(root / "before")
        if (root / "crates" / name / "out").is_dir():
            (root / "crates" / name / "out").rename(folder / "out")


@contextmanager
def open_locked(folder):
    """Waits until no `rt` works in a folder, and lets none begin meanwhile."""
    held = os.open(folder, os.O_RDONLY)
    try:
        fcntl.flock(held, fcntl.LOCK_EX)
        yield
    finally:
        os.close(held)


def prove(name, rt, beside):
    """Proves a crate over those below it, and builds what the crates above need of it. Of the program the stored run is compared."""
    begin = time.monotonic()
    # (`rt` works in one crate at a time, and in those below it. So each crate is proved in a copy)
    with copy_apart(name) as folder:
        words = ["all", "test"] if (folder / "src/main.rt").exists() else ["lib"]
        is_proved = rt(folder, *words, "--jobs", f"{max(CORES // 2, 1) if beside else CORES}", beside=beside)
    print(f"{name} took {time.monotonic() - begin:.0f} s")
    if not is_proved:
        FAILURES.append(f"{name} is not proved")
    return is_proved


def prove_crates(names, rt):
    """Proves these crates side by side, each once those below it are proved. The crate that begins the longest chain gets all cores,
    and others what it leaves of them. Whether all are proved."""
    known, lines, left, running = crates(), chains(names), set(names), {}
    with ThreadPoolExecutor(CORES) as cores:
        while left or running:
            unproved = left | set(running.values())
            ready = sorted((name for name in left if not unproved & set(known[name])), key=lambda name: -lines[name])
            for name in ready[:CORES - len(running)]:
                left.remove(name)
                beside = lines[name] < max(lines[it] for it in unproved)
                running[cores.submit(prove, name, rt, beside)] = name
            for it in wait(running, return_when=FIRST_COMPLETED).done:
                del running[it]
                if not it.result():
                    wait(running)
                    return False
    return True


def run_tests(name):
    """Runs the tests of a crate, and proves nothing. Whether they pass, and there are some."""
    # (only a hang takes an hour, also with less priority on a busy machine)
    ran = subprocess.run(["nice", "rt", "try", "--test", "--seconds", "3600"], cwd=TOP / "crates" / name, stdin=subprocess.DEVNULL,
                         stdout=subprocess.PIPE, stderr=subprocess.STDOUT, text=True, errors="replace")
    counted = re.search(r"(?m)^tests: (\d+)$", ran.stdout)
    passed = ran.returncode == 0 and counted is not None and int(counted[1]) > 0
    print(f"{name}: {counted[1]} tests" if passed else f"{ran.stdout}{name}: its tests failed with status {ran.returncode}")
    if not passed:
        FAILURES.append(f"{name}: its tests failed with status {ran.returncode}")
    return passed


def has_layout(names):
    """Whether each file of these crates has the layout that `rt fmt` gives."""
    files = [file for name in names for file in sorted((TOP / "crates" / name).glob("*/**/*"))
             if is_read(file) and file.suffix in (".rt", ".antt")]
    return subprocess.run([KIT / "bin/rattle", "fmt", "--check", *files]).returncode == 0


def prove_each(names, tests, rt=rt):
    """Proves these crates, and beside that runs the tests of others. Whether all passed."""
    with ThreadPoolExecutor(1) as beside:
        running = [beside.submit(run_tests, name) for name in tests]
        if not prove_crates(names, rt):
            beside.shutdown(cancel_futures=True)
            return False
    return all(it.result() for it in running)


def run_all_tests():
    """Runs the tests in Rattle. Returns how many crates passed, or None where one failed."""
    if needs.missing("the tests in Rattle", "rt"):
        return 0
    names = [name for name in crates() if has_tests(name)]
    return len(names) if all([run_tests(name) for name in names]) else None


def prove_code():
    """Proves the program, the archive and all that they are built from. Returns what passed: these two."""
    return 2 if prove_each(below(BUILDS), ()) and holds_handles() else None


def prove_all():
    """Proves every crate but those of tests, whose tests run beside that. Returns how many crates there are, or None where
    something failed."""
    tests = [name for name in crates() if has_tests(name)]
    others = [name for name in crates() if name not in tests]
    return len(crates()) if prove_each(others, tests) and holds_handles() else None


def take(root, files=(PROGRAM, ARCHIVE)):
    """Puts the program and the archive that were built below root into build/, each under its name only once it is whole."""
    BUILT.mkdir(exist_ok=True)
    for file in files:
        name = "capvet" if file == PROGRAM else "libcapvet.a"
        shutil.copy(root / file, BUILT / f"{name}.new")
        (BUILT / f"{name}.new").replace(BUILT / name)


def copy(root):
    """Copies the tree, but what git and the builds keep in it, and the edits."""
    def ignored(folder, names):
        return (".git", "build") if Path(folder) == TOP else ("out", "target", "must-fail")
    shutil.copytree(TOP, root, ignore=ignored)


def counted(words, folder):
    """Runs a command, shows its output, and returns how many cases passed, or None where one failed. The lines about bad edits are
    kept as failures."""
    passed, known = None, len(FAILURES)
    with subprocess.Popen(words, cwd=folder, stdout=subprocess.PIPE, text=True, errors="replace") as ran:
        for line in ran.stdout:
            print(line, end="", flush=True)
            found = re.fullmatch(r"(\d+) passed, 0 failed\n", line)
            passed = int(found[1]) if found else passed
            if BAD.match(line):
                FAILURES.append(line.rstrip())
    if ran.returncode and len(FAILURES) == known:
        FAILURES.append(f"{' '.join(map(str, words))} ended with status {ran.returncode}")
    return None if ran.returncode else passed


def rt_help():
    """What `rt` says of its words. (--anew is one where `rt ci` keeps what it has proved)"""
    return subprocess.run(["rt", "help"], stdout=subprocess.PIPE, stderr=subprocess.STDOUT, text=True).stdout


def prove_and_edit(words):
    """Proves everything on a copy, and tries the edits. Returns how many cases passed, or None where one failed.
    The exports for C are proved again over the libraries that `rt ci` left proved there, once for all targets."""
    with tempfile.TemporaryDirectory(prefix="capvet-") as folder:
        root, scratch = Path(folder) / "capvet", Path(folder) / "scratch"
        copy(root)
        scratch.mkdir()
        passed = counted(["rt", "ci", *(word for word in words if word in rt_help())], root)
        (root / ARCHIVE).parent.mkdir(exist_ok=True)
        if passed is None or not targets.compile_crate(root, ARCHIVE.parts[1], root / ARCHIVE, scratch):
            return None
        refused = counted([sys.executable, TOP / "tools/edits.py", "--proved", root, *words], TOP)
        if refused is None:
            return None
        take(root)
        is_built = targets.build([name for name in targets.TARGETS if not targets.lacking(name)], root, scratch)
        return passed + refused if is_built else None


def is_read(file):
    """Whether the proofs read this file of crates/."""
    return file.is_file() and file.relative_to(TOP / "crates").parts[1] not in ("out", "must-fail")


def checksum():
    """The checksum of all that the proofs read, of the kit's name, and of what was built."""
    whole = hashlib.sha256(subprocess.run(["rt", "version"], capture_output=True, check=True).stdout)
    files = [TOP / "crates.txt", TOP / "HANDLES", *filter(is_read, sorted((TOP / "crates").glob("*/**/*")))]
    for file in [*files, BUILT / "capvet", BUILT / "libcapvet.a"]:
        whole.update(f"{file.relative_to(TOP)}\n{file.stat().st_size}\n".encode() + file.read_bytes())
    return whole.hexdigest()


def kept():
    """How many cases passed when build/ was made, where nothing has changed since. Else None."""
    if not all((BUILT / name).is_file() for name in ("capvet", "libcapvet.a", "proved")):
        return None
    found, passed = (BUILT / "proved").read_text().split()
    return int(passed) if found == checksum() else None


def ended(passed):
    """Names what failed once more, and prints how many cases passed, or that one failed for None; the status."""
    print("".join(f"FAILED: {line}\n" for line in FAILURES), end="")
    print("0 passed, 1 failed" if passed is None else f"{passed} passed, 0 failed")
    return passed is None


def main(words):
    sys.stdout.reconfigure(line_buffering=True)
    ways = {(): prove_all, ("--code",): prove_code, ("--edits",): lambda: prove_and_edit([]),
            ("--edits", "--anew"): lambda: prove_and_edit(["--anew"])}
    if words != ["--tests"] and tuple(words) not in ways:
        sys.exit(__doc__)
    if words == ["--tests"]:
        return ended(run_all_tests())
    passed = None if "--edits" in words else kept()
    if passed is not None:
        print("nothing has changed since build/ was proved")
    else:
        (BUILT / "proved").unlink(missing_ok=True)
        passed = ways[tuple(words)]() if has_layout(crates()) else None
        if passed is not None and "--edits" not in words:
            take(TOP)
    if passed is not None and words != ["--code"]:
        (BUILT / "proved").write_text(f"{checksum()} {passed}\n")
    return ended(passed)


if __name__ == "__main__":
    sys.exit(main(sys.argv[1:]))
