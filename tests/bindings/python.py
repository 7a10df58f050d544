#!/usr/bin/env python3
"""Builds the wheel of bindings/python over the archive, installs it in fresh environments, and runs its tests.

    python.py [PROGRAM [ARCHIVE]] [--full] [--idle]

Its calls return what PROGRAM prints: for the samples, for one that is cut at each byte, for changed messages, and for those that
hypothesis makes. Streams arrive in pieces, plain and packed, in a file and in a feed. A socket sends a message and a half, and
the first one comes before the rest is sent. After timeouts and failed reads no byte is lost. `peek_range` yields what `peek`
returns for each path, `tree` prints the lines of `capvet dump`, and `explain` returns those of `capvet explain` for 2,000 messages.
The getters of a vetted message return what `peek` does, `vet_all` returns what `messages` yields, and nothing but vetting makes a message.

The rows and the summary of `python -m capvet vet` are those of PROGRAM, by one process and by three. An interrupt ends it within
a second. If its processes are killed, the file that they were at has its row. The page of `map` shows the line of PROGRAM in a
headless Chromium without a network. Other threads run during a call, and many calls leave less than 4 MiB more resident.

`mypy --strict` finds no fault in the package, in the programs of the pages and in the examples, and it finds eleven wrong lines.
The commands and programs of docs/python.md run as the page shows. On an emulated processor without x86-64-v2 `import capvet`
raises ImportError.

With --full the tests make 20,000 cases and a million calls, and valgrind counts the instructions of a call. The package is
installed in place, and the tests of its source distribution run. With --idle times are compared, for which the machine may do
nothing else. The environments take cffi, pytest and hypothesis from the interpreter that has them: Debian's, or the first
python3 on the path. Without a tool, a line says what isn't tested. The last line is 'N passed, M failed', and the status is 1
where a case failed.
"""
import os
import re
import shutil
import struct
import sys
import tarfile
import tempfile
from pathlib import Path

sys.path[1:1] = map(str, Path(__file__).resolve().parents[1].iterdir())

import needs
from amount import IS_FULL, IS_IDLE, cases
from harness import ARCHIVE, PROGRAM, TOP, compare, count, ended, instructions, run
from install import make
from needs import MODULES, missing, python_with

PIP = ("-m", "pip", "--disable-pip-version-check")
VERSION = re.search(r"^version = (.*)$", (TOP / "bindings/python/setup.cfg").read_text(), re.M)[1]


def wheel_of(folder):
    """The wheel, as `make wheel` builds it."""
    text, status = run(["make", "-s", "wheel", f"BUILT_PROGRAM={PROGRAM}", f"BUILT_ARCHIVE={ARCHIVE}", f"wheeldir={folder}"],
                       cwd=TOP)
    wheels = [file.name for file in folder.glob("*.whl")]
    compare("make wheel", (0, [f"capvet-{VERSION}-cp39-abi3-linux_x86_64.whl"]), (status, wheels))
    if status or len(wheels) != 1:
        print(text)
        return None
    return folder / wheels[0]


def environment(python, folder):
    """A fresh virtual environment, which has what the interpreter has, pip too."""
    compare("a fresh environment", ("", 0), run([python, "-m", "venv", "--system-site-packages", "--without-pip", folder]))
    return folder / "bin/python"


def links(python, folder):
    """The module needs the C library alone, and no text of it has the place where it was built."""
    where = "import capvet._capvet as it; print(it.__file__)"
    file = Path(run([python, "-c", where], cwd=folder)[0].strip())
    if missing("the libraries of the module for Python", "readelf"):
        return
    text = run(["readelf", "-d", file])[0]
    compare("the libraries of the module", True, set(re.findall(r"NEEDED.*\[(.*)\]", text)) <= {"libc.so.6", "libpthread.so.0"})


def on_processors(python, folder):
    """The package is imported on a processor that has what the library needs, and on no other."""
    if missing("the package for Python on older processors", "qemu-x86_64"):
        return
    script = "import capvet; print(capvet.vet(bytes([0, 0, 0, 0, 1] + [0] * 11)).report.pointers)"
    for processor, status, line in (("Nehalem", 0, "1\n"), ("Conroe", 1, "ImportError: this processor lacks a feature of x86-64-v2")):
        said = run(["qemu-x86_64", "-cpu", processor, python, "-c", script], cwd=folder)
        compare(f"import capvet on {processor}", (True, status), (line in said[0], said[1]))


def tested(python, folder):
    """The tests of the package, against the installed wheel."""
    if run([python, "-c", "import hypothesis, pytest"])[1]:
        print(needs.line("the calls of the package for Python", "pytest"))
        return
    some = cases(600, full=20_000)  # messages that hypothesis makes, and changed messages
    calls = cases(100_000, full=1_000_000)  # calls that leave no memory
    counts = dict(CAPVET_CASES=str(some), CAPVET_CALLS=str(calls))
    counts |= dict(CAPVET_IDLE="1") if IS_IDLE else {}
    variables = {**os.environ, "CAPVET_PROGRAM": str(PROGRAM), "PYTHONDONTWRITEBYTECODE": "1", **counts}
    text, status = run([python, "-m", "pytest", "-q", "-rs", "-p", "no:cacheprovider", *["-s"] * IS_IDLE, "."],
                       cwd=TOP / "bindings/python/tests", env=variables)
    counted = {word: int(number) for number, word in re.findall(r"(\d+) (passed|failed|error|skipped)", text)}
    count(counted.get("passed", 0), counted.get("failed", 0) + counted.get("error", 0))
    compare("pytest", (0, True), (status, counted.get("passed", 0) > 0))
    # (a test that is skipped for lack of something says so by a line of `needs`)
    shown = (re.sub(r"SKIPPED .*?: (?=not tested)", "", it) for it in text.splitlines())
    print("\n".join(it for it in shown if status or it.startswith(("SKIPPED", "not tested", "python:", "two threads"))))
    print(f"python: {counted} of pytest")


# What a call of the package may not get, and what a message is known to have.
WRONG = """import capvet, gzip, socket
reveal_type([it.report for it in capvet.messages(b"") if isinstance(it, capvet.Message)])
reveal_type([it.unvetted for it in capvet.read_messages(gzip.open("")) if not isinstance(it, capvet.Message)])
reveal_type([it.required for it in [capvet.FrameError()]])
capvet.vet("text")
capvet.vet(None)
capvet.read_messages("name")
capvet.MessageFeed().feed("text")
[it.data for it in capvet.messages(b"")]
[it for it in capvet.messages(b"") if isinstance(it, capvet.Refusal) and it.reason == "DepthLimits"]
[it.unvetted for it in capvet.vet_all(b"") if isinstance(it, capvet.Message)]
capvet.vet(b"").data = memoryview(b"")
capvet.vet(b"").first_difference().reason
capvet.Limits(1, 2, 3)
capvet.read_messages(socket.socket())
"""


def typed(python, folder):
    """mypy finds no fault in the package, in each program of the pages, and in the examples; and it finds the faults above."""
    if missing("the type hints of the package for Python", "mypy"):
        return
    programs = folder / "programs"
    programs.mkdir()
    for page in ("docs/python.md", "docs/scale.md", "bindings/python/README.md"):
        blocks = re.findall(r"^```python\n(.*?)^```$", (TOP / page).read_text(), re.M | re.S)
        for number, block in enumerate(blocks):
            name = re.sub(r"\W", "_", page) + f"_{number}.py"
            (programs / name).write_text("data = b''\n" * ("vet(data)" in block and "data" not in block.partition("vet(data)")[0]) + block)
    compare("the pages have programs", True, len(list(programs.iterdir())) >= 6)
    # (Dask would be looked through for half a minute, and has few types)
    (folder / "mypy.ini").write_text("[mypy]\n[mypy-distributed.*,fsspec.*]\nfollow_imports = skip\n")
    command = ["mypy", "--strict", "--ignore-missing-imports", "--config-file", folder / "mypy.ini", "--cache-dir", folder / "mypy",
               "--python-executable", python]
    for what in (["-p", "capvet"], [programs], sorted((TOP / "examples/python").glob("*.py"))):
        text, status = run([*command, *what], cwd=folder)
        compare(f"mypy --strict of {what}", (0, True), (status, text.startswith("Success")))
        if status:
            print(text)
    (folder / "wrong.py").write_text(WRONG)
    text, status = run([*command, "wrong.py"], cwd=folder)
    found = re.findall(r"^wrong.py:(\d+): (?:error|note): (?:Revealed type is \"(.*)\"|.*)$", text, re.M)
    kinds = {2: "builtins.list[capvet.reports.Report]", 3: "builtins.list[builtins.memoryview]",
             4: "builtins.list[Union[builtins.int, None]]"}
    expected = {(str(number), kinds.get(number, "")) for number in range(2, 2 + WRONG.count("\n") - 1)}
    compare("mypy of what is wrong", (1, expected), (status, set(found)))


def cost_of_a_call(python, folder):
    """A call on 16 MiB takes at most 5 % more instructions than from C."""
    if missing("the cost of a call from Python", "valgrind"):
        return
    words, message, script = (16 << 20) // 8, folder / "message", folder / "times.py"
    # (a list of pointers to structs without words)
    message.write_bytes(struct.pack(f"<II{words}Q", 0, words, 1 | 6 << 32 | words - 1 << 35, *[0xFFFFFFFC] * (words - 1)))
    script.write_text("import sys, capvet\ndata = open(sys.argv[1], 'rb').read()\n"
                      "for _ in range(int(sys.argv[2])):\n    capvet.vet(data)\n")
    program = folder / "times"
    built = run(["cc", "-std=c99", "-O2", f"-I{TOP / 'include'}", TOP / "tests/calls/c/times.c", ARCHIVE, "-o", program])
    compare("cc times.c", ("", 0), built)
    costs = []
    for command in ([program, message], [python, script, message]):
        few, more = (instructions([*command, str(count)]) for count in (1, 5))
        costs.append((more - few) / 4)
    compare("a call on 16 MiB costs at most 5 % more than from C", True, 0 < costs[1] <= 1.05 * costs[0])
    print(f"python: a call on 16 MiB takes {costs[1] / max(costs[0], 1):.4f} of the instructions of the call from C")


def from_sources(python, folder, prefix):
    """pip builds the package over an installed library, found by pkg-config or in CAPVET_LIB_DIR, and says if there is none."""
    sources = folder / "sources"
    shutil.copytree(TOP / "bindings/python", sources, ignore=shutil.ignore_patterns("build", "*.egg-info", "__pycache__"))
    nothing = folder / "nothing"
    nothing.mkdir()
    bare = {name: text for name, text in os.environ.items() if name != "CAPVET_LIB_DIR"}
    for name, variables, line in (
        ("by pkg-config", {"PKG_CONFIG_PATH": str(prefix / "lib/pkgconfig")}, None),
        ("by CAPVET_LIB_DIR", {"CAPVET_LIB_DIR": str(prefix / "lib"), "PKG_CONFIG_LIBDIR": str(nothing)}, None),
        ("without the library", {"CAPVET_LIB_DIR": str(nothing)}, f"capvet: there is no file {nothing}/libcapvet.a"),
        ("without capvet.pc", {"PKG_CONFIG_PATH": str(nothing), "PKG_CONFIG_LIBDIR": str(nothing)},
         "capvet: libcapvet.a was not found (Package capvet was not found in the pkg-config search path."),
    ):
        at = folder / name.replace(" ", "-")
        shutil.copytree(sources, at)
        text, status = run([python, *PIP, "install", "-q", "--no-build-isolation", "--no-index", "--no-deps", "--force-reinstall", at],
                           env={**bare, **variables}, cwd=folder)
        expected = ("", 0) if line is None else (line, 1)
        compare(f"pip install {name}", expected, (text if line is None else line if line in text else text, status))
        if line is None and status == 0:
            said = run([python, "-c", "import capvet; print(capvet.vet(bytes([0, 0, 0, 0, 1] + [0] * 11)).report.pointers)"], cwd=folder)
            compare(f"the package {name}", ("1\n", 0), said)


def editable(python, folder, prefix):
    """pip installs the package in place. Git leaves the module alone that it builds there."""
    shutil.copytree(TOP / "bindings/python", folder, ignore=shutil.ignore_patterns("build", "*.egg-info", "__pycache__", "*.so"))
    variables = {**os.environ, "PKG_CONFIG_PATH": str(prefix / "lib/pkgconfig")}
    compare("pip install -e", ("", 0), run([python, *PIP, "install", "-q", "--no-build-isolation", "--no-index", "--no-deps",
                                            "--force-reinstall", "-e", folder], env=variables, cwd=folder))
    said = run([python, "-c", "import capvet._capvet as it; print(it.__file__)"], cwd=folder.parent)
    compare("the module in place", (True, 0), (said[0].startswith(str(folder / "capvet/_capvet.")), said[1]))
    if (TOP / ".git").exists() and not missing("what git sees of an editable install", "git"):
        name = Path(said[0].strip()).name
        compare("git", 0, run(["git", "check-ignore", "-q", f"bindings/python/capvet/{name}"], cwd=TOP)[1])


def source_distribution(python, folder, prefix):
    """A source distribution is made without the library. pip builds it over an installed one, and its own tests pass."""
    copied = shutil.ignore_patterns("build", "*.egg-info", "__pycache__", "*.so", "target")
    for part in ("bindings/python", "examples", "include", "tests"):
        shutil.copytree(TOP / part, folder / part, ignore=copied)
    made, nothing = folder / "made", folder / "nothing"
    nothing.mkdir()
    variables = {**os.environ, "PKG_CONFIG_LIBDIR": str(nothing), "PKG_CONFIG_PATH": str(nothing), "CAPVET_LIB_DIR": ""}
    build = "import sys, setuptools.build_meta as it; it.build_sdist(sys.argv[1])"
    text, status = run([python, "-c", build, made], cwd=folder / "bindings/python", env=variables)
    names = [file.name for file in made.glob("*")]
    compare("a source distribution, without the library", (0, [f"capvet-{VERSION}.tar.gz"]), (status, names))
    if status:
        print(text)
        return None
    archive = made / names[0]
    variables = {**os.environ, "PKG_CONFIG_PATH": str(prefix / "lib/pkgconfig")}
    compare("pip install of it", ("", 0), run([python, *PIP, "install", "-q", "--no-build-isolation", "--no-index", "--no-deps",
                                               "--force-reinstall", archive], env=variables, cwd=folder))
    with tarfile.open(archive) as files:
        files.extractall(folder)
    if IS_FULL and not missing("the tests of the source distribution", "pytest"):
        variables = {**os.environ, "CAPVET_PROGRAM": str(prefix / "bin/capvet"), "CAPVET_CASES": "600", "CAPVET_CALLS": "10000"}
        text, status = run([python, "-m", "pytest", "-q", "-p", "no:cacheprovider", "."], env=variables,
                           cwd=folder / f"capvet-{VERSION}/tests")
        compare("its tests", (0, True), (status, bool(re.search(r"^\d+ passed", text, re.M))))
        if status:
            print(text[-2000:])
    return archive


def described(folder, archives):
    """What a registry shows of the packages."""
    if not missing("what a registry shows of the wheel", "unzip"):
        text = run(["unzip", "-p", archives[0], "capvet-*/METADATA"])[0]
        lines = (f"Version: {VERSION}", "Author: The owner of the repository", "Requires-Dist: cffi ?\\(?>=1.15\\)?",
                 "Requires-Python: >=3.9", ".*There is no licence yet: .*")
        compare("the metadata", [], [line for line in lines if not re.search(f"^{line}$", text, re.M)])
        compare("no licence that nobody has chosen", False, "\nLicense" in text)
    if not missing("that a registry takes the packages for Python", "twine"):
        text, status = run(["twine", "check", "--strict", *archives], cwd=folder)
        compare("twine check", (0, len(archives)), (status, text.count("PASSED")))


# A stand-in for pycapnp with the arguments of its from_bytes(). It counts the people of a Book.
CAPNP = """import capvet
from contextlib import contextmanager
from types import SimpleNamespace

class Book:
    @staticmethod
    @contextmanager
    def from_bytes(buf, traversal_limit_in_words=None, nesting_limit=None, builder=False):
        assert traversal_limit_in_words >= 8 << 20 and nesting_limit >= 64
        yield SimpleNamespace(people=[None] * capvet.peek(buf, "/p0").count)

def load(name):
    open(name).close()
    return SimpleNamespace(Book=Book)
"""


def shown(python, folder):
    """The commands and programs of docs/python.md, word for word, in a copy of what they need. `make` builds nothing."""
    page = (TOP / "docs/python.md").read_text()
    blocks = re.findall(r"^```(\w*)\n(.*?)^```$", page, re.M | re.S)
    line = next(text for language, text in blocks if not language)
    (folder / "bin").mkdir(parents=True)
    (folder / "bin/python3").symlink_to(python)
    for number, block in enumerate(text for language, text in blocks if language == "sh"):
        place = folder / f"way-{number}"
        for part in ("bindings", "include", "examples", "docs", "completions", "cmake"):
            shutil.copytree(TOP / part, place / part, ignore=shutil.ignore_patterns("target", "__pycache__", "Cargo.lock"))
        for part in ("Makefile", "crates.txt", "capvet.pc.in", "capvet-kj.pc.in"):
            shutil.copy2(TOP / part, place / part)
        (place / "crates").mkdir()
        (place / "build").mkdir()
        shutil.copy(ARCHIVE, place / "build/libcapvet.a")
        shutil.copy(PROGRAM, place / "build/capvet")
        if (TOP / "build/inspector.html").exists():
            shutil.copy(TOP / "build/inspector.html", place / "build")
        variables = {**os.environ, "HOME": str(place), "PATH": f"{folder / 'bin'}:{os.environ['PATH']}"}
        text, status = run(["sh", "-ec", block], cwd=place, env=variables)
        compare(f"docs/python.md, its commands {number}", (True, 0), (text.endswith(line), status))
        if status:
            print(text)
    printed = dict(re.findall(r"^```python\n((?:(?!```).*\n)*)```\n\nIt prints:\n\n```\n((?:(?!```).*\n)*)```$", page, re.M))
    compare("docs/python.md has a program with its output", True, len(printed) > 0)
    (folder / "stand-in").mkdir()
    (folder / "stand-in/capnp.py").write_text(CAPNP)
    compare("docs/python.md begins with a service", True, "capvet.vet(data).read_with(" in next(it for _, it in blocks))
    for number, block in enumerate(text for language, text in blocks if language == "python"):
        text, status = run([place / "venv/bin/python", "-c", block], cwd=place,
                           env={**os.environ, "PYTHONPATH": str(folder / "stand-in")})
        compare(f"docs/python.md, its program {number}", 0, status)
        if block in printed:
            compare(f"docs/python.md, its program {number} prints", printed[block], text)
        else:
            compare(f"docs/python.md, its program {number} prints", True, text.count("\n") in (1, 4) and "Error" not in text)
    variables = {**os.environ, "PATH": f"{place / 'venv/bin'}:{os.environ['PATH']}"}
    for command, expected in (it for language, text in blocks if language == "console"
                            for it in re.findall(r"^\$ (.*)\n((?:(?!\$ ).*\n)*)", text, re.M)):
        needed = ["jq"] * ("jq" in command) + ["esbuild", "wasm-opt", "proved-crates"] * (" map " in command)
        if missing(f"docs/python.md: {command}", *needed):
            continue
        compare(f"docs/python.md: {command}", expected, run(["bash", "-c", command], cwd=place, env=variables)[0])


def main():
    if missing("the package for Python", "wheel", "cc", "pkg-config"):
        return ended()
    python = python_with(MODULES["wheel"][0])
    with tempfile.TemporaryDirectory() as scratch:
        folder = Path(scratch)
        prefix = folder / "x"
        compare("make install", ("", 0), make("install", scratch, f"PREFIX={prefix}"))
        wheel = wheel_of(folder / "wheels")
        if wheel is not None:
            installed = environment(python, folder / "fresh")
            compare("pip install of the wheel", ("", 0), run([installed, *PIP, "install", "-q", "--no-index", wheel], cwd=folder))
            links(installed, folder)
            typed(installed, folder)
            on_processors(installed, folder)
            tested(installed, folder)
            if IS_FULL:
                cost_of_a_call(installed, folder)
        shown(python, folder / "shown")
        other = environment(python, folder / "other")
        from_sources(other, folder, prefix)
        if IS_FULL:
            editable(other, folder / "editable", prefix)
        archive = source_distribution(other, folder / "sdist", prefix)
        if wheel and archive:
            described(folder, [wheel, archive])
    return ended()


if __name__ == "__main__":
    sys.exit(main())
