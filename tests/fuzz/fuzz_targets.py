"""The fuzz targets: how each is built over a copy of the repository's files, replays inputs, searches, and counts the lines that
its inputs reach. Used by tests/fuzz/fuzz.py."""
import ast
import json
import os
import re
import shutil
import signal
import subprocess
import sys
import time
from dataclasses import dataclass, field
from pathlib import Path
from threading import Lock

import fuzz_corpus
from harness import ARCHIVE, TOP
from install import make
from needs import CRATES, GOCODE, MODULES, OLDEST_RUST, python_with

CHECKS = ("-g", "-O1", "-fno-omit-frame-pointer", "-fsanitize=fuzzer,address,undefined", "-fno-sanitize-recover=all")
COVERAGE = ("-g", "-O0", "-fsanitize=fuzzer", "-fprofile-instr-generate", "-fcoverage-mapping")
# The most bytes of an input, and the most seconds that one may take.
LIBFUZZER = ("-max_len=20000", "-timeout=120", "-rss_limit_mb=3000", "-print_final_stats=1")
# The most bytes of an input that goes into the corpus.
MERGED_MOST = 600
# What is copied, so that a fault can be put in.
PARTS = ("include", "packaging", "bindings", "rust", "guard", "examples", "tests/fuzz", "tests/readers")
# How rustc counts what is reached, for libFuzzer.
SANCOV = "-Cpasses=sancov-module " + " ".join(f"-Cllvm-args=-sanitizer-coverage-{it}" for it in (
    "level=4", "inline-8bit-counters", "pc-table", "trace-compares")) + " --cfg fuzzing -Cdebuginfo=1"
# How rustc counts lines. Debian's rustc has no runtime for it, so that of clang is linked, which is of the same LLVM. (An option
# that is not stable says so)
COUNTED = "-Cinstrument-coverage -Zno-profiler-runtime --cfg fuzzing"
SOURCES = """[source.crates-io]
replace-with = "debian"

[source.debian]
directory = "{}"
"""


def run(command, seconds=3600, **how):
    """What a command wrote on both outputs, and its status. (124: it took too long, and was ended with its children)"""
    child = subprocess.Popen([str(it) for it in command], stdout=subprocess.PIPE, stderr=subprocess.STDOUT, stdin=subprocess.DEVNULL,
                             start_new_session=True, text=True, errors="replace", **how)
    try:
        return child.communicate(timeout=seconds)[0], child.returncode
    except subprocess.TimeoutExpired:
        # (Go then prints what each goroutine does)
        os.killpg(child.pid, signal.SIGQUIT)
        time.sleep(5)
        os.killpg(child.pid, signal.SIGKILL)
        return child.communicate()[0] + f"\nERROR: no end within {seconds} seconds", 124


@dataclass
class Tree:
    """A copy of what the targets are built from, with the installed library, what was built, and the corpus."""
    folder: Path

    def __post_init__(self):
        self.top, self.prefix, self.out = self.folder / "copy", self.folder / "x", self.folder / "out"
        self.corpus = self.folder / "corpus"
        fuzz_corpus.write(self.corpus)
        self.out.mkdir(parents=True)
        ignored = shutil.ignore_patterns("target", "Cargo.lock", "__pycache__", "*.so", "found.zip")
        for part in PARTS:
            shutil.copytree(TOP / part, self.top / part, ignore=ignored)
        text, status = make("install", self.folder, f"PREFIX={self.prefix}")
        if status:
            raise OSError(text)

    @property
    def environment(self):
        return {**os.environ, "PKG_CONFIG_PATH": f"{self.prefix}/lib/pkgconfig", "GOFLAGS": "", "GOPROXY": "off", "GOWORK": "off"}


@dataclass
class Result:
    """What a run of a target gave: how many inputs ran, what was found, and where the input of a finding is."""
    runs: int = 0
    finding: str = ""
    input: Path = None
    text: str = field(default="", repr=False)


# How many seconds more than it should a search may take. Only a hang takes longer.
HANG = 1_800
# What Go says of an input that takes too long, in a search: a test there waits for a few seconds, since Go ends it after ten.
OF_TIME = re.compile(r"never: |nothing arrived: |i/o timeout|Client\.Timeout|fuzzing process hung")
# A line that says what a finding is about.
SAYING = re.compile(r"RULE BROKEN .*|.*ERROR: (?:AddressSanitizer|LeakSanitizer|libFuzzer): .*|.*runtime error: .*"
                    r"|thread '.*' panicked at .*|ERROR: no end .*|\s+fuzzing process hung .*|\s+fuzz\w*_test\.go:\d+: .*|panic: .*"
                    r"|AssertionError.*|E? *\w*Error: .*")


def finding_of(text):
    """The line that says what was found, or the last one."""
    lines = text.splitlines()
    return next((line.strip() for line in lines if SAYING.fullmatch(line)), lines[-1] if lines else "no output")


class Target:
    """A fuzz target. `needs` are names of tests/shared/needs.py."""
    name, needs, files = "", (), ()
    # Whether it runs the inputs of the corpus.
    uses_corpus = True

    def folders(self, tree, kept):
        """Where inputs that were found are kept, and the corpus."""
        kept.mkdir(parents=True, exist_ok=True)
        return [kept, tree.corpus]


class LibFuzzer(Target):
    """A target of libFuzzer in C or C++."""

    def __init__(self, source, *needs, files, libraries=()):
        self.name, self.source, self.files, self.libraries = source.partition(".")[0], source, files, libraries
        self.needs = ("clang", "checks-clang", *needs)

    def compiler(self):
        is_c = self.source.endswith(".c")
        return ["clang", "-std=gnu11"] if is_c else ["clang++", "-std=c++17"]

    def build(self, tree, options=CHECKS):
        """Builds it, and returns what was wrong or an empty text."""
        mutator, program = tree.out / f"{self.name}-mutator.o", tree.out / self.name
        text, status = run(["clang", "-std=gnu11", "-O1", "-c", tree.top / "tests/fuzz/mutator.c", "-o", mutator])
        if status == 0:
            asked = ["pkg-config", "--cflags", "--libs", *self.libraries]
            flags = run(asked, env=tree.environment)[0].split() if self.libraries else []
            words = [*self.compiler(), "-Wall", "-Wextra", "-Wno-unused-function", *options, f"-I{tree.top}/include"]
            source = tree.top / "tests/fuzz" / self.source
            text, status = run([*words, source, mutator, *flags, "-o", program, *([] if self.libraries else [ARCHIVE])])
        return text if status else ""

    def command(self, tree):
        return [tree.out / self.name]

    def ran(self, tree, kept, *options, seconds=3600):
        folder = kept.parent / f"{self.name}-findings"
        folder.mkdir(parents=True, exist_ok=True)
        words = [*self.command(tree), *self.folders(tree, kept), *LIBFUZZER, f"-artifact_prefix={folder}/", *options,
                 f"-dict={TOP}/tests/fuzz/words.dict"]
        variables = {**tree.environment, "ASAN_OPTIONS": "allocator_may_return_null=1:detect_leaks=1"}
        text, status = run(words, seconds, env=variables, cwd=tree.out)
        found = re.findall(r"stat::number_of_executed_units: (\d+)|Done (\d+) runs", text)
        result = Result(max((int(one or other) for one, other in found), default=0), text=text)
        if status:
            result.finding = finding_of(text)
            written = re.search(r"Test unit written to (\S+)|Running: (\S+)", text)
            result.input = Path(written[1] or written[2]) if written else None
        return result

    def replay(self, tree, kept):
        return self.ran(tree, kept, "-runs=0")

    def search(self, tree, kept, seconds, seed=0):
        return self.ran(tree, kept, f"-max_total_time={seconds}", f"-seed={seed}", seconds=seconds + HANG)

    def merged(self, tree, kept, folder):
        """The inputs that were kept and reach something that the corpus doesn't."""
        folder.mkdir()
        words = [*self.command(tree), "-merge=1", f"-max_len={MERGED_MOST}", folder, tree.corpus, kept]
        run(words, env=tree.environment, cwd=tree.out)
        known = {path.read_bytes() for path in (tree.corpus).iterdir()}
        return [data for data in (path.read_bytes() for path in folder.iterdir()) if data not in known]

    def coverage(self, tree, kept):
        """For each file the lines that can be reached, each with the times that the inputs reached it."""
        wrong = self.build(tree, COVERAGE)
        profile, data = tree.out / f"{self.name}.profraw", tree.out / f"{self.name}.profdata"
        if wrong:
            return {}
        variables = {**tree.environment, "LLVM_PROFILE_FILE": str(profile)}
        run([*self.command(tree), *self.folders(tree, kept), *LIBFUZZER, "-runs=0"], env=variables)
        return lines_of(tree, profile, data, tree.out / self.name, self.files)


def lines_of(tree, profile, data, program, files):
    """The lines of a report of llvm-cov."""
    run(["llvm-profdata-14", "merge", "-sparse", profile, "-o", data])
    paths = [path for pattern in files for path in sorted(tree.top.glob(pattern))]
    text = run(["llvm-cov-14", "export", "-format=lcov", f"-instr-profile={data}", program, *paths])[0]
    found = {}
    for part in text.split("end_of_record"):
        if name := re.search(r"^SF:(.*)$", part, re.M):
            lines = {int(line): int(count) for line, count in re.findall(r"^DA:(\d+),(\d+)", part, re.M)}
            found[str(Path(name[1]).relative_to(tree.top))] = lines
    return found


class Rust(LibFuzzer):
    """The target in Rust. cargo makes an archive, which clang links with libFuzzer and the proved library."""

    def __init__(self):
        super().__init__("rust", "oldest-rust", "crates", "crate-capnp", files=("rust/capvet/src/*.rs", "rust/capvet-capnp/src/*.rs"))

    def build(self, tree, options=CHECKS):
        # (the compiler's checks see only what the archive and Rust ask of the allocator)
        counted, flags, linked = "", SANCOV, ["-fsanitize=fuzzer,address"]
        if options is COVERAGE:
            counted, flags, linked = "1", COUNTED, ["-fsanitize=fuzzer", "-fprofile-instr-generate"]
        crate, target = tree.top / "tests/fuzz/rust", tree.folder / f"rust{counted}"
        (crate / ".cargo").mkdir(exist_ok=True)
        (crate / ".cargo/config.toml").write_text(SOURCES.format(CRATES))
        variables = {**tree.environment, "CARGO_TARGET_DIR": str(target), "RUSTC": str(OLDEST_RUST / "rustc"), "RUSTFLAGS": flags}
        if counted:
            variables["RUSTC_BOOTSTRAP"] = counted
        host = re.search(r"^host: (.*)$", run([OLDEST_RUST / "rustc", "-vV"])[0], re.M)[1]
        # (with --target the flags are not for build scripts)
        cargo = [OLDEST_RUST / "cargo", "build", "--release", "--offline", "--quiet", "--target", host]
        text, status = run(cargo, env=variables, cwd=crate)
        if status:
            return text
        mutator, library = tree.out / "rust-mutator.o", target / host / "release/libfuzz.a"
        text, status = run(["clang", "-std=gnu11", "-O1", "-c", tree.top / "tests/fuzz/mutator.c", "-o", mutator])
        words = ["clang++", *linked, mutator, "-Wl,--whole-archive", library, "-Wl,--no-whole-archive", ARCHIVE,
                 "-lpthread", "-ldl", "-lm", "-o", tree.out / "rust"]
        text, status = run(words) if status == 0 else (text, status)
        return text if status else ""


def go_bytes(path):
    """The bytes of an input as Go keeps it."""
    text = re.search(rb"^\[\]byte\((.*)\)$", path.read_bytes(), re.M)[1].decode()
    # (Go quotes as Python does, but for two letters)
    return ast.literal_eval("b" + text) if text.isascii() else text[1:-1].encode()


class Go(Target):
    """A fuzz test of Go, by `go test -fuzz`."""
    needs = ("go", "cc", "pkg-config")
    # (targets are built side by side)
    copying = Lock()

    def __init__(self, folder, test, *needs):
        self.folder, self.test, self.needs = folder, test, (*Go.needs, *needs)
        self.name, self.files = f"go-{test[4:].lower()}", (f"{folder}/*.go",)
        self.uses_corpus = test not in ("FuzzGreeting", "FuzzOptions")

    def place(self, tree):
        """The folder of the package, and the environment. (The guard takes Debian's libraries, which are no modules)"""
        environment, parts = tree.environment, tree.folder / "path/src/capvet.invalid"
        if self.folder != "guard":
            return tree.top / self.folder, environment
        environment |= {"GO111MODULE": "off", "GOPATH": f"{tree.folder / 'path'}:{GOCODE.parent}", "PWD": str(parts / "guard")}
        return parts / "guard", environment

    def build(self, tree):
        parts = tree.folder / "path/src/capvet.invalid"
        with self.copying:
            if not parts.exists():
                shutil.copytree(tree.top / "bindings/go", parts / "capvet")
                shutil.copytree(tree.top / "guard", parts / "guard")
        place, environment = self.place(tree)
        text, status = run(["go", "vet", "."], cwd=place, env=environment)
        return text if status else ""

    def replay(self, tree, kept):
        place, environment = self.place(tree)
        words = ["go", "test", "-count=1", "-v", f"-run=^{self.test}$", ".", "-corpus", tree.corpus]
        text, status = run(words, cwd=place, env=environment)
        return Result(len(re.findall(r"^    --- PASS", text, re.M)), finding_of(text) if status else "", text=text)

    def search(self, tree, kept, seconds, seed=0):
        """Go takes another seed each time."""
        place, environment = self.place(tree)
        cache = kept.parent / "go-cache"
        cache.mkdir(parents=True, exist_ok=True)
        words = ["go", "test", "-run=^$", f"-fuzz=^{self.test}$", f"-fuzztime={seconds}s", "-fuzzminimizetime=2s", "-parallel=1", "."]
        words += ["-corpus", tree.corpus, f"-test.fuzzcachedir={cache}"]
        text, status = run(words, seconds + HANG, cwd=place, env=environment)
        # (on a busy machine the time may be over before all of the corpus has run)
        runs = re.findall(r"execs: (\d+)|baseline coverage: (\d+)/", text)
        result = Result(max((int(one or other) for one, other in runs), default=0), text=text)
        if status:
            result.finding = finding_of(text)
            written = sorted((place / "testdata/fuzz").rglob("*")) if (place / "testdata").exists() else []
            files = [path for path in written if path.is_file()]
            if files and OF_TIME.search(text) and self.passes(tree, files[-1]):
                print(f"fuzz: {self.name}: an input took too long beside other work, and passes: {result.finding}", flush=True)
                result.finding = ""
            elif files:
                result.input = kept.parent / f"{self.name}-findings" / files[-1].name
                result.input.parent.mkdir(exist_ok=True)
                shutil.copy(files[-1], result.input)
        return result

    def passes(self, tree, file):
        """Whether an input passes alone, ten times, with the time that only a hang exceeds. The search has written it for Go to find."""
        place, environment = self.place(tree)
        words = ["go", "test", "-count=10", "-v", f"-run=^{self.test}$/^{file.name}$", ".", "-corpus", tree.corpus]
        text, status = run(words, HANG, cwd=place, env=environment)
        return status == 0 and f"--- PASS: {self.test}/{file.name}" in text

    def coverage(self, tree, kept):
        self.build(tree)
        place, _ = self.place(tree)
        cached = kept.parent / "go-cache" / self.test
        if cached.is_dir():
            shutil.copytree(cached, place / "testdata/fuzz" / self.test, dirs_exist_ok=True)
        return self.covered(tree, tree.corpus)

    def covered(self, tree, corpus):
        """The lines that the inputs of a folder reach."""
        place, environment = self.place(tree)
        profile = tree.out / f"{self.name}.cover"
        words = ["go", "test", f"-run=^{self.test}$", f"-coverprofile={profile}", ".", "-corpus", corpus]
        run([*words[:2], "-count=1", *words[2:]], cwd=place, env=environment)
        found = {}
        for name, first, last, count in re.findall(r"^\S*/(\S+\.go):(\d+)\.\d+,(\d+)\.\d+ \d+ (\d+)$", profile.read_text(), re.M):
            lines = found.setdefault(f"{self.folder}/{name}", {})
            for line in range(int(first), int(last) + 1):
                lines[line] = max(lines.get(line, 0), int(count))
        return found

    def merged(self, tree, kept, folder):
        """The inputs of earlier searches that reach a line that the corpus doesn't."""
        cached = kept.parent / "go-cache" / self.test
        if not self.uses_corpus or not cached.is_dir():
            return []
        shutil.copytree(tree.corpus, folder)
        found = []

        def reached(inputs):
            for number, data in enumerate(inputs):
                (folder / f"more-{number}").write_bytes(data)
            lines = {(name, line) for name, counts in self.covered(tree, folder).items() for line, count in counts.items() if count}
            for path in folder.glob("more-*"):
                path.unlink()
            return lines

        def add(inputs, before):
            """Adds those of these inputs that reach more than the lines before. Returns the lines that are then reached."""
            after = reached([*found, *inputs])
            if not inputs or after <= before:
                return before
            if len(inputs) == 1:
                found.extend(inputs)
                return after
            half = len(inputs) // 2
            return add(inputs[half:], add(inputs[:half], before))
        inputs = [data for data in map(go_bytes, sorted(cached.iterdir())) if len(data) <= MERGED_MOST]
        add(inputs, reached([]))
        return found


class Python(Target):
    """The package for Python, with inputs of hypothesis."""
    name, needs, files = "python", ("wheel", "pytest", "cc", "pkg-config"), ("bindings/python/capvet/*.py",)

    def build(self, tree):
        python, place = python_with(MODULES["wheel"][0]), tree.folder / "python"
        shutil.copytree(tree.top / "bindings/python", place)
        text, status = run([python, "setup.py", "-q", "build_ext", "--inplace"], cwd=place, env=tree.environment)
        return text if status else ""

    def ran(self, tree, kept, *words, modules=(), seconds=3600):
        python = python_with(MODULES["pytest"][0])
        words = [python, *modules, tree.top / "tests/fuzz/python/python_fuzz.py", tree.corpus, *words]
        variables = {**tree.environment, "PYTHONPATH": str(tree.folder / "python"), "PYTHONDONTWRITEBYTECODE": "1"}
        text, status = run(words, seconds, env=variables, cwd=tree.out)
        runs = re.search(r"Done (\d+) runs", text)
        return Result(int(runs[1]) if runs else 0, finding_of(text) if status else "", text=text)

    def replay(self, tree, kept):
        return self.ran(tree, kept)

    def search(self, tree, kept, seconds, seed=0):
        return self.ran(tree, kept, str(seconds), str(seed), seconds=seconds + HANG)

    def coverage(self, tree, kept):
        self.build(tree)
        self.ran(tree, kept, "20", modules=("-m", "coverage", "run", "--include", f"{tree.folder}/python/capvet/*"))
        text = run([python_with(MODULES["coverage"][0]), "-m", "coverage", "json", "-q", "-o", "-"], cwd=tree.out)[0]
        found = {}
        for name, part in json.loads(text)["files"].items():
            lines = {line: 1 for line in part["executed_lines"]} | {line: 0 for line in part["missing_lines"]}
            found[f"bindings/python/capvet/{Path(name).name}"] = lines
        return found


class JavaScript(Target):
    """The package for JavaScript beside the native library, in Node. The search goes by the blocks that Node counts."""
    name, files = "js", ("bindings/js/capvet.js", "bindings/js/src/*.js")
    needs = ("node", "wasm-opt", "proved-crates", "clang", "checks-clang")

    def build(self, tree):
        text, status = run([sys.executable, TOP / "packaging/targets.py", "wasm"])
        package, source = tree.top / "bindings/js", tree.top / "tests/fuzz/js/native.c"
        if status == 0:
            text, status = run(["node", package / "build.mjs", TOP / "build/capvet.wasm", tree.folder / "js"])
        if status == 0:
            checks = [it for it in CHECKS if "fuzzer" not in it] + ["-fsanitize=address,undefined"]
            text, status = run(["clang", "-std=gnu11", "-Wall", "-Wextra", *checks, f"-I{tree.top}/include", source, ARCHIVE,
                                "-o", tree.out / "native"])
        return text if status else ""

    def ran(self, tree, kept, *words, seconds=3600):
        fuzz, package = tree.top / "tests/fuzz/js/fuzz.mjs", tree.folder / "js/capvet.js"
        text, status = run(["node", fuzz, package, tree.out / "native", tree.corpus, kept, *words], seconds)
        runs, written = re.search(r"Done (\d+) runs", text), re.search(r"Test unit written to (\S+)", text)
        return Result(int(runs[1]) if runs else 0, finding_of(text) if status else "", Path(written[1]) if written else None, text)

    def replay(self, tree, kept):
        return self.ran(tree, kept)

    def search(self, tree, kept, seconds, seed=0):
        return self.ran(tree, kept, str(seconds), str(seed), seconds=seconds + HANG)

    def coverage(self, tree, kept):
        self.build(tree)
        lines = tree.out / "js.json"
        self.ran(tree, kept, "0", "0", lines)
        return {f"bindings/js/{name}": {int(line): count for line, count in counts.items()}
                for name, counts in json.loads(lines.read_text()).items()}


TARGETS = (
    LibFuzzer("calls.c", files=("include/capvet.h",)),
    LibFuzzer("vetted.cpp", "libcapnp", files=("include/capvet/kj-message.h",), libraries=("capvet-kj",)),
    LibFuzzer("streams.cpp", "libcapnp", files=("include/capvet/kj-message.h", "include/capvet/kj-stream.h"),
              libraries=("capvet-kj",)),
    LibFuzzer("server.cpp", "libcapnp", files=("include/capvet/kj-server.h", "include/capvet/kj-stream.h"), libraries=("capvet-kj",)),
    LibFuzzer("host.c", files=("packaging/host.c",)),
    Rust(),
    Go("bindings/go", "FuzzCalls"),
    Go("bindings/go", "FuzzScanner"),
    Go("guard", "FuzzPump", "go-prometheus", "go-proxyproto", "go-systemd"),
    Go("guard", "FuzzGreeting", "go-prometheus", "go-proxyproto", "go-systemd"),
    Go("guard", "FuzzServe", "go-prometheus", "go-proxyproto", "go-systemd"),
    Go("guard", "FuzzRun", "go-prometheus", "go-proxyproto", "go-systemd"),
    Go("guard", "FuzzOptions", "go-prometheus", "go-proxyproto", "go-systemd"),
    Python(),
    JavaScript(),
)
