#!/usr/bin/env python3
"""Takes the package in bindings/go as its users do: over an installed library, found by pkg-config.

    go.py [PROGRAM [ARCHIVE]] [--full] [--idle]

Its tests run with the race detector and compare it with PROGRAM: verdicts, explanations, trees, segments, canonical and packed
forms. The inputs are samples, cut streams, changed tables, and changed messages under five sets of limits. `GetRange` gives the nodes
and the errors of `Get`. A build without cgo says what is missing. A scanner reads no byte after a plain frame, and a message is there while a part of the next one has
come, wherever that is cut. Over a socket each message is there before the next is sent. A claim of 64 MiB without its words
allocates less than 256 KiB, and a scanner that waits holds no large buffer. A module outside of the repository imports the
package, and another one imports that module. The example and the commands of docs/go.md write what the
program and the page show, and a call of a small message is timed beside the same call from C. With --full 20,000 changed
messages are compared, and the streams are cut at each byte. With --idle the call has to take at most OVERHEAD more than from
C, for which the machine may do nothing else. A line says what isn't tested without `go`. The last line is 'N passed, M failed', and the status is 1 if a case failed.
"""
import os
import re
import shutil
import sys
import tempfile
from pathlib import Path

sys.path[1:1] = map(str, Path(__file__).resolve().parents[1].iterdir())

import library
from amount import IS_FULL, IS_IDLE
from harness import PROGRAM, TOP, compare, ended, run
from install import make
from needs import missing

# The most that a call from Go takes above the same call from C, in nanoseconds.
OVERHEAD = 200
# How many snippets docs/go.md has beside its program. The first one is a service.
SNIPPETS = 6
# A line of that service without which it doesn't compile.
NEEDED = re.compile(r"^\t(message|b|reader|reader\..*), .* :?= .*\n", re.M)
# What a reader has, for a service that compiles without it.
STAND_IN = """package capnp

// Message has the limits of a reader.
type Message struct {
	TraverseLimit uint64
	DepthLimit    uint
}

// Unmarshal returns no message.
func Unmarshal([]byte) (*Message, error) { return new(Message), nil }
"""
MODULES = ("bindings/go", "examples/go", "tests/bindings/go/cost")
COUNTS = ["-changed", "20000", "-cuts", "1"] if IS_FULL else []
PATH = "capvet.invalid/capvet"
# A module outside of the repository, and a program of another module that imports it and not the package.
READER = f"""package reader

import "{PATH}"

// Charge returns the charge of a message.
func Charge(b []byte) (uint64, error) {{
	message, err := capvet.Vet(b, nil)
	return message.Report().Charge, err
}}
"""
MAIN = """package main

import (
	"fmt"
	"os"

	"reader.example/reader"
)

func main() {
	b, err := os.ReadFile(os.Args[1])
	if err == nil {
		fmt.Println(reader.Charge(b))
	}
}
"""


def go(name, words, folder, environment):
    """Runs a command of Go, which has to end with status 0. What it wrote."""
    # (the first time Go builds its own library for the race detector)
    text, status = run(["go", *words], timeout=3600, cwd=folder, env=environment)
    compare(name, 0, status)
    if status:
        print(text)
    return text


def tested(top, environment):
    """The package is formatted, vetted, and passes each of its tests."""
    for module in MODULES:
        compare(f"gofmt -l {module}", ("", 0), run(["gofmt", "-l", "."], cwd=top / module))
        go(f"go vet {module}", ["vet", "./..."], top / module, environment)
        checked(module, top, environment)
    words = ["test", "-race", "-count=1", "-timeout", "55m", "-v", ".", "-program", str(PROGRAM), *COUNTS]
    text = go("go test -race", words, top / "bindings/go", {**environment, "GODEBUG": "cgocheck=1"})
    cases = re.findall(r"^--- (\w+): (\w+)", text, re.M)
    for verdict, case in cases:
        compare(f"go test -race, {case}", "PASS", verdict)
    compare("go test runs tests and examples", (True, True), tuple(any(case.startswith(kind) for _, case in cases)
                                                                    for kind in ("Test", "Example")))


def checked(module, top, environment):
    """`staticcheck` finds nothing. (Debian calls it `go-staticcheck`)"""
    if not missing(f"that staticcheck finds nothing in {module}", "go-staticcheck"):
        cache = {"XDG_CACHE_HOME": environment["HOME"]}
        compare(f"staticcheck {module}", ("", 0), run(["go-staticcheck", "./..."], cwd=top / module, env={**environment, **cache}))


def without_cgo(top, environment):
    """A build without cgo says what is missing."""
    text, status = run(["go", "build", "."], cwd=top / "bindings/go", env={**environment, "CGO_ENABLED": "0"})
    compare("the status of a build without cgo", True, status != 0)
    compare("a build without cgo names what is missing", True, "capvet_needs_cgo_and_a_C_compiler" in text)


def imported(top, folder, environment):
    """A module outside of the repository imports the package, and a program of another one imports it through that module."""
    reader, program = folder / "reader", folder / "program"
    for module, text in ((reader, READER), (program, MAIN)):
        module.mkdir()
        (module / "main.go").write_text(text)
    needs = [f"-require={PATH}@v0.0.0", f"-replace={PATH}={top / 'bindings/go'}"]
    for words in (["init", "reader.example/reader"], ["edit", *needs], ["tidy"]):
        go(f"go mod {words[0]} of a module outside", ["mod", *words], reader, environment)
    go("go vet of a module outside", ["vet", "."], reader, environment)
    needs += ["-require=reader.example/reader@v0.0.0", f"-replace=reader.example/reader={reader}"]
    for words in (["init", "program.example/program"], ["edit", *needs], ["tidy"]):
        go(f"go mod {words[0]} of a program outside", ["mod", *words], program, environment)
    text = go("a program outside", ["run", ".", str(TOP / "examples/contacts.bin")], program, environment)
    compare("the charge by a program outside", "391 <nil>\n", text)
    listed = go("go list of a program outside", ["list", "-deps", "."], program, environment).splitlines()
    compare("the package is a dependency of the program", True, PATH in listed)


def example(top, folder, environment):
    """The example writes what the program writes, of a file and of standard input."""
    program, files = folder / "vet", library.inputs(folder)
    go("go build of the example", ["build", "-o", str(program), "./vet"], top / "examples/go", environment)
    library.same("the example in Go", [program], files)
    piped = run(["sh", "-c", f"cat {files[0]} | {program}"])
    compare("the example in Go, of a pipe", run([PROGRAM, "vet", files[0]]), piped)
    compare("the example in Go, without a file", 3, run([program, folder / "no"])[1])
    compare("the example in Go, of two files", ("usage: vet [FILE]\n", 2), run([program, "a", "b"]))


def timed(top, folder, environment):
    """Prints the times of a call of a small message. With --idle that from Go takes at most OVERHEAD nanoseconds more."""
    program = folder / "cost"
    go("go build of the call that is timed", ["build", "-o", str(program), "."], top / "tests/bindings/go/cost", environment)
    text, status = run([program, TOP / "examples/shared.bin"])
    compare("the call that is timed", 0, status)
    if status == 0:
        in_c, in_go = (float(word) for word in text.split())
        print(f"a call of 40 bytes takes {in_c} ns from C and {in_go} ns from Go")
        if IS_IDLE:
            compare(f"a call from Go takes at most {OVERHEAD} ns more than {in_c} ns", True, in_go - in_c <= OVERHEAD)


def as_shown(top, environment):
    """The commands of docs/go.md run word for word, and its program and its snippets are built."""
    page = (TOP / "docs/go.md").read_text()
    first, *others = re.search(r"^```sh\n(.*?)^```$", page, re.M | re.S)[1].splitlines()
    # (it is installed already, by `make` without a toolchain)
    compare("the first command of docs/go.md", "make install PREFIX=$HOME/x", first)
    compare("the commands of docs/go.md", 0, run(["sh", "-ec", "\n".join(others)], cwd=top, env=environment)[1])
    programs = re.findall(r"^```go\n(.*?)^```$", page, re.M | re.S)
    compare("the program and the snippets of docs/go.md", SNIPPETS + 1, len(programs))
    hello = top / "hello"
    [program] = [text for text in programs if "func main()" in text]
    programs.remove(program)
    (hello / "main.go").write_text(program)
    environment = {**environment, "PKG_CONFIG_PATH": f"{environment['HOME']}/x/lib/pkgconfig"}
    for block in re.findall(r"^```console\n(.*?)^```$", page, re.M | re.S):
        for command, expected in re.findall(r"^\$ (.*)\n((?:(?!\$ ).*\n)*)", block, re.M):
            compare(f"docs/go.md: {command}", expected, run(["bash", "-c", command], cwd=hello, env=environment)[0])
    with_reader(hello, environment)
    for number, snippet in enumerate(programs):
        (hello / "main.go").write_text(snippet + "\nfunc main() {}\n")
        go(f"go vet of snippet {number} of docs/go.md", ["vet", "."], hello, environment)
    needed = list(NEEDED.finditer(programs[0]))
    compare("the lines of the service of docs/go.md that are needed", 4, len(needed))
    for line in needed:
        (hello / "main.go").write_text(programs[0][:line.start()] + programs[0][line.end():] + "\nfunc main() {}\n")
        compare(f"go build of the service without `{line[0].strip()}`", True, run(["go", "build", "."], cwd=hello, env=environment)[1] != 0)


def with_reader(hello, environment):
    """A module in the place of the reader that the page names."""
    path, reader = "capnproto.org/go/capnp/v3", hello.parent / "stand-in"
    reader.mkdir()
    (reader / "capnp.go").write_text(STAND_IN)
    go("go mod init in the place of a reader", ["mod", "init", path], reader, environment)
    go("go mod edit for a reader", ["mod", "edit", f"-require={path}@v3.0.0", f"-replace={path}={reader}"], hello, environment)


def main():
    if missing("the Go package", "go", "cc", "pkg-config"):
        return ended()
    with tempfile.TemporaryDirectory() as scratch:
        folder = Path(scratch)
        cache = run(["go", "env", "GOCACHE"])[0].strip()
        environment = {**os.environ, "HOME": scratch, "GOCACHE": cache, "GOPROXY": "off", "GOFLAGS": "", "GOWORK": "off",
                       "PKG_CONFIG_PATH": str(folder / "x/lib/pkgconfig")}
        compare("make install", ("", 0), make("install", scratch, f"PREFIX={folder / 'x'}"))
        top = folder / "copy"
        for part in MODULES:
            shutil.copytree(TOP / part, top / part)
        shutil.copytree(TOP / "examples", top / "examples", dirs_exist_ok=True)
        tested(top, environment)
        without_cgo(top, environment)
        imported(top, folder, environment)
        example(top, folder, environment)
        timed(top, folder, environment)
        as_shown(top, environment)
    return ended()


if __name__ == "__main__":
    sys.exit(main())
