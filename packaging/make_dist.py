#!/usr/bin/env python3
"""Packs what is built into dist/: for x86-64 and arm64 an archive for any Linux and Debian packages, a repository of these for apt,
the wheels and the source distribution for Python, the package for JavaScript, the module for WebAssembly, and a zip for Windows.

    make_dist.py [--without-guard | --any-go]

It runs in a clone whose files are all committed, after `make build`. It builds the targets of targets.py and the guard if their
tools are there, and names what it leaves out. It packs no guard by a Go that verifies certificates by keys of any size, but with
--any-go, for tests: the guard bounds these keys itself. The kit of `rt` links the shared libraries, and has the licences of what is linked
in. No file in dist/ says where it was made, or when: times are that of the commit, or SOURCE_DATE_EPOCH. SHA256SUMS has the sums of
all other files. BUILT has those of the programs and the libraries in them, with the commit and the line of the toolchain. README.md
is the page on installation.
"""
import os
import shutil
import subprocess
import sys
import tempfile
from pathlib import Path

import debian
import guards
import javascript
import linux
import shipped_pages
import targets
import wheels
import make_windows_zip
from licences import GOCODE
from common import BUILT, DIST, HERE, MACHINES, digest, run, shared, version, when


def can_build(names):
    """Builds targets, or says which tools they need."""
    lacking = {tool: package for name in names for tool, package in targets.lacking(name).items()}
    for tool, package in lacking.items():
        print(f"dist: nothing of {', '.join(names)} is packed without {tool}: install {package}")
    return not lacking and targets.main(list(names)) == 0


def can_build_guard(is_any_go):
    """Whether Go and its libraries are there, and the licences of these. The Go has to bound the keys of certificates, or may be any."""
    libraries = {"golang-github-prometheus-client-golang-dev": "prometheus/client_golang",
                 "golang-github-coreos-go-systemd-dev": "coreos/go-systemd", "golang-github-pires-go-proxyproto-dev": "pires/go-proxyproto"}
    lacking = [it for it, tool in (("golang-go", "go"), ("dpkg", "dpkg")) if not shutil.which(tool)]
    lacking += [it for it, place in libraries.items() if not (GOCODE / "src/github.com" / place).is_dir()]
    if lacking:
        print(f"dist: capvet-guard isn't packed: install {' '.join(lacking)}")
    elif not is_any_go and not guards.is_bounded(run("go", "version")):
        print(f"dist: capvet-guard isn't packed: {guards.UNBOUNDED}")
        return False
    return not lacking


def inspector():
    """The page that shows messages, if there is a script that makes it, and what this needs."""
    script = HERE / "make_inspector.py"
    if script.is_file() and subprocess.run([sys.executable, script]).returncode:
        print("dist: the page that shows messages isn't packed")
    elif script.is_file():
        shutil.copyfile(BUILT / "inspector.html", DIST / f"capvet-inspector-{version()}.html")


def sums(machines, made_guards, plain_builds):
    """The lines of BUILT: the commit, the toolchain, and the sums of the programs and libraries in the packages."""
    lines = [f"commit {run('git', 'rev-parse', 'HEAD').strip()}", f"toolchain {run('rt', 'version').strip()}"]
    with tempfile.TemporaryDirectory() as scratch:
        for machine in machines:
            library = Path(scratch) / f"{machine.name}.so"
            shared(machine, library)
            files = machine.built() | {f"{machine.name}/libcapvet.so.2": library}
            files |= {f"{machine.name}/{path.name}": path for path in made_guards.get(machine, ())}
            lines += [f"{digest(file)}  {name}" for name, file in files.items()]
    if (DIST / f"capvet-{version()}.wasm").is_file():
        lines.append(f"{digest(BUILT / 'capvet.wasm')}  capvet.wasm")
    lines += [f"{digest(file)}  {file.parent.name}/{file.name}" for file in plain_builds]
    return "".join(f"{line}\n" for line in lines)


def pack(machines, made_guards, epoch):
    """Packs for all machines what is built."""
    plain_builds = [*javascript.build(epoch), *make_windows_zip.build(epoch)]
    built, made_wheels = sums(machines, made_guards, plain_builds), wheels.build(machines, epoch)
    (DIST / "BUILT").write_text(built)
    common = [("wasm", file) for file in DIST.glob("*.wasm")] + [("python", file) for file in DIST.glob(f"capvet-{version()}.tar.gz")]
    common += [("js", file) for file in DIST.glob("*.tgz")]
    for machine in machines:
        guard, static_guard = made_guards.get(machine, (None, None))
        with tempfile.TemporaryDirectory() as scratch:
            wheel = made_wheels.get(machine)
            debian.packages(Path(scratch), machine, guard, wheel, machine is machines[0], epoch)
            linux.archive(Path(scratch), machine, static_guard, [*common, *(("python", it) for it in [wheel] if it)], built, epoch)
    debian.repository(epoch)


def main(words):
    if run("git", "status", "--porcelain"):
        sys.exit("dist: commit all changes first, so that the commit names what is packed")
    os.umask(0o022)
    shutil.rmtree(DIST, ignore_errors=True)
    (DIST / "apt").mkdir(parents=True)
    shipped_pages.check_words()
    machines = [machine for machine in MACHINES if can_build(machine.targets)]
    if can_build(["wasm"]):
        shutil.copyfile(BUILT / "capvet.wasm", DIST / f"capvet-{version()}.wasm")
        inspector()
    with_guard = "--without-guard" not in words and can_build_guard("--any-go" in words)
    made_guards = {it: (guards.guard(it, False), guards.guard(it, True)) for it in machines if with_guard}
    pack(machines, made_guards, when())
    shipped_pages.readme(DIST)
    packed = sorted(path for path in DIST.rglob("*") if path.is_file())
    (DIST / "SHA256SUMS").write_text("".join(f"{digest(path)}  {path.relative_to(DIST)}\n" for path in packed))
    print((DIST / "SHA256SUMS").read_text(), end="")


if __name__ == "__main__":
    main(sys.argv[1:])
