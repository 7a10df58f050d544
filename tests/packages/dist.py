#!/usr/bin/env python3
"""Packs what is built in a clone, and uses the packages as their receivers do.

    dist.py [PROGRAM [ARCHIVE]] [--full] [--long]

The clone has the files of this folder, committed. The archive for Linux is unpacked where there is no `rt`, and the commands of its
README and pages are run word for word. The Debian packages are installed below a folder and removed. Those for arm64 are unpacked,
and their programs run by qemu. The programs and archives in all packages are the built ones, and SHA256SUMS and BUILT have their
sums. The shared library exports the calls and nothing else. The wheels need no newer C library than their tag says. A change that
is not committed is refused. With --full a second clone at another path gives the same sums, and the guard is packed
too. With --full and --long apt installs the packages in fresh roots of Debian (package_chroots.py), and an image is built. What a machine has
no tool for is said in a line of its own.
The last line is 'N passed, M failed', and the status is 1 if a case failed.
"""
import hashlib
import os
import re
import shutil
import subprocess
import sys
import tempfile
import zipfile
from pathlib import Path

sys.path[1:1] = map(str, Path(__file__).resolve().parents[1].iterdir())

import amount
import debs
import install
import package_chroots
import reading
from amount import IS_FULL
from harness import ARCHIVE, PROGRAM, TOP, compare, ended, run
from needs import has, missing, path_without

sys.path.insert(1, str(TOP / "packaging"))
import common  # (it is in the folder that the line above names, and so are these)
import guards
import targets
import wheels as made_wheels

IS_LONG = amount.has("--long")
COMMITTED = {f"GIT_{who}_{what}": value for who in ("AUTHOR", "COMMITTER")
             for what, value in (("NAME", "a"), ("EMAIL", "a@b"), ("DATE", "1700000000 +0000"))}
VETTED = """\
message 0: accepted charge 391 depth 11 pointers 125 caps 0
message 1: accepted charge 76 depth 4 pointers 34 caps 0
message 2: accepted charge 20 depth 2 pointers 7 caps 0
message 3: accepted charge 78 depth 7 pointers 21 caps 0
"""
# What the zip for Windows needs.
FOR_WINDOWS = ("oldest-rust", "rust-for-windows", "x86_64-w64-mingw32-gcc", "crates", "crate-clap", "crate-sha2")
# Words of maintainers, which are in no page of a package.
MAINTAINERS = re.compile(r"(?<!crates\.io/)crates/|tests/|\brt \w|`?make (?:build|install|test|gate|dist|wheel|guard|uninstall|bench|allocations|times|run)\b")
# The pages of the archive, each with the tools that its commands need.
PAGES = {"guide": (), "service": (), "output": (), "c": ("cc", "pkg-config"), "go": ("go", "cc", "pkg-config"),
         "python": ("wheel", "jq", "esbuild", "wasm-opt"), "js": ("wasm-opt", "node", "npm")}


def sum_of(path):
    return hashlib.sha256(path.read_bytes()).hexdigest()


def has_targets():
    """Whether what has the tools is built for other machines. A clone can't build it, since nothing is proved there."""
    names = [name for name in targets.TARGETS if not targets.lacking(name)]
    return not names or targets.main(names) == 0


def clone(folder, made, with_guards=False):
    """A repository of the files of this one, with what is built of these targets too, and one commit."""
    names = subprocess.run(["git", "ls-files", "-z", "-co", "--exclude-standard"], cwd=TOP, check=True, stdout=subprocess.PIPE,
                           text=True).stdout.split("\0")[:-1]
    for name in names:
        if (TOP / name).is_file():
            (folder / name).parent.mkdir(parents=True, exist_ok=True)
            shutil.copy(TOP / name, folder / name)
    for command in (["init", "-q"], ["add", "-A"], ["-c", "commit.gpgsign=false", "commit", "-qm", "A release"]):
        subprocess.run(["git", *command], cwd=folder, check=True, env={**os.environ, **COMMITTED})
    built = ["capvet", "libcapvet.a", *(it for name in made for it in (*targets.TARGETS[name][0], f"{name}.of"))]
    built += [f"{machine.name}/capvet-guard{end}" for machine in common.MACHINES for end in ("", ".of", "-static", "-static.of") if with_guards]
    for name in built:
        (folder / "build" / name).parent.mkdir(parents=True, exist_ok=True)
        if (TOP / "build" / name).is_file():
            shutil.copyfile(TOP / "build" / name, folder / "build" / name)


def packed(folder):
    """The packages that `make dist` makes of a clone, each with its sum."""
    environment = {name: value for name, value in os.environ.items() if name not in ("MAKEFLAGS", "MAKELEVEL", "SOURCE_DATE_EPOCH")}
    flags = "--any-go" if IS_FULL else "--without-guard"
    text, status = run(["make", "-s", "dist", f"DIST_FLAGS={flags}"], timeout=1800, cwd=folder, env=environment)
    compare(f"make dist in {folder.name}", 0, status)
    if status:
        print(text)
    dist = folder / "dist"
    return {str(path.relative_to(dist)): sum_of(path) for path in sorted(dist.rglob("*")) if path.is_file()}


def machines():
    """The machines that this one can pack for."""
    return [it for it in common.MACHINES if not any(targets.lacking(name) for name in it.targets)]


def versions_of_go():
    """Only a Go that bounds the keys of certificates packs the guard, unless --any-go says otherwise, as it does here."""
    for version, is_bounded in (("1.19.8", False), ("1.19.11", False), ("1.19.12", True), ("1.20", False), ("1.20.6", False), ("1.20.7", True),
                                ("1.21.0", True), ("1.18.10", False), ("1.22", True), ("2.0", True)):
        compare(f"go {version} packs the guard", is_bounded, guards.is_bounded(f"go version go{version} linux/amd64"))
    compare("no version", False, guards.is_bounded("go version devel"))


def packs_guard():
    """Whether the guard is packed."""
    return IS_FULL and all(has(name) for name in ("go", "dpkg", "go-prometheus", "go-proxyproto", "go-systemd"))


def expected():
    """The files of dist/ that the tools of this machine make."""
    version, debian = common.version(), common.debian_version()
    has_wheel, has_module = made_wheels.interpreter() is not None, has("wasm-opt")
    of_all = ["capvet-doc", "golang-capvet-dev", *["capvet-inspector"] * (has_module and has("esbuild"))]
    own = ["capvet", "libcapvet2", "libcapvet-dev", "librust-capvet-core-dev", "librust-capvet-dev", "librust-capvet-capnp-dev",
           "librust-capvet-capnp-rpc-dev", *["python3-capvet"] * has_wheel, *["capvet-guard"] * packs_guard()]
    names = ["BUILT", "README.md", "SHA256SUMS", "apt/Packages", "apt/Packages.gz", "apt/Release", *(f"apt/{name}_{debian}_all.deb" for name in of_all)]
    for machine in machines():
        names += [f"capvet-{version}-{machine.name}-linux.tar.gz", *(f"apt/{name}_{debian}_{machine.debian}.deb" for name in own)]
        names += [f"capvet-{version}-cp39-abi3-manylinux_2_17_{machine.name}.whl"] * has_wheel
    names += [f"capvet-{version}.tar.gz"] * has_wheel + [f"capvet-{version}.wasm"] * has_module
    names += [f"capvet-{version}.tgz"] * (has_module and has("node"))
    names += [f"capvet-{version}-x86_64-windows.zip"] * all(map(has, FOR_WINDOWS))
    return sorted([*names, *[f"capvet-inspector-{version}.html"] * (has_module and has("esbuild"))])


def summed(dist):
    """SHA256SUMS has all packages, and BUILT the sums of what was built."""
    compare("sha256sum -c", 0, run(["sha256sum", "-c", "--quiet", "SHA256SUMS"], cwd=dist)[1])
    named = {line.split("  ")[1] for line in (dist / "SHA256SUMS").read_text().splitlines()}
    there = {str(path.relative_to(dist)) for path in dist.rglob("*") if path.is_file()}
    compare("files of SHA256SUMS", there - {"SHA256SUMS"}, named)
    lines = (dist / "BUILT").read_text().splitlines()
    commit = run(["git", "rev-parse", "HEAD"], cwd=dist)[0].strip()
    toolchain = run(["rt", "version"])[0].strip()
    compare("commit and toolchain of BUILT", [f"commit {commit}", f"toolchain {toolchain}"], lines[:2])
    built = dict(reversed(line.split("  ")) for line in lines[2:])
    compare("sum of the program in BUILT", sum_of(PROGRAM), built["x86_64/capvet"])
    compare("sum of the archive in BUILT", sum_of(ARCHIVE), built["x86_64/libcapvet.a"])
    return built


def without_rt(folder):
    """The environment of a machine that has no `rt`."""
    place = folder / "path-without-rt"
    if not place.exists():
        place.mkdir()
        path_without("rt", place)
    environment = {name: value for name, value in os.environ.items() if not name.startswith(("CAPVET_", "PKG_CONFIG", "CARGO_TARGET"))}
    environment |= {"PATH": str(place), "CARGO_TARGET_DIR": str(folder / "target"), "LC_ALL": "C.UTF-8", "HOME": str(folder),
                    "CARGO_HOME": os.environ.get("CARGO_HOME", str(Path.home() / ".cargo")), "GOPROXY": "off", "GOFLAGS": "", "GOWORK": "off",
                    "GOCACHE": os.environ.get("GOCACHE", str(Path.home() / ".cache/go-build")), "PIP_NO_INDEX": "1",
                    "RUSTUP_HOME": os.environ.get("RUSTUP_HOME", str(Path.home() / ".rustup"))}
    compare("rt is not on the path", None, shutil.which("rt", path=environment["PATH"]))
    return environment | {"npm_config_cache": str(folder / "npm"), "npm_config_update_notifier": "false"}


def contents(dist, folder, machine, built):
    """Where the archive for a machine is unpacked. It has what was built, and the static programs."""
    name = next(dist.glob(f"*-{machine}-linux.tar.gz"))
    subprocess.run(["tar", "xf", name, "-C", folder], check=True)
    root = folder / name.name.removesuffix(".tar.gz")
    places = {"bin/capvet": "capvet-static", "lib/libcapvet.a": "libcapvet.a", "lib/libcapvet.so.2": "libcapvet.so.2"}
    places |= {"bin/capvet-guard": "capvet-guard-static"} if packs_guard() else {}
    for place, what in places.items():
        compare(f"{place} of the archive for {machine} is what was built", built[f"{machine}/{what}"], sum_of(root / place))
    return root


def unpacked(dist, folder, built):
    """The archive for Linux, in another place: what it has, and its README's commands."""
    root = contents(dist, folder, "x86_64", built)
    prefix = folder / "installed"
    compare("make install", ("", 0), install.make("install", folder, f"PREFIX={prefix}"))
    expected = {file for file in install.files_of(prefix)}
    compare("what is installed is in the archive", set(), expected - install.files_of(root).keys())
    for part in ("examples", *common.BINDINGS):
        there = run(["git", "ls-files", part], cwd=dist.parent)[0].split()
        compare(f"{part} of the archive", [], [it for it in there if not (root / it).exists()])
    environment = without_rt(folder)
    blocks = [block for language, block in reading.BLOCK.findall((root / "README.md").read_text()) if language == "sh"]
    compare("the README has five blocks of commands", 5, len(blocks))
    tools = ((), ("cc", "pkg-config"), ("cargo", "cc", "crates"), ("go", "cc", "pkg-config"), ("wheel",))
    expected, ran = "", []
    for block, names in zip(blocks, tools):
        if not missing(f"commands of the README: {block.splitlines()[-1]}", *names):
            ran.append(block)
            expected += "391\n" if "wheel" in names else VETTED
    compare("the commands of the README", (expected, 0), run(["sh", "-ec", "\n".join(ran)], cwd=root, env=environment))
    if not missing("cargo test of the archive's crate", "cargo", "cc", "crates"):
        compare("cargo test of the archive's crate", 0,
                run(["cargo", "test", "--offline", "--quiet", "--lib"], cwd=root / "rust/capvet", env=environment)[1])
    return root


def pages(root, folder):
    """The pages of the archive: their links lead to files in it, they are for users, and their commands run at its top."""
    lead_to_a_place(root, "the archive")
    environment = without_rt(folder) | {"PKG_CONFIG_PATH": str(root / "lib/pkgconfig")}
    environment["PATH"] = f"{root}/bin:{environment['PATH']}"
    for name, tools in PAGES.items():
        if missing(f"the commands of {name}.md in the archive", *tools):
            continue
        page = (root / f"docs/{name}.md").read_text()
        text, _ = run(["bash", "-c", reading.script(page, "venv/bin/python")], cwd=root, env=environment)
        reading.read(f"{name}.md of the archive", page, text, compare, "venv/bin/python")


def lead_to_a_place(root, whose):
    """Each link of the pages below a folder leads to a file and a heading there, and no page speaks to maintainers."""
    texts = {page: page.read_text() for page in root.rglob("*.md")}
    compare(f"pages of {whose}", True, len(texts) > 9)
    for page, text in texts.items():
        prose = reading.BLOCK.sub("", text)
        for target in re.findall(r"\]\(([^)\s]+)\)", prose):
            file, _, heading = target.partition("#")
            place = page.parent / file if file else page
            leads = "://" in target or place.exists() and (
                not heading or place.suffix != ".md" or heading in {re.sub(r"[^\w -]", "", it.lower()).replace(" ", "-")
                                                                    for it in re.findall(r"^#+ (.*)$", place.read_text(), re.M)})
            compare(f"{page.relative_to(root)} of {whose} links to {target}", True, leads)
        compare(f"{page.relative_to(root)} of {whose} is for users", [], [it[0] for it in MAINTAINERS.finditer(text)])


def installs(dist, folder):
    """The commands of docs/install.md that need no rights, in a copy of dist/ and in a new folder for each language."""
    place = folder / "received"
    for name, (tools, before, block, expected) in package_chroots.of_install((dist / "README.md").read_text()).items():
        if not missing(f"the commands of install.md: {name}", *tools):
            shutil.copytree(dist, place)
            environment = without_rt(folder)
            environment |= {"PATH": f"/usr/bin:{environment['PATH']}"} if name == "Python" else {}
            compare(f"install.md: {name}", (expected, 0), run(["sh", "-ec", before + block], cwd=place, env=environment))
            shutil.rmtree(place)


def wheels(dist, folder):
    """The wheels' tags are true, and the index would take them and the source distribution."""
    made = sorted(dist.glob("*.whl"))
    if missing("the wheels", "wheel"):
        return
    compare("wheels", sorted(it.name for it in machines()), [re.search(r"manylinux_2_17_(\w+)\.whl", it.name)[1] for it in made])
    for file in made:
        with zipfile.ZipFile(file) as archive:
            archive.extractall(folder / file.stem)
        module = next((folder / file.stem).rglob("*.so"))
        if not missing(f"the symbols of {file.name}", "readelf"):
            needed = [tuple(map(int, it.split("."))) for it in re.findall(r"GLIBC_([\d.]+)", run(["readelf", "-VW", module])[0])]
            compare(f"{file.name} needs a C library that the tag allows", (True, True), (bool(needed), max(needed) <= (2, 17)))
            libraries = set(re.findall(r"\(NEEDED\).*\[(.*)\]", run(["readelf", "-dW", module])[0]))
            compare(f"libraries of {file.name}", {"libc.so.6"}, libraries - {"ld-linux-aarch64.so.1"})
    if not missing("the metadata of the wheels", "twine"):
        text, status = run(["twine", "check", "--strict", *made, dist / f"capvet-{common.version()}.tar.gz"])
        compare("twine check", 0, status if not status else text)


def shared(root, folder):
    """The shared library exports the calls and nothing else, and a program runs with it."""
    library = root / "lib/libcapvet.so.2"
    header = (root / "include/capvet.h").read_text()
    calls = set(re.findall(r"^(?!CAPVET_INLINE)\w+ \*?(capvet_\w+)\(", header, re.M))
    if not missing("the exports of the shared library", "readelf"):
        table = run(["readelf", "--dyn-syms", "-W", library])[0]
        exported = set(re.findall(r"(?:FUNC|OBJECT) +GLOBAL DEFAULT +\d+ (\w+)", table))
        compare("exports of the shared library", calls, exported)
        dynamic = run(["readelf", "-d", "-l", "-W", library])[0]
        compare("its name", ["libcapvet.so.2"], re.findall(r"\(SONAME\).*\[(.*)\]", dynamic))
        compare("what it needs", ["libc.so.6"], re.findall(r"\(NEEDED\).*\[(.*)\]", dynamic))
        compare("no stack is executable", ["RW"], re.findall(r"GNU_STACK +(?:0x\w+ +){5}(\w+)", dynamic))
    if missing("a program over the shared library", "cc"):
        return
    program = folder / "vet-shared"
    command = ["cc", f"-I{root}/include", root / "examples/c/vet.c", f"-L{root}/lib", "-l:libcapvet.so.2", "-o", program]
    compare("cc with the shared library", ("", 0), run(command))
    environment = {**os.environ, "LD_LIBRARY_PATH": str(root / "lib")}
    compare("vet.c over the shared library", (VETTED, 0), run([program, root / "examples/stream-of-four.bin"], env=environment))


def archive(root, folder):
    """The archive has and lacks what docs/install.md says: symbols, unwind tables, the stack."""
    if missing("the sections of the archive", "readelf", "cc"):
        return
    library = root / "lib/libcapvet.a"
    sections = re.findall(r"^ +\[ *\d+\] (\S+) +\w+ +\w+ +\w+ +\w+ +\w+ +([A-Z]*)", run(["readelf", "-SW", library])[0], re.M)
    compare("the note of the stack", [""], [mode for name, mode in sections if name == ".note.GNU-stack"])
    compare("unwind tables", [], [name for name, _ in sections if name.startswith(".eh_frame")])
    calls = set(re.findall(r"^(?!CAPVET_INLINE)\w+ \*?(capvet_\w+)\(", (root / "include/capvet.h").read_text(), re.M))
    compare("global symbols", calls, set(re.findall(r"FUNC +GLOBAL DEFAULT +\d+ (\w+)", run(["readelf", "-sW", library])[0])))
    source, plugin = folder / "plugin.c", folder / "plugin.so"
    source.write_text("#include <capvet.h>\nuint32_t plugin(void);\nuint32_t plugin(void) { return capvet_version(); }\n")
    for hides, expected in (([], True), (["-Wl,--exclude-libs,libcapvet.a"], False)):
        built = run(["cc", "-shared", "-fPIC", f"-I{root}/include", source, f"-L{root}/lib", "-lcapvet", *hides, "-o", plugin])
        compare(f"a plugin over the archive, {hides}", ("", 0), built)
        compare(f"its exports, {hides}", expected, " capvet_version" in run(["readelf", "--dyn-syms", "-W", plugin])[0])


def for_arm(dist, folder, built):
    """The packages for arm64 have what was built, and their programs run by qemu."""
    if missing("the packages for arm64", "aarch64-linux-gnu-gcc", "qemu-aarch64", "dpkg-deb"):
        return
    root, debian = contents(dist, folder, "aarch64", built), folder / "arm64"
    for name in ("capvet", "libcapvet2", "libcapvet-dev"):
        subprocess.run(["dpkg-deb", "-x", next(dist.glob(f"apt/{name}_*_arm64.deb")), debian], check=True)
    library = debian / "usr/lib/aarch64-linux-gnu"
    compare("the libraries of the package for arm64", [built["aarch64/libcapvet.a"], built["aarch64/libcapvet.so.2"]],
            [sum_of(library / "libcapvet.a"), sum_of(library / "libcapvet.so.2")])
    compare("the program of the package for arm64", built["aarch64/capvet"], sum_of(debian / "usr/bin/capvet"))
    for program in (root / "bin/capvet", debian / "usr/bin/capvet"):
        command = ["qemu-aarch64", "-L", "/usr/aarch64-linux-gnu", program, "vet", TOP / "examples/stream-of-four.bin"]
        compare(f"{program.relative_to(folder)} runs", (VETTED, 0), run(command))
    source, program = TOP / "examples/c/vet.c", folder / "vet-arm64"
    built_by = ["aarch64-linux-gnu-gcc", f"-I{root}/include", source, f"-L{root}/lib"]
    for library in ("-lcapvet", "-l:libcapvet.so.2"):
        compare(f"vet.c for arm64 with {library}", ("", 0), run([*built_by, library, "-o", program]))
        command = ["qemu-aarch64", "-L", "/usr/aarch64-linux-gnu", "-E", f"LD_LIBRARY_PATH={root}/lib", program, TOP / "examples/stream-of-four.bin"]
        compare(f"vet.c for arm64 runs, with {library}", (VETTED, 0), run(command))


def image(root, folder):
    """An image by the Containerfile of the archive has the static program, which vets."""
    if missing("an image by the Containerfile", "buildah", "root"):
        return
    storage = ["buildah", "--storage-driver", "vfs", "--root", folder / "images", "--runroot", folder / "running"]
    compare("buildah build", 0, run([*storage, "build", "--isolation", "chroot", "-t", "capvet", "."], cwd=root)[1])
    name = run([*storage, "from", "capvet"])[0].strip()
    sample = (TOP / "examples/contacts.bin").read_bytes()
    ran = subprocess.run([*storage, "run", "--isolation", "chroot", name, "--", "/capvet", "vet"], input=sample, capture_output=True)
    compare("the image vets", (install.CONTACTS, 0), (ran.stdout.decode(), ran.returncode))
    place = run([*storage, "mount", name])[0].strip()
    compare("the image has the program", sum_of(root / "bin/capvet"), sum_of(Path(place) / "capvet"))
    run([*storage, "umount", name])


def main():
    if missing("the packages", "git", "make", "rt", "gcc", "dpkg-deb", "dpkg-scanpackages"):
        return ended()
    versions_of_go()
    compare("the builds for other machines", True, has_targets())
    with tempfile.TemporaryDirectory(ignore_cleanup_errors=True) as scratch:
        folder = Path(scratch)
        first, second = folder / "one", folder / "some/other place"
        first.mkdir()
        clone(first, targets.TARGETS, with_guards=True)
        one, dist = packed(first), first / "dist"
        compare("what is packed", expected(), sorted(one))
        built = summed(dist)
        if has("crates"):
            # (cargo reads it for every crate below the folder)
            (folder / ".cargo").mkdir()
            (folder / ".cargo/config.toml").write_text(package_chroots.crates_of_debian((dist / "README.md").read_text()))
        root = unpacked(dist, folder, built)
        pages(root, folder)
        shared(root, folder)
        archive(root, folder)
        wheels(dist, folder)
        installs(dist, folder)
        debs.check(dist, folder, built)
        for_arm(dist, folder, built)
        (first / "docs/more.md").write_text("more\n")
        text, status = run(["make", "-s", "dist"], cwd=first)
        compare("make dist, with a change that isn't committed", (True, True), ("commit all changes first" in text, status != 0))
        if IS_FULL:
            second.mkdir(parents=True)
            clone(second, targets.TARGETS)
            compare("packages of two clones", one, packed(second))
            shutil.rmtree(second)
        if IS_LONG:
            image(root, folder)
            package_chroots.check(dist, folder)
    return ended()


if __name__ == "__main__":
    sys.exit(main())
