#!/usr/bin/env python3
"""Installs the built program and library into scratch folders as their users do, and compares what is there.

`make install` puts each file where PREFIX and DESTDIR say, with its mode. So does `make install-guard` with the guard and its manual
page, and `make uninstall` removes just these. If they can't put them there, they say so before anything is proved. So does each target
that needs `rt` or `go` if there is none. `make run` shows what is built.
The manual pages are read without a warning. The page of the program has the commands and options of help, and shows what the program
writes. The page of the library has each call and each answer of the header. Bash completes each place of a command line.

    install.py [PROGRAM [ARCHIVE]]

A case is one call of `compare`. Failures are printed as they come. The last line is 'N passed, M failed', and the
status is 1 where a case failed. Nothing is built here: `rt` is a command that fails, and PROGRAM and ARCHIVE are what is
installed.
"""
import os
import re
import shutil
import sys
import tempfile
from pathlib import Path

sys.path[1:1] = map(str, Path(__file__).resolve().parents[1].iterdir())

from harness import ARCHIVE, PROGRAM, TOP, compare, ended, run
from needs import has, missing, path_without

COMPLETIONS = {"share/bash-completion/completions/capvet": "capvet.bash", "share/zsh/site-functions/_capvet": "_capvet",
               "share/fish/vendor_completions.d/capvet.fish": "capvet.fish"}
PAGE, CALLS_PAGE, GUARD_PAGE = "share/man/man1/capvet.1", "share/man/man3/capvet.3", "share/man/man1/capvet-guard.1"
DESCRIPTION = "lib/pkgconfig/capvet.pc"
PACKAGE = "lib/cmake/capvet"
# What is installed, its mode, and the file that it is a copy of, where it is one.
FILES = {"bin/capvet": (0o755, PROGRAM), PAGE: (0o644, TOP / "docs/capvet.1"),
         CALLS_PAGE: (0o644, TOP / "docs/capvet.3"),
         **{place: (0o644, TOP / "completions" / name) for place, name in COMPLETIONS.items()},
         "include/capvet.h": (0o644, TOP / "include/capvet.h"),
         "lib/libcapvet.a": (0o644, ARCHIVE),
         **{f"include/capvet/{name}": (0o644, TOP / "include/capvet" / name)
            for name in ("kj.h", "kj-message.h", "kj-stream.h", "kj-server.h")},
         DESCRIPTION: (0o644, None), "lib/pkgconfig/capvet-kj.pc": (0o644, None),
         f"{PACKAGE}/capvetConfig.cmake": (0o644, None), f"{PACKAGE}/capvetConfigVersion.cmake": (0o644, None)}
# The same for the guard. Its program is a text here: tests/network/guard.py builds, installs and runs it.
GUARD_FILES = {"bin/capvet-guard": 0o755, GUARD_PAGE: 0o644}
MANY_FILES = ("segments", "vet", "explain", "check", "hash")
COMMANDS = ("segments", "vet", "explain", "filter", "dump", "get", "check", "canon", "hash", "pack", "unpack")
CONTACTS = "message 0: accepted charge 391 depth 11 pointers 125 caps 0\n"
# The words for `make` that take what `make plain` builds.
BY_CARGO = "BUILT_PROGRAM=build/cargo/capvet BUILT_ARCHIVE=build/cargo/libcapvet.a"
# What make prints before a sentence, and after it.
ENDS = re.compile(r"Makefile:\d+: \*\*\* (.*)\.  Stop\.\n")
# The superuser without the rights that other users lack.
WITHOUT_RIGHTS = ("setpriv", "--bounding-set=-all", "--inh-caps=-all") if has("root") else ()


def plain(path):
    """The environment of a user with this path, without what a `make` before this one has set."""
    reported = ("PREFIX", "DESTDIR", "bindir", "libdir", "includedir", "mandir", "pkgconfigdir", "cmakedir", "completionsdir", "zshdir",
                "fishdir", "INSTALL", "MAKEFLAGS", "MAKELEVEL")
    return {name: value for name, value in os.environ.items() if name not in reported} | {"PATH": path}


def make(target, folder, *variables):
    """`make` of a target with nothing to build by, and its status."""
    refused = Path(folder) / "refused"
    refused.mkdir(exist_ok=True)
    for tool in ("rt", "cargo", "cc", "go"):
        (refused / tool).write_text(f"#!/bin/sh\necho {tool} was called\nexit 1\n")
        (refused / tool).chmod(0o755)
    return run(["make", "-s", target, f"BUILT_PROGRAM={PROGRAM}", f"BUILT_ARCHIVE={ARCHIVE}", *variables], cwd=TOP,
               env=plain(f"{refused}:{os.environ['PATH']}"))


def files_of(folder):
    """The files below a folder, each with its mode."""
    return {str(path.relative_to(folder)): path.stat().st_mode & 0o777
            for path in Path(folder).rglob("*") if path.is_file()}


def installed(folder, prefix, *variables):
    """Installs under a prefix, where a file of somebody else's is, compares each file, and takes all away again."""
    other, guard = Path(prefix) / "bin/other", Path(folder) / "built-guard"
    other.parent.mkdir(parents=True)
    other.write_text("other\n")
    guard.write_text("the guard\n")
    modes = {name: mode for name, (mode, _) in FILES.items()}
    for target, more in (("install", {}), ("install-guard", GUARD_FILES)):
        modes |= more
        for _ in range(2):
            compare(f"make {target} {variables}", ("", 0), make(target, folder, f"BUILT_GUARD={guard}", *variables))
            compare(f"files of {target} {variables}", modes, {n: m for n, m in files_of(prefix).items() if n != "bin/other"})
    sources = {name: source for name, (_, source) in FILES.items() if source}
    sources |= {"bin/capvet-guard": guard, GUARD_PAGE: TOP / "docs/capvet-guard.1"}
    for name, source in sources.items():
        compare(f"{name} of {variables}", source.read_bytes(), (Path(prefix) / name).read_bytes())
    works(Path(prefix))
    for _ in range(2):
        compare(f"make uninstall {variables}", ("", 0), make("uninstall", folder, *variables))
        compare(f"files left of {variables}", ["bin/other"], list(files_of(prefix)))


def works(prefix):
    """The installed program runs, and the manual pages are found and read without a warning."""
    program = prefix / "bin/capvet"
    compare("the installed program", (CONTACTS, 0), run([program, "vet", TOP / "examples/contacts.bin"]))
    if not missing("that the manual pages are found and read", "man"):
        environment = {**os.environ, "LC_ALL": "C.UTF-8", "MANPATH": str(prefix / "share/man")}
        environment["PATH"] = f"{program.parent}:{os.environ['PATH']}"
        tagline = "check untrusted Cap'n Proto messages without a schema"
        for section, title, does, name in (("1", "capvet", tagline, PAGE), ("3", "capvet", tagline, CALLS_PAGE),
                                           ("1", "capvet-guard", "pass on only the Cap'n Proto messages that are accepted", GUARD_PAGE)):
            text, status = run(["man", "--warnings", section, title], env={**environment, "MANWIDTH": "200"})
            found = f"{title.upper()}({section})" in text and does in text
            compare(f"man {section} {title}", (True, 0), (found, status))
            text = run(["man", "--warnings", "-l", "-Tutf8", "-Z", prefix / name], env={**environment, "MANWIDTH": "80"})
            compare(f"warnings of {name}", [], [line for line in text[0].splitlines() if ": warning: " in line])


def ends(name, expected, folder, path, *command):
    """A case: in a tree where nothing is built a command ends with status 2, and one sentence is all that it prints."""
    text, status = run(command, cwd=unbuilt(folder), env=plain(path))
    said = ENDS.fullmatch(text)
    compare(name, (expected, 2), (said[1] if said else text, status))


def can_not_install(folder):
    """Where nothing can be installed, the end comes before any proof: nothing is built in this tree, and `rt` would fail."""
    folder = Path(folder)
    (folder / "file").touch()
    (folder / "others").mkdir(mode=0o555)
    refused = {"x": "PREFIX has to be a path from /, and is 'x'", "": "PREFIX has to be a path from /, and is ''"}
    refused |= {f"{folder}/{name}/x": f"make TARGET can write nothing into {folder}/{name}: name a folder of yours, as in "
                "make TARGET PREFIX=$HOME/x" for name in ("file", "others")}
    for target in ("install", "install-guard"):
        for prefix, expected in refused.items():
            ends(f"make {target} PREFIX={prefix}", expected.replace("TARGET", target), folder, os.environ["PATH"], *WITHOUT_RIGHTS,
                 "make", target, f"PREFIX={prefix}", f"BUILT_GUARD={folder}/file")


def unbuilt(folder):
    """A tree in which nothing is built, with what make reads of it."""
    tree = Path(folder) / "unbuilt"
    if not tree.exists():
        (tree / "crates").mkdir(parents=True)
        for name in ("Makefile", "crates.txt"):
            shutil.copy(TOP / name, tree)
        shutil.copytree(TOP / "include", tree / "include")
    return tree


def without_rt(folder):
    """Without `rt` each target that would prove something ends at once. Without cargo and apt-get too, so do those that build by cargo.
    Without Go those of the guard do."""
    (Path(folder) / "path").mkdir()
    path = path_without("rt", Path(folder) / "path")
    # (this is no Go, and `make` looks only whether there is one)
    (Path(folder) / "path/go").unlink(missing_ok=True)
    (Path(folder) / "path/go").symlink_to("/bin/false")
    for target in ("prove", "build", "install", "check", "gate", "dist", "wheel", "guard", "install-guard", "inspector"):
        by_cargo = f". To install what cargo builds, tested and not proved, run `make plain`, and then make {target} {BY_CARGO}"
        ends(f"make {target} without rt", f"make {target} needs `rt` of Rattle's kit, which is not on the path: docs/install.md says "
             f"more, and has packages that need no `rt`{by_cargo if target in ('install', 'guard', 'install-guard', 'wheel') else ''}", folder, path,
             "make", target, f"PREFIX={folder}/x")
    # (the archive is there, and the module for WebAssembly still has to be built)
    ends("make inspector without rt, with an archive", "make inspector needs `rt` of Rattle's kit, which is not on the path: docs/install.md "
         "says more, and has packages that need no `rt`", folder, path, "make", "inspector", "BUILT_ARCHIVE=include/capvet.h")
    for tool in ("cargo", "apt-get", "go"):
        (Path(folder) / "path" / tool).unlink(missing_ok=True)
    for target in ("guard", "install-guard"):
        ends(f"make {target} without go", f"make {target} needs `go`, which is not on the path: docs/install.md names what else it needs",
             folder, path, "make", target, f"PREFIX={folder}/x")
    for target in ("run", "test"):
        ends(f"make {target} without rt and cargo", f"make {target} needs cargo, or `rt` of Rattle's kit, and neither is on the path: "
             "docs/install.md says more", folder, path, "make", target)


def shown(folder):
    """`make run` shows what the proved program writes."""
    text, status = make("run", folder)
    compare("make run", (run([PROGRAM, "vet", TOP / "examples/stream-of-four.bin"])[0] + "This build is proved.\n", 0), (text, status))


def without_faces(line):
    """The text of a line of a manual page in one face, or in two by turns."""
    if line.startswith(".B "):
        return line[3:]
    return "".join(quoted or word for quoted, word in re.findall(r'"([^"]*)"|(\S+)', line[4:]))


def calls():
    """The page on the calls has each call of the header, with its parameters, and no other."""
    header = re.sub(r"/\*.*?\*/", "", (TOP / "include/capvet.h").read_text(), flags=re.S)
    declared = re.findall(r"^(?:CAPVET_INLINE )?((?:const )?\w+ \*?capvet_\w+\([^)]*\)) CAPVET_NOEXCEPT", header, re.M)
    page = (TOP / "docs/capvet.3").read_text().replace("\\-", "-")
    lines = page.partition(".SH SYNOPSIS\n")[2].partition(".SH ")[0].splitlines()
    text = " ".join(without_faces(line) for line in lines if line.startswith((".B ", ".BI ")))
    shown = re.findall(r"((?:const )?\w+ \*?capvet_\w+\([^)]*\));", text)
    compare("calls of the header are found", True, len(declared) > 12)
    compare("calls of the page", *(sorted(" ".join(call.split()) for call in calls) for calls in (declared, shown)))
    for call in declared:
        name = re.search(r"capvet_\w+(?=\()", call)[0]
        compare(f"the page says what {name} does", True, re.search(rf"^\.TP\n\.BR? .*\b{name}\b", page, re.M) is not None)
    answers = re.search(r"^CAPVET_ANSWERS \{(.*?)^\}", header, re.M | re.S)[1]
    answers = re.findall(r"(CAPVET_\w+) = (\d+)\b", answers)
    values = page.partition(".SH RETURN VALUE\n")[2].partition(".SH ")[0]
    compare("answers of the page", answers, [("CAPVET_OK", "0"), *re.findall(r'^\.BR (CAPVET_\w+) " \((\d+)\)', values, re.M)])


def options_of_help(command):
    """The long options that the program's own help lists."""
    text, _ = run([PROGRAM, "help", command])
    return sorted(set(re.findall(r"^ +(?:-\w, |    )(--[a-z-]+)", text.partition("\nOptions:\n")[2].partition("\n\n")[0], re.M)))


def options():
    """The page, the completions and the program's help have the same commands and options."""
    page = (TOP / "docs/capvet.1").read_text().replace("\\-", "-")
    reported = set(re.findall(r"--[a-z-]+", page))
    of_help = {option for command in COMMANDS for option in options_of_help(command)} | {"--version"}
    # (help doesn't list the other names of options)
    compare("options of the manual page", of_help | {"--message-words", "--charge"}, reported)
    commands, _, _ = page.partition(".SH COMMANDS\n")[2].partition("\n.SH ")
    compare("commands of the manual page", [*COMMANDS, "help"], re.findall(r"^\.TP\n\.B (\w+)$", commands, re.M))
    synopsis = page.partition(".SH SYNOPSIS\n")[2].partition(".SH ")[0]
    compare("commands of the synopsis", [*COMMANDS, "help", "--version"], re.findall(r"^\.B capvet (\S+)$", synopsis, re.M))


def versions():
    """The program, the crates, the other bindings and the pages have the version of the header. While it isn't released, the texts
    for people have -dev after it. A released version has a tag, and older ones are at the commits that CHANGELOG.md names."""
    header = (TOP / "include/capvet.h").read_text()
    numbers = [re.search(rf"^#define CAPVET_VERSION_{part} (\d+)$", header, re.M)[1] for part in ("MAJOR", "MINOR", "PATCH")]
    version, changes = ".".join(numbers), (TOP / "CHANGELOG.md").read_text()
    newest, release = re.search(r"^## (\S+) \((.*)\)$", changes, re.M).groups()
    text = f"{version}-dev" if release == "not released" else version
    compare("the version of CHANGELOG.md", text, newest)
    compare("the version of the program", (f"capvet {text}\n", 0), run([PROGRAM, "-V"]))
    for name in ("docs/capvet.1", "docs/capvet.3", "docs/capvet-guard.1"):
        compare(f"the version of {name}", [text], re.findall(r'^\.TH .*"capvet (.*?)"', (TOP / name).read_text(), re.M))
    if (TOP / ".git").exists():
        tagged = run(["git", "tag", "--list", f"v{version}"], cwd=TOP)[0].strip()
        compare(f"the tag of {text}", "" if text != version else f"v{version}", tagged)
        for number, commit in re.findall(r"^## (\S+) \(\d.*\)\n\n.*`git checkout (\w+)`", changes, re.M):
            if run(["git", "cat-file", "-e", commit], cwd=TOP)[1] != 0:
                print(f"{commit} isn't in this repository, which has not all commits: {number} isn't compared")
                continue
            header, status = run(["git", "show", f"{commit}:include/capvet.h"], cwd=TOP)
            parts = re.findall(r"^#define CAPVET_VERSION_(?:MAJOR|MINOR|PATCH) (\d+)$", header, re.M)
            compare(f"the header at {commit}", (number, 0), (".".join(parts), status))
    manifests = sorted(file for folder in ("rust", "bindings", "examples") for name in ("Cargo.toml", "pyproject.toml", "setup.cfg")
                       for file in (TOP / folder).glob(f"*/{name}"))
    # (a crate also has the versions of the crates of this repository that it is over)
    version_in = re.compile(r'(?:^|\{ )version = "?([^",\n]*)"?(?:$|, path = )', re.M)
    found = {file: version_in.findall(file.read_text()) for file in manifests}
    compare("manifests have a version", True, len([file for file in manifests if found[file]]) >= 2)
    for file in manifests:
        compare(f"the version of {file.relative_to(TOP)}", [version] * len(found[file]), found[file])


def examples():
    """Each example of the manual page, run as it is there."""
    page = (TOP / "docs/capvet.1").read_text().replace("\\-", "-")
    environment = {**os.environ, "PATH": f"{PROGRAM.parent}:{os.environ['PATH']}"}
    found = re.findall(r"^\$ (.*)\n((?:[^.$].*\n)*)", page, re.M)
    compare("examples of the manual page are found", 5, len(found))
    for line, expected in found:
        compare(line, expected, run(["sh", "-c", line], cwd=TOP, env=environment)[0])


def completed(*words):
    """What bash offers for the last of these words, in order."""
    script = 'source "$1"; shift; COMP_WORDS=("$@"); COMP_CWORD=$(($# - 1)); _capvet; printf "%s\\n" "${COMPREPLY[@]}"'
    page = TOP / "completions/capvet.bash"
    text, _ = run(["bash", "-c", script, "bash", page, "capvet", *words], cwd=TOP / "examples")
    return sorted(line for line in text.splitlines() if line)


def completions():
    """What bash offers at each place of a command line."""
    samples = sorted(path.name for path in (TOP / "examples").iterdir())
    compare("commands", sorted([*COMMANDS, "help"]), completed(""))
    compare("commands by their beginning", ["pack"], completed("p"))
    compare("options without a command", ["--help", "--version"], completed("-"))
    compare("commands of help", sorted(COMMANDS), completed("help", ""))
    compare("nothing after help's command", [], completed("help", "vet", ""))
    compare("nothing of another command", [], completed("vat", ""))
    for command in COMMANDS:
        front = [command, "/p0"] if command == "get" else [command]
        compare(f"options of {command}", options_of_help(command), completed(*front, "-"))
        compare(f"files of {command}", samples, completed(*front, ""))
        several = command in ("explain", "hash")
        compare(f"files of {command} after one", samples if several else [], completed(*front, "contacts.bin", ""))
        compare(f"files of {command} after --", samples, completed(*front, "--", ""))
        compare(f"no option of {command} after --", [], completed(*front, "--", "-"))
    for command in MANY_FILES:
        for front in ([command, "--files"], [command, "--files", "contacts.bin"], [command, "--depth", "3", "--files", "a", "b"]):
            compare(f"files of {' '.join(front)}", samples, completed(*front, ""))
            compare(f"options after {' '.join(front)}", options_of_help(command), completed(*front, "-"))
        compare(f"no files of {command} after an option after --files", [], completed(command, "--files", "a", "--packed", ""))
    compare("files by their beginning", ["contacts.bin"], completed("vet", "--packed", "contacts.b"))
    compare("no file for a path", [], completed("get", ""))
    for option in ("--size", "--words", "--depth"):
        compare(f"nothing for the number of {option}", [], completed("vet", option, ""))
        compare(f"nothing for the number of {option}=", [], completed("vet", option, "=", ""))
        compare(f"files after {option}", samples, completed("vet", option, "7", ""))
        compare(f"files after {option}=", samples, completed("vet", option, "=", "7", ""))


def by_fish(*words):
    """What fish offers for the last of these words, in order."""
    script = 'source "$argv[1]"; complete -C "$argv[2]"'
    text, _ = run(["fish", "--no-config", "-c", script, TOP / "completions/capvet.fish", " ".join(["capvet", *words])], cwd=TOP / "examples")
    return sorted(line.partition("\t")[0] for line in text.splitlines() if line)


def by_zsh(*words):
    """What zsh offers for the last of these words, in order."""
    text, _ = run(["zsh", "-f", TOP / "tests/packages/offers.zsh", TOP / "completions", " ".join(["capvet", *words])], cwd=TOP / "examples")
    return sorted(text.splitlines())


def other_completions(name, offered):
    """What zsh or fish offers at the places that matter."""
    samples = sorted(path.name for path in (TOP / "examples").iterdir())
    compare(f"{name}: commands", sorted([*COMMANDS, "help"]), offered(""))
    compare(f"{name}: commands of help", sorted(COMMANDS), offered("help", ""))
    compare(f"{name}: options without a command", {"--help", "--version"}, {it for it in offered("-") if it.startswith("--")})
    for command in COMMANDS:
        before = [command, "/p0"] if command == "get" else [command]
        compare(f"{name}: options of {command}", options_of_help(command), offered(*before, "--"))
        compare(f"{name}: files of {command}", samples, sorted(it.rstrip("/") for it in offered(*before, "")))
    for command in MANY_FILES:
        compare(f"{name}: files of {command} --files", samples, sorted(it.rstrip("/") for it in offered(command, "--files", "")))
        compare(f"{name}: second file of {command} --files", samples, sorted(it.rstrip("/") for it in offered(command, "--files", "x", "")))
    compare(f"{name}: files by their beginning", [it for it in samples if it.startswith("contacts-")], offered("vet", "--packed", "contacts-"))
    compare(f"{name}: nothing for a number", [], offered("vet", "--size", ""))


def main():
    with tempfile.TemporaryDirectory() as scratch:
        prefix = Path(scratch) / "some where"
        installed(scratch, prefix, f"PREFIX={prefix}")
        stage = Path(scratch) / "stage"
        installed(scratch, stage / "usr", "PREFIX=/usr", f"DESTDIR={stage}")
        compare("make install, with a prefix that isn't whole", 2, make("install", scratch, "PREFIX=usr", f"DESTDIR={stage}/")[1])
        compare("files of a prefix that isn't whole", ["usr/bin/other"], list(files_of(stage)))
        can_not_install(scratch)
        without_rt(scratch)
        shown(scratch)
    options()
    calls()
    versions()
    examples()
    if not missing("what bash completes", "bash"):
        completions()
    for name, offered in (("zsh", by_zsh), ("fish", by_fish)):
        if not missing(f"what {name} completes", name):
            other_completions(name, offered)
    return ended()


if __name__ == "__main__":
    sys.exit(main())
