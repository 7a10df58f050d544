#!/usr/bin/env python3
"""Compares the program as rustc builds it with the proved one: standard output, standard error and status, byte for byte.

    plain_program.py [PROGRAM [PLAIN]] [--long]

PLAIN is a build of rust/capvet-cli. Without one `cargo install` makes it, with checks of overflows and debug assertions unless
--full is there. With --long it is built over the clap of Debian 13, and then over that of unstable. Only help and command lines are
compared then, and no text may differ, but for which words are found similar where strsim is 0.10.0.

- Help comes in each form of asking for it, and command lines are made of right and wrong words.
- Streams of made messages go through each command, plain and packed, whole, cut and changed, from a file and from a pipe, and some
  of the messages alone. Limits are just enough for a message of the stream, and just not.
- The program starts with closed standard streams, under odd names and with words that aren't UTF-8. Its outputs fail.
- Each allocation fails in turn. The plain program then ends as the proved one does, once it has begun to read. Before that Rust's
  start and clap may end it by a signal: of these allocations there are as many if the input is empty.
- With --full the scripts of the built program pass over PLAIN.

Where PLAIN is built over clap 4.0.32 or strsim 0.10.0, its texts are compared by clap_texts.py. The last line is 'N passed, M failed',
and the status is 1 where a case failed.
"""
import random
import re
import shutil
import sys
import tempfile
from collections import Counter
from pathlib import Path

sys.path[1:1] = map(str, Path(__file__).resolve().parents[1].iterdir())

import amount
import needs
import plain_targets
import program_allocations
from cargo import CARGO, environment
from clap_texts import BUILD, alike, clap_of
from fuzz_corpus import tried
from harness import ARCHIVE, PROGRAM, TOP, compare, count, ended, expect, file_of, outputs, run
from made import changed, made_up, samples, shared
from needs import missing
from packing import packed

LONG = amount.has("--long")
LINES = 10_000 if LONG else amount.cases(500, 10_000)  # command lines
MESSAGES = amount.cases(2_000, 100_000)  # messages
STREAM = 250  # messages of a stream
# The releases of Debian with a newer clap, which had 4.5.23 and 4.6.7 on 1 December 2026, and what it is made of.
SUITES = ("trixie", "sid")
NEWER_CLAP = ("librust-clap-dev", "librust-clap-builder-dev", "librust-clap-lex-dev", "librust-anstyle-dev", "librust-strsim-dev")
COMMANDS = ("segments", "vet", "explain", "filter", "dump", "get", "check", "canon", "hash", "pack", "unpack")
READERS = COMMANDS[:9]
# What command lines are made of, beside commands.
NUMBERS = ("0", "1", "64", "256", "257", "268435456", "268435457", "-1", "1e3", "", "+1", "0x10", "00", "99999999999999999999", "é")
FLAGS = ("--packed", "--strict", "--unamplified", "--exclusive", "--pack", "--stop", "--allow-nonstrict", "--allow-amplified", "--one")
VALUED = ("--size", "--words", "--depth")
OTHERS = ("--help", "-h", "-V", "--version", "help", "--", "-", "-p", "-hV", "--no", "/", "/p0", "/p0/i1", "p0", "/p65536", "", "é", "{n}",
          "it's", "a b", "'", "\n", "/nonexistent", "examples/contacts.bin", "examples", "examples/cycle.bin")
# What every command line may read.
INPUT = (TOP / "examples/cycle.bin").read_bytes() + (TOP / "examples/shared.bin").read_bytes()
# How often each command had each status.
seen = Counter()


class Both:
    """Both programs."""

    def __init__(self, plain):
        self.plain, self.clap = plain, clap_of(plain)

    def of(self, words, stdin=b"", **how):
        """What each of them writes, and its status."""
        return outputs([PROGRAM, *words], stdin, **how), outputs([self.plain, *words], stdin, **how)

    def judge(self, words, shown, proved, plain):
        """A case. What the proved program wrote, and its status."""
        compare(f"capvet {' '.join(words)} {shown}", *alike(proved, plain, self.clap))
        seen[words[0] if words else "", proved[2]] += 1
        return proved

    def compare(self, words, stdin=b"", shown="", **how):
        """The same for these words."""
        return self.judge([str(it) for it in words], shown, *self.of(words, stdin, **how))


def misspelled(chance, word):
    """A word with a letter that is missing, doubled, another one or after the next one, or without what follows it."""
    at = chance.randrange(len(word))
    before, letter, after = word[:at], word[at], word[at + 1:]
    return before + chance.choice((after, 2 * letter + after, chance.choice("aeprst-") + after, after[:1] + letter + after[1:], letter))


def word(chance):
    """One or two words of a command line."""
    kind = chance.randrange(10)
    if kind < 3:
        return [chance.choice(FLAGS)]
    if kind < 6:
        name, number = chance.choice(VALUED), chance.choice(NUMBERS)
        return chance.choice(([name, number], [f"{name}={number}"], [name]))
    if kind < 7:
        return [misspelled(chance, chance.choice((*FLAGS, *VALUED, "--help", "--version")))]
    if kind < 8:
        return [f"{chance.choice(FLAGS)}={chance.choice(NUMBERS)}"]
    return [chance.choice(OTHERS)]


def command_lines(both):
    """Help in each form, and command lines."""
    for words in ([], ["help"], ["-h"], ["--help"], ["-V"], ["help", "help"]):
        both.compare(words, INPUT)
    for command in COMMANDS:
        for words in ([command, "-h"], [command, "--help"], ["help", command]):
            both.compare(words, INPUT)
    chance = random.Random("command lines")
    for _ in range(LINES):
        kind = chance.randrange(20)
        words = [] if kind == 0 else [misspelled(chance, chance.choice(COMMANDS))] if kind == 1 else [chance.choice(COMMANDS)]
        both.compare([*words, *(it for _ in range(chance.randrange(5)) for it in word(chance))], INPUT)


# Streams of messages

def message(chance, known, small):
    """A message: one of the tables or a sample, changed, or one that is made up. The padding of its table may be any word."""
    kind = chance.randrange(8)
    made = made_up(chance) if kind < 2 else shared(chance) if kind < 4 else changed(chance.choice(small if kind < 7 else known), chance)
    count = int.from_bytes(made[:4], "little") + 1
    if count % 2 == 0 and chance.randrange(4) == 0:
        made = made[:4 + 4 * count] + chance.randbytes(4) + made[8 + 4 * count:]
    return made


def other_packing(chance, text):
    """The packed bytes of some words, in runs that end at any word."""
    made, at = b"", 0
    while at < len(text):
        run_end = at + 8 * chance.randrange(1, 40)
        made += packed(text[at:run_end])
        at = run_end
    return made


class Stream:
    """Messages, what `vet` says of them, and limits that are those of one message, or one less."""

    def __init__(self, chance, both, messages):
        self.messages, self.text = messages, b"".join(messages)
        lines = both.compare(["vet"], self.text)[0].decode().splitlines()
        expect("vet has a line for each message", len(lines) == len(messages), lines[-1:])
        found = [re.fullmatch(r"message \d+: accepted charge (\d+) depth (\d+) pointers \d+ caps (\d+)", line) for line in lines]
        self.accepted = [(message, *map(int, it.groups())) for message, it in zip(messages, found) if it]
        _, charge, depth, _ = chance.choice(self.accepted)
        words = [len(it) // 8 - int.from_bytes(it[:4], "little") // 2 - 1 for it in messages]
        size = max(words[:chance.randrange(1, len(words))])
        self.limits = {"--words": charge, "--depth": depth, "--size": size}

    def option(self, chance, name):
        """A limit as words of a command line: that of a message, or one less."""
        return [name, str(max(0, self.limits[name] - chance.randrange(2)))]

    def copied(self):
        """The messages that have a canonical copy."""
        return b"".join(message for message, _, _, caps in self.accepted if caps == 0)


def options(chance, stream, command):
    """Options of a command, and the path of `get`."""
    words = []
    for name in ("--size",) if command == "segments" else VALUED:
        if chance.randrange(3 if name != "--size" else 8) == 0:
            words += stream.option(chance, name)
    if command == "filter":
        names = ("--allow-nonstrict", "--allow-amplified", "--exclusive", "--pack", *["--stop"] * (chance.randrange(8) == 0))
    else:
        names = () if command == "segments" else ("--strict", "--unamplified", *["--exclusive"] * (command in ("vet", "explain")))
    words += [name for name in names if chance.randrange(3) == 0]
    if command != "segments" and chance.randrange(8) == 0:
        words.append("--one")
    if command == "get":
        steps = "".join(f"/{chance.choice('ppi')}{chance.choice((0, 0, 1, 1, 2, 3, 7))}" for _ in range(chance.randrange(4)))
        words.append(steps or "/")
    return words


def changed_bytes(chance, text):
    """A text that ends early, or of which bytes are others, anywhere."""
    kind = chance.randrange(3)
    text = bytearray(text[:chance.randrange(len(text) + 1)] if kind == 0 else text)
    for _ in range(chance.randrange(1, 4) if kind == 1 and text else 0):
        text[chance.randrange(len(text))] ^= 1 << chance.randrange(8)
    return bytes(text) if kind < 2 else chance.randbytes(chance.randrange(300))


def through_each_command(chance, both, stream, file):
    """A stream through each command, plain and packed, whole and changed, and its canonical copies."""
    def compared(words, text, *more):
        if chance.randrange(2):
            return both.compare([*words, *more], text)[0]
        file.write_bytes(text)
        return both.compare([*words, *more, str(file)])[0]

    plain, text = stream.text, other_packing(chance, stream.text)
    for command in READERS:
        compared([command, *(["/"] if command == "get" else [])], plain)
        for message, *_ in chance.sample(stream.accepted, 2):
            compared([command, *options(chance, stream, command)], message)
        for _ in range(2):
            compared([command, *options(chance, stream, command)], plain)
        compared([command, "--packed", *options(chance, stream, command)], text)
        compared([command, *options(chance, stream, command)], changed_bytes(chance, plain))
        compared([command, "--packed", *options(chance, stream, command)], changed_bytes(chance, text))
    copies = compared(["canon"], stream.copied())
    compared(["canon", *options(chance, stream, "canon")], stream.copied())
    compared(["canon", "--packed"], packed(stream.copied()))
    compared(["check"], copies)
    compared(["check"], changed_bytes(chance, copies))
    compared(["unpack"], compared(["pack"], plain))
    compared(["unpack"], text)
    compared(["pack"], changed_bytes(chance, plain))
    compared(["unpack"], changed_bytes(chance, text))


def streams(both, folder):
    """Streams of made messages through each command."""
    known = list(tried())
    small = [it for it in (*samples(), *known) if len(it) < 6000]
    for number in range(MESSAGES // STREAM):
        chance = random.Random(f"stream {number}")
        stream = Stream(chance, both, [message(chance, known, small) for _ in range(STREAM)])
        through_each_command(chance, both, stream, folder / "stream")


# What else a program meets

def starts(both):
    """Standard streams that are closed before the start, names of the program, and words that aren't UTF-8."""
    for words in (["help"], ["vat"], ["--version"], *([it, *["/"] * (it == "get")] for it in COMMANDS), ["explain", "examples/missing.bin"],
                  ["vet", "examples/cycle.bin"], ["filter", "examples/stream-of-four.bin"], ["get", "p0"]):
        for closed in ("<&-", ">&-", "2>&-", "<&- >&-", ">&- 2>&-", "<&- >&- 2>&-"):
            proved, plain = ([outputs(["sh", "-c", f'exec "$@" {closed}', "sh", it, *words], INPUT)] for it in (PROGRAM, both.plain))
            both.judge(words, closed, *proved, *plain)
    for name in ("", "capvet", "./x/y", "x/", "/", "a b", "é", "-", "capvet.exe"):
        for words in (["vat"], ["help"], ["vet", "--help"], ["get"], ["vet", "examples/cycle.bin"]):
            proved, plain = (outputs([name, *words], INPUT, executable=it) for it in (PROGRAM, both.plain))
            both.judge(words, f"as {name!r}", proved, plain)
    for words in ([b"\xff"], [b"vet", b"\xc3"], [b"get", b"/", b"\xed\xa0\x80"], [b"vet", 100_000 * b"a" + b"\xff"], [b"vet", 100_000 * b"a"]):
        both.judge(["not UTF-8"], repr(words)[:50], *both.of(words, INPUT))


def devices(both):
    """Inputs and outputs that fail, and files of any kind."""
    with open("/dev/full", "wb") as full:
        for command in COMMANDS:
            words = [command, *["/"] * (command == "get")]
            both.compare(words, INPUT, "to a full device", stdout=full)
            both.compare(words, INPUT, "with a full standard error", stderr=full)
            for name in (".", "/dev/null", "examples/missing.bin", "", "a" * 5000, "examples/cycle.bin/x"):
                both.compare([*words, name], INPUT)


def refused(both, folder):
    """Each allocation fails in turn. A signal may end the plain program only for one that it makes with an empty input too: those of
    Rust's start and of clap."""
    refusing, stream = program_allocations.library(folder), program_allocations.NULL + program_allocations.SHARED
    for command in program_allocations.HOLDING if amount.IS_FULL else ("canon",):
        words = command.split()
        first, whole = (outputs([PROGRAM, *words], it) for it in (program_allocations.NULL, stream))
        ends, empty = (program_allocations.ends_of(both.plain, words, it, refusing) for it in (stream, b""))
        may_end = [whole, *program_allocations.ends_after((b"", first[0]))]
        killed, early = (sorted(it for end, numbers in found.items() if end[0] == b"" and end[2] < 0 for it in numbers)
                         for found in (ends, empty))
        for end, numbers in ends.items():
            expect(f"capvet {command}, allocations {numbers}", end in may_end or set(numbers) <= set(killed), end, cases=len(numbers))
        compare(f"capvet {command}: allocations without which a signal ends it", early, killed)
        compare(f"capvet {command}: ends that were seen", [], [it for it in may_end if it not in ends])
        print(f"capvet {command}: {sum(map(len, ends.values())) - 1} allocations refused; without {len(killed)} a signal ends it", flush=True)


def scripts(both):
    """The scripts of the built program pass over the plain one."""
    for name, *more in (("program.py",), ("filter.py",), ("explain.py", ARCHIVE), ("live.py",), ("pages.py",)):
        said, status = run([sys.executable, file_of(name), both.plain, *more], cwd=TOP)
        counted = re.search(r"^(\d+) passed, (\d+) failed$", said, re.M)
        print(f"{name} over the plain program: {counted[0] if counted else status}", flush=True)
        expect(f"{name} over the plain program", counted and status == 0, said[-4000:])
        count(int(counted[1]) if counted else 0)


# The plain program

def with_clap_of(suite, folder):
    """A folder with the crates of this machine and the clap of another release of Debian."""
    (folder / "apt").mkdir(parents=True)
    plain_targets.fetch(folder / "root", folder / "apt", suite, NEWER_CLAP, ())
    crates = folder / "root" / needs.CRATES.relative_to("/")
    for path in needs.CRATES.iterdir():
        if path.name.rpartition("-")[0] not in {it.name.rpartition("-")[0] for it in crates.iterdir()}:
            (crates / path.name).symlink_to(path)
    print(f"{suite}: {', '.join(sorted(it.name for it in crates.glob('clap-*')))}", flush=True)
    return crates


def installed(folder, crates=needs.CRATES):
    """The plain program, as `cargo install` makes it of a copy of rust/."""
    shutil.copytree(TOP / "rust", folder / "rust", ignore=shutil.ignore_patterns("target", "Cargo.lock"))
    words = ["cargo", "install", *CARGO, "--path", folder / "rust/capvet-cli", "--root", folder / "installed"]
    said = run([*words, *["--debug"] * (not amount.IS_FULL)], env={**environment(folder, crates), "RUSTFLAGS": "-D warnings"})
    expect("cargo install of the plain program", said[1] == 0, said[0])
    return folder / "installed/bin/capvet"


def tidy(folder):
    """What is written by hand has the layout of rustfmt, and clippy finds nothing in it."""
    crate, variables = folder / "rust/capvet-cli", environment(folder)
    if not missing("the layout of the plain program", "rustfmt"):
        compare("cargo fmt", ("", 0), run(["cargo", "fmt", "--check"], cwd=crate, env=variables))
    if not missing("clippy of the plain program", "cargo-clippy"):
        compare("cargo clippy", ("", 0), run(["cargo", "clippy", *CARGO, "--", "-D", "warnings"], cwd=crate, env=variables))


def over_newer_clap(folder):
    """Help and command lines over the clap of each release."""
    for suite in SUITES:
        both = Both(installed(folder / suite, with_clap_of(suite, folder / suite)))
        compare(f"the clap of {suite} has the texts of the proved program", False, both.clap.is_older)
        command_lines(both)


def main():
    given = [it for it in sys.argv[1:] if not it.endswith(".a")][1:]
    if not given and missing("the plain program", "cargo", "rustc", "crates", "crate-clap", "crate-sha2", *["debian-mirror", "dpkg-deb"] * LONG):
        return ended()
    with tempfile.TemporaryDirectory() as scratch:
        folder = Path(scratch)
        if LONG:
            over_newer_clap(folder)
            return ended()
        both = Both(Path(given[0]).resolve() if given else installed(folder))
        compare("the build says what it is", (b"capvet 2.0.0-dev\n" + BUILD, b"", 0), outputs([both.plain, "--version"]))
        command_lines(both)
        streams(both, folder)
        starts(both)
        devices(both)
        if not missing("allocations that fail in the plain program", "cc"):
            refused(both, folder)
        for command in COMMANDS:
            statuses = {status for it, status in seen if it == command}
            expect(f"{command} has ended in each way", statuses >= {0, 1, 2, 3}, statuses)
        if amount.IS_FULL:
            scripts(both)
        if not given:
            tidy(folder)
    return ended()


if __name__ == "__main__":
    sys.exit(main())
