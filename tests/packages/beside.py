"""What a build of the program for another system has to write: what PROGRAM writes, and what tables.py has.

Of these builds clap is 4.0.32, whose texts are compared by clap_texts.py. PROGRAM is proved, or is the plain build. Texts of the
system's errors are its own.
"""
import os
import random
import re
from concurrent.futures import ThreadPoolExecutor

import demands
import filtering
import tables
from amount import IS_FULL
from clap_texts import alike, as_proved, clap_of
from harness import PROGRAM, TOP, compare, framed, outputs
from made import changed, made_up, samples, shared
from packing import packed
from tables import word

STREAM = 250  # messages of a stream
SAMPLES = ("contacts.bin", "contacts-many-segments.bin", "telemetry.bin", "stream-of-four.bin", "cycle.bin", "shared.bin")
READERS = ("segments", "vet", "vet --exclusive", "explain", "filter", "dump", "get /p0", "check", "canon", "hash")
# The tables of streams.
TABLES = (tables.VERDICTS, tables.OTHER_LIMITS, tables.ENDS, tables.MESSAGES, tables.SEGMENTS, tables.DOUBLED, tables.PACKED_STREAMS,
          tables.WORDS, filtering.CUT, tables.LEVELS, tables.NESTED, tables.LEVELS_WITH_A_POINTER_LEFT, tables.OVERLAPS, tables.DUMPS,
          tables.GETS, tables.LADDER, tables.AFTER_A_REFUSAL, tables.COPY_ENDS, demands.ROWS, filtering.WHOLE, filtering.FORMS)
# One in so many of their rows is tried.
EVERY = 1 if IS_FULL else 8
NULL = framed("0000000000000000")
CORES = len(os.sched_getaffinity(0))


class Both:
    """PROGRAM and another build: the command that runs it, and how its cases are named. What `ignored` finds on standard error is
    the system's own."""

    def __init__(self, command, name, ignored):
        self.command, self.name, self.ignored = command, name, ignored
        self.clap, self.own_clap = clap_of(*command), clap_of(PROGRAM)

    def has_to_be(self, shown, expected, got):
        """A case: what came beside what was expected, in words that are equal where the build is right."""
        pair = alike(expected, got, self.clap)
        compare(f"{self.name} {shown}", *((out, re.sub(self.ignored, b"", err), status) for out, err, status in pair))

    def compare(self, words, stdin=b"", shown="", **how):
        """A case: what both write."""
        expected, got = (outputs([*it, *words], stdin, **how) for it in ([PROGRAM], self.command))
        self.has_to_be(f"{' '.join(map(str, words))} {shown}", as_proved(*expected, self.own_clap.is_older), got)

    def row(self, row):
        """A case: what a table has."""
        words, digits, out, err, status = row
        texts = (it.encode() if isinstance(it, str) else it for it in (out, err))
        self.has_to_be(f"{words}, of {digits[:80]}", (*texts, status), outputs([*self.command, *words.split()], word(digits)))


def each(call, cases):
    """Makes a call for each case, on all cores."""
    with ThreadPoolExecutor(CORES) as cores:
        list(cores.map(lambda it: call(*it), cases))


def of_samples(both, folder):
    """Each command over each sample, plain and packed, from a file and from a pipe."""
    cases = []
    for name in SAMPLES:
        plain = (TOP / "examples" / name).read_bytes()
        texts = {"": (f"examples/{name}", plain), "--packed": (folder / f"{name}.packed", packed(plain))}
        texts["--packed"][0].write_bytes(texts["--packed"][1])
        for option, (file, text) in texts.items():
            for command in READERS:
                words = [*command.split(), *option.split()]
                cases += [([*words, file],), (words, text)]
            cases.append((["unpack" if option else "pack", file],))
            cases.append((["unpack" if option else "pack"], text))
    each(both.compare, cases)


def of_tables(both, is_left_out=lambda row: False):
    """The streams of the tables, with what has to be written of them. Rows are left out for systems that can't answer them so."""
    rows = [row for table in TABLES for row in table]
    rows += [(it.words, it.stream, it.out, it.err, it.status) for it in tables.SHOWN.values()]
    each(both.row, [(row,) for row in [row for row in rows if not is_left_out(row)][::EVERY]])
    copies = [("canon", stream, word(copy), "", 0) for stream, copy, _ in tables.COPIES]
    copies += [("hash", stream, tables.hashed(copy), "", 0) for stream, copy, _ in tables.COPIES]
    spelled = [("pack", plain, word(text), "", 0) for plain, text in tables.SPELLINGS]
    spelled += [("unpack", text, word(plain), "", 0) for plain, text in tables.SPELLINGS]
    each(both.row, [(row,) for row in (copies + spelled)[::EVERY]])


def command_lines(both):
    """Help, and command lines that are wrong."""
    commands = [it.split()[0] for it in READERS] + ["pack", "unpack"]
    lines = [[], ["help"], ["-h"], ["--help"], ["-V"], ["--version"], *([it, "--help"] for it in commands), *(["help", it] for it in commands)]
    lines += [words.split() if isinstance(words, str) else words for words, _ in (*tables.MISTAKES, *tables.MISTAKE_BEGINNINGS)][::EVERY]
    lines += [["get", path] for path, _ in tables.BAD_PATHS][::EVERY]
    each(both.compare, [(line, NULL) for line in lines])


def streams(both, folder, messages):
    """So many made messages through the commands, from a pipe and from a file."""
    known, cases = [it for it in samples() if len(it) < 6000], []
    for number in range(messages // STREAM):
        chance = random.Random(f"beside {number}")
        made = [chance.choice((made_up, shared, lambda it: changed(it.choice(known), it)))(chance) for _ in range(STREAM)]
        text, file = b"".join(made), folder / f"stream-{number}"
        file.write_bytes(text)
        accepted = outputs([PROGRAM, "filter", "--allow-nonstrict", "--allow-amplified"], text)[0]
        for words in ("vet", "vet --exclusive --strict", "dump", "explain", "filter", "check", "hash", "segments", "pack", "vet --words 60 --depth 4"):
            cases += [(words.split(), text), ([*words.split(), file],)]
        for words in ("canon", "filter --pack"):
            cases.append((words.split(), accepted))
        cases += [(["unpack"], packed(text)), (["vet", "--packed"], packed(text)), (["vet"], text[:-5]), (["unpack"], packed(text)[:-3])]
    each(both.compare, cases)
