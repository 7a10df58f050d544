#!/usr/bin/env python3
"""Times the built program beside plain copying of the same bytes, and beside Cap'n Proto's own C++ library and
Rust crate where they are installed, and prints a table.

    bench.py [--rounds N] [--only WORD] [--program PATH] [--processor] [--write | --peers ROOT]

The inputs are generated in a temporary folder. In each round every command runs once, in turn, so that
a busy machine slows them alike; the table has the median of the rounds. MiB, MB/s and `ratio`, against `dd`
with blocks of 64 KiB, are those of the plain file also where a command gets it packed or packs it. Memory
is the largest resident size of any round, and never less than this script's own, some 17 MiB, which a
program that it starts inherits. `peer` is capvet's seconds over those of the faster of the two libraries at
the same job. They don't do just the same work: the programs in peers/ say what differs. `capvet vet --strict` has
--unamplified too, as `capvet filter` has by itself.

With --peers the two libraries are those of a root of another release of Debian, which `tools/releases.py --roots FOLDER` makes: the
peers are built in it, and run on this machine with the C library of the root. It needs the superuser. Code of a newer crate may not
be built: then a line says why.

With --processor the seconds are processor time, which other work on the machine changes less.

With --write the table and the machine also go into docs/internals/speed.md, between the marks there, and the column `peer` into
docs/speed.svg as a chart. All rows have to run for this, beside both libraries.
"""
import argparse
import multiprocessing
import os
import platform
import random
import re
import shlex
import shutil
import statistics
import struct
import subprocess
import sys
import tempfile
import time
from dataclasses import dataclass
from pathlib import Path

import chart

TOP = Path(__file__).resolve().parent.parent
sys.path.append(str(TOP / "tests/shared"))
import chroots  # (it is in the folder that the line above names)

MIB = 1 << 20


def word(number):
    return struct.pack("<Q", number)


def struct_pointer(offset, data, pointers):
    return word((offset & 0x3FFFFFFF) << 2 | data << 32 | pointers << 48)


def list_pointer(offset, code, size):
    return word(1 | (offset & 0x3FFFFFFF) << 2 | code << 32 | size << 35)


def framed(words):
    """One message of one segment."""
    return struct.pack("<II", 0, len(words) // 8) + words


def small_message(rng):
    """A struct of two data words with a text and a list of three structs."""
    text = bytes(rng.randrange(97, 123) for _ in range(16))
    records = b"".join(word(rng.randrange(1 << 32)) for _ in range(3))
    tag = word(3 << 2 | 1 << 32)
    root = struct_pointer(0, 2, 2)
    data = word(rng.randrange(1 << 20)) + word(rng.randrange(1 << 40))
    pointers = list_pointer(1, 2, 16) + list_pointer(2, 7, 3)
    return framed(root + data + pointers + text + tag + records)


def write_big(path, words=2 * MIB):
    """A message of 64 MiB in all: a struct with four lists of random bytes, each of 16 MiB less a few words."""
    sizes = [words - 1, words - 1, words - 1, words - 3]
    rng = random.Random(1)
    with open(path, "wb") as out:
        out.write(struct.pack("<II", 0, 1 + 4 + sum(sizes)))
        out.write(struct_pointer(0, 0, 4))
        for i, size in enumerate(sizes):
            out.write(list_pointer(3 - i + sum(sizes[:i]), 2, 8 * size))
        for size in sizes:
            out.write(rng.randbytes(8 * size))


def write_small(path, thousands=300):
    """A stream of some 300,000 small messages."""
    rng = random.Random(2)
    kinds = [small_message(rng) for _ in range(1000)]
    with open(path, "wb") as out:
        for _ in range(thousands):
            out.write(b"".join(kinds))


def write_wide(path, count=2_000_000):
    """A message of 18.3 MiB: a list of pointers, most of them null, each tenth to a struct of two words."""
    rng = random.Random(3)
    structs = count // 10
    with open(path, "wb") as out:
        out.write(struct.pack("<II", 0, 1 + count + 2 * structs))
        out.write(list_pointer(0, 6, count))
        for i in range(count):
            out.write(struct_pointer(count - i - 1 + 2 * (i // 10), 2, 0) if i % 10 == 0 else word(0))
        out.write(b"".join(word(rng.randrange(1 << 60)) for _ in range(2 * structs)))


def write_tree(path, depth=21):
    """A message of 8 million words: a binary tree of structs of two data words and two pointers."""
    total = (1 << depth) - 1
    with open(path, "wb") as out:
        out.write(struct.pack("<II", 0, 1 + 4 * total))
        out.write(struct_pointer(0, 2, 2))
        for level in range(depth):
            first = (1 << level) - 1
            out.write(b"".join(tree_node(first + i, level + 1 == depth) for i in range(1 << level)))


def tree_node(number, is_leaf):
    """A struct of the tree, whose structs are in the order of their numbers: 2n + 1 and 2n + 2 are below n."""
    data = word(number) + word(number * number)
    if is_leaf:
        return data + word(0) + word(0)
    left = 4 * (2 * number + 1) - (4 * number + 3)
    return data + struct_pointer(left, 2, 2) + struct_pointer(left + 3, 2, 2)


def write_random(path, blocks=64):
    """64 MiB of random bytes: hardly a word has a zero byte."""
    rng = random.Random(4)
    with open(path, "wb") as out:
        for _ in range(blocks):
            out.write(rng.randbytes(MIB))


def write_zero(path, blocks=64):
    """64 MiB of zero words."""
    with open(path, "wb") as out:
        for _ in range(blocks):
            out.write(bytes(MIB))


def write_mixed(path, blocks=64):
    """64 MiB in which zero words, pointers, small numbers, text and random words take turns."""
    rng = random.Random(5)
    kinds = [
        lambda: bytes(8) * rng.randrange(1, 6),
        lambda: struct_pointer(rng.randrange(1 << 12), rng.randrange(8), rng.randrange(8)),
        lambda: word(rng.randrange(1 << rng.randrange(1, 40))),
        lambda: bytes(rng.randrange(97, 123) for _ in range(8 * rng.randrange(1, 6))),
        lambda: rng.randbytes(8 * rng.randrange(1, 4)),
    ]
    block = b"".join(rng.choice(kinds)() for _ in range(MIB // 12))[:MIB]
    with open(path, "wb") as out:
        for i in range(blocks):
            turn = 8 * rng.randrange(MIB // 8)
            out.write(block[turn:] + block[:turn])


MESSAGES = {"big": write_big, "small": write_small, "wide": write_wide, "tree": write_tree}
WORDS = {"random": write_random, "zero": write_zero, "mixed": write_mixed}
INPUTS = MESSAGES | WORDS


@dataclass
class Timed:
    """What is timed on a kind of inputs: its name in the table, its words, whether it gets the input packed, the
    statuses that it may end with, the job that peers do too, and whether it writes into a pipe to `cat`."""
    name: str
    words: str
    packed: bool = False
    statuses: tuple = (0,)
    job: str = ""
    piped: bool = False

    @property
    def peer(self):
        """The name of the peer that runs, or None."""
        first = self.words.split()[0]
        return first if first in PEERS else None


@dataclass
class Case:
    """A row of the table: what runs, and on which input."""
    timed: Timed
    input: str

    @property
    def name(self):
        return self.timed.name

    @property
    def packed(self):
        return self.timed.packed


@dataclass
class Peer:
    """A program over another library: the folder of its source, what builds it there, and the file that this makes."""
    folder: str
    build: str
    program: str


PEERS = {
    "C++": Peer("cpp", f"{os.environ.get('CXX', 'g++')} -O2 -DNDEBUG peer.cpp -o peer -lcapnp -lkj -lpthread", "peer"),
    "Rust": Peer("rust", "cargo build --quiet --release --offline --target-dir target", "target/release/peer"),
}
SIZE = "--size 268435456"
WORDS_LIMIT = "--words 268435456"
LIMITS = f"{SIZE} {WORDS_LIMIT}"


def with_peers(job, limits="", theirs=None, **more):
    """The rows of a job that peers do too: capvet's, and theirs, which may have another name for it."""
    theirs = theirs or job
    mine = Timed(f"capvet {job}", f"PROGRAM {job} {limits} FILE", job=job, **more)
    return [mine] + [Timed(f"{it} {theirs}", f"{it} {theirs} {WORDS_LIMIT} FILE", job=job, **more) for it in PEERS]


ON_ALL = [
    Timed("cat", "cat FILE"),
    Timed("dd bs=64K", "dd if=FILE of=/dev/null bs=64K"),
]
ON_MESSAGES = [
    Timed("capvet segments", f"PROGRAM segments {SIZE} FILE"),
    *with_peers("vet", LIMITS, "walk"),
    Timed("capvet vet --strict", f"PROGRAM vet --strict --unamplified {LIMITS} FILE"),
    *with_peers("filter", LIMITS, "copy"),
    Timed("capvet filter | cat", f"PROGRAM filter {LIMITS} FILE", piped=True),
    Timed("capvet filter --pack", f"PROGRAM filter --pack {LIMITS} FILE"),
    Timed("capvet vet --exclusive", f"PROGRAM vet --exclusive {LIMITS} FILE", statuses=(0, 1)),
    *with_peers("check", LIMITS, statuses=(0, 1)),
    *with_peers("canon", LIMITS),
    *with_peers("vet --packed", LIMITS, "walk --packed", packed=True),
]
# Peers pack and unpack nothing but messages, so they are timed on two of those and not on words of any kind.
COPIES_OF_MESSAGES = with_peers("pack") + with_peers("unpack", packed=True)
# What writes a tree or a node is timed on these inputs alone: `big` would be a line for each of its words.
ON_TREE = [
    Timed("capvet dump", f"PROGRAM dump {LIMITS} FILE"),
    *COPIES_OF_MESSAGES,
]
ON_SMALL = [
    Timed("capvet dump", f"PROGRAM dump {LIMITS} FILE"),
    Timed("capvet get /p0", f"PROGRAM get /p0 {LIMITS} FILE"),
    *COPIES_OF_MESSAGES,
]
ON_WORDS = [
    Timed("capvet pack", "PROGRAM pack FILE"),
    Timed("capvet unpack", "PROGRAM unpack FILE", packed=True),
]


def cases():
    for name in INPUTS:
        more = {"tree": ON_TREE, "small": ON_SMALL}.get(name, [])
        for timed in ON_ALL + (ON_MESSAGES if name in MESSAGES else ON_WORDS) + more:
            yield Case(timed, name)


def write_packed(program, plain, path):
    """The packed encoding of a file, which unpacks to it again."""
    with open(path, "wb") as out:
        subprocess.run([program, "pack", plain], stdout=out, check=True)
    with subprocess.Popen([program, "unpack", path], stdout=subprocess.PIPE) as back, open(plain, "rb") as expected:
        while part := expected.read(MIB):
            if back.stdout.read(len(part)) != part:
                sys.exit(f"{path} doesn't unpack to {plain}")
        if back.stdout.read(1):
            sys.exit(f"{path} unpacks to more than {plain}")
    if back.returncode != 0:
        sys.exit(f"unpacking {path} ended with status {back.returncode}")


def apart(job, *arguments):
    """Does a job in a process of its own: what a command's parent ever held would count as the command's memory."""
    child = multiprocessing.Process(target=job, args=arguments)
    child.start()
    child.join()
    if child.exitcode != 0:
        sys.exit(f"{job.__name__} failed")


def why_not_built(words, folder, root=None):
    """Builds a program by a command in a folder, and gives None; or why it can't be built, in a few words."""
    if root is not None:
        return why_not_built_in(root, words, folder)
    if shutil.which(words[0]) is None:
        return f"{words[0]} isn't there"
    done = subprocess.run(words, cwd=folder, stdout=subprocess.DEVNULL, stderr=subprocess.PIPE, text=True)
    if done.returncode == 0:
        return None
    lines = [it.strip() for it in done.stderr.splitlines() if "error" in it]
    return lines[0] if lines else f"{words[0]} ended with status {done.returncode}"


# What prints the versions of both libraries in a root.
VERSIONS = "dpkg-query -W -f '${Package} ${Version}, ' libcapnp-dev librust-capnp-dev g++ rustc"


def why_not_built_in(root, words, there):
    """The same in a root of another release, over its version of the crate."""
    manifest = there / "Cargo.toml"
    if manifest.is_file():
        manifest.write_text(re.sub(r"^capnp = .*", 'capnp = "*"', manifest.read_text(), flags=re.M))
    script = f"cd /mnt && exec env HOME=/mnt {shlex.join(words)} 2>&1"
    text, status = chroots.session(root, there.parent / "layer", script, f"mount --bind '{there}' \"$merged/mnt\"")
    lines = [it.strip() for it in text.splitlines() if "error" in it]
    return None if status == 0 else lines[0] if lines else f"{words[0]} ended with status {status}"


def build_peers(names, folder, root=None):
    """The commands of the programs of these names. A peer that can't be built is left out, and a line says why."""
    sources = Path(__file__).resolve().parent / "peers"
    # (the loader of the root takes its libraries)
    loader = [] if root is None else [f"{root}/lib64/ld-linux-x86-64.so.2", "--library-path", f"{root}/usr/lib/x86_64-linux-gnu"]
    built = {}
    for name in names:
        peer = PEERS[name]
        there = shutil.copytree(sources / peer.folder, Path(folder) / "peers" / peer.folder)
        words = peer.build.split()
        reason = why_not_built(words, there, root)
        if reason and (there / "walk-sizes.rs").is_file():
            # (in `capnp` 0.27 the calls of the other walk are private)
            shutil.copy(there / "walk-sizes.rs", there / "src/walk.rs")
            reason = why_not_built(words, there, root)
        if reason is None:
            built[name] = [*loader, str(there / peer.program)]
        else:
            print(f"without the rows of {name}: {reason}", flush=True)
    return built


def run(timed, programs, file, by_processor=False):
    """Seconds, and the largest resident size in KiB. A command that ends with another status ends the run."""
    words = [part for it in timed.words.split() for part in programs.get(it, [it.replace("FILE", str(file))])]
    if timed.piped:
        words = ["sh", "-c", '"$0" "$@" | cat', *words]
    null = os.open(os.devnull, os.O_WRONLY)
    started = time.perf_counter()
    pid = os.posix_spawnp(words[0], words, os.environ, file_actions=[
        (os.POSIX_SPAWN_DUP2, null, 1), (os.POSIX_SPAWN_DUP2, null, 2)])
    _, status, usage = os.wait4(pid, 0)
    seconds = usage.ru_utime + usage.ru_stime if by_processor else time.perf_counter() - started
    os.close(null)
    status = os.waitstatus_to_exitcode(status)
    if status not in timed.statuses:
        sys.exit(f"{' '.join(words)} ended with status {status}")
    return seconds, usage.ru_maxrss


def options():
    parser = argparse.ArgumentParser()
    parser.add_argument("--rounds", type=int, default=5)
    parser.add_argument("--only", default="", help="run the rows whose name or input has this word")
    parser.add_argument("--program", default=str(TOP / "build/capvet"))
    parser.add_argument("--processor", action="store_true", help="take processor time, and not the time that passes")
    parser.add_argument("--write", action="store_true", help="write docs/internals/speed.md and docs/speed.svg")
    parser.add_argument("--peers", type=Path, help="a root of another release of Debian, for the two libraries")
    args = parser.parse_args()
    if not Path(args.program).is_file():
        sys.exit(f"{args.program} isn't there: build it by `make build`")
    if args.write and args.only:
        sys.exit("--write takes all rows, and so no --only")
    if args.write and args.processor:
        sys.exit("--write takes the time that passes, and so no --processor")
    if args.write and args.peers:
        sys.exit("--write takes the libraries of this machine, and so no --peers")
    return args


def choose(only):
    """The rows whose name or input has a word, and that of `dd` for each of their inputs."""
    every = list(cases())
    chosen = [it for it in every if only in it.name or only in it.input]
    inputs = {it.input for it in chosen}
    return [it for it in every if it in chosen or it.input in inputs and it.name == "dd bs=64K"]


def make_files(program, chosen, folder):
    """The files that the rows read: of each input the plain one, and the packed one where a row gets that."""
    files = {}
    for name in {it.input for it in chosen}:
        files[name, False] = Path(folder) / name
        apart(INPUTS[name], files[name, False])
    for name in {it.input for it in chosen if it.packed}:
        files[name, True] = Path(folder) / f"{name}.packed"
        apart(write_packed, program, files[name, False], files[name, True])
    return files


def measure(chosen, programs, files, rounds, by_processor):
    """The median of the seconds of each row, and its largest resident size in KiB."""
    runs = [[] for _ in chosen]
    for _ in range(rounds):
        for it, mine in zip(chosen, runs):
            mine.append(run(it.timed, programs, files[it.input, it.packed], by_processor))
    return [(statistics.median(seconds for seconds, _ in mine), max(memory for _, memory in mine)) for mine in runs]


def fastest_peers(chosen, results):
    """The seconds of the faster peer, by input and job."""
    fastest = {}
    for it, (seconds, _) in zip(chosen, results):
        if it.timed.peer:
            place = it.input, it.timed.job
            fastest[place] = min(seconds, fastest.get(place, seconds))
    return fastest


HEADS = ["input", "command", "MiB", "seconds", "MB/s", "ratio", "MiB used", "peer"]


def lines_of(chosen, results, sizes):
    """The cells of each row, as text. The last one is empty where no library does the job."""
    dd = {it.input: seconds for it, (seconds, _) in zip(chosen, results) if it.name == "dd bs=64K"}
    fastest = fastest_peers(chosen, results)
    lines = []
    for it, (seconds, memory) in zip(chosen, results):
        size = sizes[it.input]
        peer = None if it.timed.peer else fastest.get((it.input, it.timed.job))
        lines.append([it.input, it.name, f"{size / MIB:.1f}", f"{seconds:.4f}", f"{size / seconds / 1e6:.0f}", f"{seconds / dd[it.input]:.2f}",
                      f"{memory / 1024:.1f}", f"{seconds / peer:.2f}" if peer else ""])
    return lines


def show(lines):
    for line in [HEADS, *lines]:
        name, command, *numbers = line
        print(f"{name:8} {command:20} " + " ".join(f"{it:>{wide}}" for it, wide in zip(numbers, (7, 9, 8, 7, 9, 7))).rstrip())


def ratios(chosen, results):
    """The input, the job and the ratio of each row of capvet's that a library does too."""
    fastest = fastest_peers(chosen, results)
    return [(it.input, it.timed.job, seconds / fastest[it.input, it.timed.job]) for it, (seconds, _) in zip(chosen, results)
            if it.timed.job and not it.timed.peer]


def machine():
    """The processor, how many of them, the memory and the system."""
    info = Path("/proc/cpuinfo")
    names = [line.partition(":")[2].strip() for line in info.read_text().splitlines() if line.startswith("model name")] if info.is_file() else []
    memory = os.sysconf("SC_PAGE_SIZE") * os.sysconf("SC_PHYS_PAGES") / (1 << 30)
    return f"{names[0] if names else platform.machine()}, {os.cpu_count()} processors, {memory:.0f} GiB, {platform.system()} {platform.release()}"


def write_pages(chosen, lines, results, rounds):
    """Puts the results into docs/speed.svg and docs/internals/speed.md."""
    (TOP / "docs/speed.svg").write_text(chart.svg(ratios(chosen, results)))
    picture = "![capvet's time over that of the faster library]({})\n"
    measured = f"Machine: {machine()}. The median of {rounds} rounds.\n\n{chart.table([HEADS, *lines])}\n{picture.format('../speed.svg')}"
    page = TOP / "docs/internals/speed.md"
    page.write_text(chart.between(page.read_text(), "measured", measured))


def main():
    args = options()
    chosen = choose(args.only)
    with tempfile.TemporaryDirectory() as folder:
        expected = [name for name in PEERS if any(it.timed.peer == name for it in chosen)]
        built = build_peers(expected, folder, args.peers)
        if args.peers:
            print(chroots.session(args.peers, Path(folder) / "layer", VERSIONS)[0].rstrip(", "), flush=True)
        if args.write and len(built) < len(PEERS):
            sys.exit("--write takes both libraries")
        programs = built | {"PROGRAM": [args.program]}
        chosen = [it for it in chosen if it.timed.peer is None or it.timed.peer in programs]
        files = make_files(args.program, chosen, folder)
        results = measure(chosen, programs, files, args.rounds, args.processor)
        sizes = {it.input: files[it.input, False].stat().st_size for it in chosen}
    lines = lines_of(chosen, results, sizes)
    show(lines)
    if args.write:
        write_pages(chosen, lines, results, args.rounds)


if __name__ == "__main__":
    main()
