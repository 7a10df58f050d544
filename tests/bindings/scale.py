#!/usr/bin/env python3
"""Runs what docs/scale.md shows: files by `python -m capvet vet`, by GNU parallel, and by Dask (examples/python/vet_archive.py).

    scale.py [PROGRAM [ARCHIVE]] [--full] [--idle]

The summary of the Dask example is that of PROGRAM, also if a worker is killed halfway, and if the run is stopped and resumed. Its
rows are those of `python -m capvet vet`. A file that is cut, missing or given twice, or that kills the process that opens it, costs
its own row. The rows of many small files are those of `python -m capvet vet -j 2`, and few tasks find them. On a terminal its
progress counts all files in one line, and Ctrl-C ends it with one line. Files are packed and compressed too. Nothing is tested over SSH
or on several machines.
Of files of many kinds, 400 or 10,000 with --full, one process, four, and Dask find the same rows, and a line has their times. So does a
run by Dask that is killed, terminated and interrupted at random points, and resumed. So do both if a process is killed that is in the
midst of a file, and Dask if an idle worker is killed too. If the next process that opens this file is killed as well, the file has a
row for that. Some of these files are compressed and cut or changed, others can't be opened, and some names aren't UTF-8.
Where nobody reads the rows, the summary or the faults, or `head -5` reads the rows, both commands end with one line and status 3.
No process of these runs is left.
With --long it is stopped nine times, and else three times.
With --idle the archive has 1 GiB and not 32 MiB, and two workers have to need at most 0.6 of the time of one. For 10,000 small files
and for the archive they have to need at most twice the time of `python -m capvet vet -j 2`, both without their starts. The machine may
do nothing else then. A line says what isn't tested without `parallel` or Dask. The last line is 'N passed, M failed',
and the status is 1 if a case failed.
"""
import bz2
import copy
import csv
import gzip
import json
import lzma
import os
import pty
import random
import re
import shutil
import signal
import subprocess
import sys
import tempfile
import time
import zipfile
from collections import Counter
from contextlib import suppress
from functools import lru_cache
from pathlib import Path
from statistics import median

sys.path[1:1] = map(str, Path(__file__).resolve().parents[1].iterdir())

import python as package
from amount import IS_IDLE, cases, has
from harness import PROGRAM, TOP, compare, ended, run
from install import make
from needs import MODULES, missing, python_with

FILES, MIB = (16, 64) if IS_IDLE else (4, 8)
MOST_RATIO, MOST_BESIDE = 0.6, 2
# How many small files there are, and the tasks that may find their rows.
SMALL, MOST_TASKS = (10000, 40) if IS_IDLE else (2000, 40)
SAMPLES = ("contacts.bin", "contacts-many-segments.bin", "telemetry.bin", "stream-of-four.bin", "shared.bin")
CYCLE = (TOP / "examples/cycle.bin").read_bytes()
EXAMPLE = TOP / "examples/python/vet_archive.py"
HEADER = ["file", "message", "offset", "reason", "segment", "word", "pointer"]
MIXED = cases(400, full=10_000)  # files of many kinds
STOPS = 3 if has("--long") else 1  # of each kind, of a run over these
SEED = 20261201
# File systems for fsspec. The files of one kill the process that opens them, and those of the other wait for a file beside them. Each
# Python that starts here knows both.
DEADLY = """import os, signal, time
from fsspec.implementations.local import LocalFileSystem

class Deadly(LocalFileSystem):
    protocol = "deadly"

    def _open(self, *words, **how):
        os.kill(os.getpid(), signal.SIGKILL)

class Waiting(LocalFileSystem):
    protocol = "waiting"

    def _open(self, path, *words, **how):
        path = path.rpartition("://")[2]
        with open(path + ".pid", "w") as file:
            print(os.getpid(), file=file)
        while not os.path.exists(path + ".go"):
            time.sleep(0.01)
        return super()._open(path, *words, **how)
"""
KNOWN = ("import fsspec\nfsspec.register_implementation('deadly', 'deadly.Deadly')\n"
         "fsspec.register_implementation('waiting', 'deadly.Waiting')\n")
# Limits of time that a busy machine doesn't exceed.
PATIENT = {"DASK_DISTRIBUTED__COMM__TIMEOUTS__CONNECT": "600s", "DASK_DISTRIBUTED__COMM__TIMEOUTS__TCP": "600s"}
# The time of a task in the example, and another one.
TIMED = "MOST_FILES, SECONDS = 512, 1.0\n", "MOST_FILES, SECONDS = 512, 3600.0\n"


def as_shown(folder, python, modules):
    """The commands of the page write what it shows."""
    if missing("files by GNU parallel", "parallel"):
        return
    page = (TOP / "docs/scale.md").read_text()
    first, then = re.search(r"^```sh\n(.*?)\n(.*?)\n```$", page, re.M | re.S).groups()
    compare("the first command of docs/scale.md", "make install PREFIX=$HOME/x", first)
    compare("make install", ("", 0), make("install", folder, f"PREFIX={folder / 'x'}"))
    shutil.copytree(TOP / "examples", folder / "examples")
    (folder / ".parallel").mkdir()
    (folder / ".parallel/will-cite").touch()
    (folder / "venv/bin").mkdir(parents=True)
    (folder / "venv/bin/python").symlink_to(python or sys.executable)
    environment = {**os.environ, "HOME": str(folder), "LC_ALL": "C.UTF-8", "PYTHONPATH": str(modules)}
    for block in re.findall(r"^```console\n(.*?)^```$", page, re.M | re.S):
        if python or "venv/" not in block:
            for command, expected in re.findall(r"^\$ (.*)\n((?:(?!\$ ).*\n)*)", block, re.M):
                text, _ = run(["bash", "-c", f"{then}\n{command}"], cwd=folder, env=environment)
                compare(f"docs/scale.md: {command}", expected, text)


def modules_of(folder):
    """A folder with the package for Python, or None."""
    if missing("an archive over several processes", "wheel", "cc"):
        return None
    wheel = package.wheel_of(folder)
    if wheel is None:
        return None
    with zipfile.ZipFile(wheel) as file:
        file.extractall(folder)
    (folder / "deadly.py").write_text(DEADLY)
    (folder / "sitecustomize.py").write_text(KNOWN)
    return folder


def archive(folder):
    """Files of samples, with a circle after each hundred of them."""
    part = b"".join((TOP / "examples" / name).read_bytes() for name in SAMPLES) * 100 + CYCLE
    for number in range(FILES):
        (folder / f"part{number:02}.bin").write_bytes(part * ((MIB << 20) // len(part)))
    return sorted(folder.iterdir())


def of_program(files, options=()):
    """The summary, by the verdicts of the program."""
    verdicts, stops = Counter(), Counter()
    for file in files:
        ran = subprocess.run([PROGRAM, "vet", "--strict", "--unamplified", *options, file], stdout=subprocess.PIPE,
                             stderr=subprocess.PIPE, timeout=600, text=True)
        verdicts.update(it[3] if it[2] == "refused" else "" for it in map(str.split, ran.stdout.splitlines()))
        stops.update(re.findall(r"^capvet: message \d+: (\w+)", ran.stderr))
    accepted, size = verdicts.pop("", 0), sum(Path(file).stat().st_size for file in files)
    refused = sum(verdicts.values())
    text = f"files {len(files)} bytes {size} messages {accepted + refused} accepted {accepted} refused {refused}\n"
    return text + "".join(f"{word} {reason} {count}\n" for word, counts in (("refused", verdicts), ("stopped", stops))
                          for reason, count in sorted(counts.items(), key=lambda it: (-it[1], it[0])))


class Example:
    """Runs of the example over two processes."""

    def __init__(self, python, modules):
        self.command = [python, EXAMPLE]
        self.environment = {**os.environ, "PYTHONPATH": str(modules), **PATIENT}

    def patient(self, folder):
        """The same by a copy of the example whose tasks never end by time, as they do on a slow machine."""
        (folder / EXAMPLE.name).write_text(EXAMPLE.read_text().replace(*TIMED))
        other = copy.copy(self)
        other.command = [self.command[0], folder / EXAMPLE.name]
        return other

    def begin(self, *words, **environment):
        return subprocess.Popen([*self.command, *words], env={**self.environment, **environment}, stdout=subprocess.PIPE,
                                stderr=subprocess.PIPE, stdin=subprocess.DEVNULL, text=True)

    def __call__(self, *words, **environment):
        with self.begin(*words, **environment) as process:
            text, said = process.communicate(timeout=600)
        return text, said, process.returncode


def rows_of(name):
    """The rows of a CSV, without the header."""
    with open(name, newline="") as file:
        header, *rows = csv.reader(file)
    compare("the header of the rows", HEADER, header)
    return rows


def example(ran, folder, files):
    """The summary and the rows of the example."""
    rows = folder / "refused.csv"
    expected = of_program(files)
    compare("the summary", (expected, "", 1), ran("--bytes", "1000000", "--refused", rows, *files))
    found = rows_of(rows)
    compare("how many rows", f"refused DepthLimit {len(found)}\n", expected.splitlines(True)[1])
    for name in map(str, files[:2]):
        stream = Path(name).read_bytes()
        places = [int(row[2]) for row in found if row[0] == name]
        compare("each row is of a circle", {CYCLE}, {stream[at:at + len(CYCLE)] for at in places})
        compare("the rows have all circles of a file", stream.count(CYCLE), len(set(places)))
    compare("the places", {("DepthLimit", "0", "0", "65")}, {tuple(row[3:]) for row in found})
    text = run([*ran.command[:1], "-m", "capvet", "vet", "--strict", "--unamplified", "--csv", *files], env=ran.environment)[0]
    compare("the rows of python -m capvet vet", sorted(",".join(row) for row in found),
            sorted(line for line in text.splitlines() if "DepthLimit," in line))
    resumed(ran, folder, files, expected, sorted(found))


def resumed(ran, folder, files, expected, rows):
    """A run that is killed, and one that is interrupted, go on where they were."""
    csv_file, log = folder / "resumed.csv", folder / "log"
    words = ("--bytes", "1000000", "--refused", csv_file, "--log", log, "--resume", *files)
    for kill in ("kill", "terminate"):
        before = {it: it.read_bytes() for it in (csv_file, log) if it.exists()}
        # (a run may end before it is stopped, while this process waits for a busy machine. Then it begins again)
        for _ in range(20):
            process = ran.begin(*words)
            lines = len(before[log].splitlines()) if log in before else 0
            while process.poll() is None and (not log.exists() or len(log.read_text().splitlines()) < lines + 4):
                time.sleep(0.02)
            is_stopped = process.poll() is None
            getattr(process, kill)()
            process.communicate()
            if is_stopped:
                break
            for it in (csv_file, log):
                it.unlink(missing_ok=True)
            for it, data in before.items():
                it.write_bytes(data)
        compare("it is stopped", True, is_stopped)
        # (as if the machine had ended in the midst of a line)
        with open(log, "a") as file:
            file.write('{"part": ["' + str(files[0]))
        with open(csv_file, "a") as file:
            file.write(f"{files[0]},99")
    done = len(log.read_text().splitlines()) - 1
    text, said, status = ran(*words)
    compare("the summary of a run that is resumed", (expected, "", 1), (text, said, status))
    compare("its rows", rows, sorted(rows_of(csv_file)))
    compare("some were done before", True, done > 6)
    compare("nothing is left to do", (expected, "", 1), ran(*words))
    text, said, status = ran("--depth", "3", *words)
    compare("a run with other options", ("", 3, True), (text, status, "is of a run with other options" in said))
    text, said, status = ran(*words[:-1])
    compare("a run with fewer names", ("", 3, f"vet_archive: ValueError: {log} is of a run with other files too, such as {files[-1]}\n"),
            (text, status, said))
    one = TOP / "examples/contacts.bin"
    compare("a run with more names", (of_program([*files, one]), "", 1), ran(*words, one))


def single_files(ran, folder, files):
    """Files that are cut, missing, packed, compressed, or that kill who reads them."""
    cut, one, none, rows = (folder / name for name in ("cut", "one", "none", "rows.csv"))
    cut.write_bytes(files[0].read_bytes()[:-8 * 100])
    one.write_bytes((TOP / "examples/contacts.bin").read_bytes())
    none.write_bytes(b"")
    expected = of_program([cut, one])
    compare("a cut file", (expected, "", 1), ran("--refused", rows, cut, one))
    row = rows_of(rows)[-1]
    compare("its row", (str(cut), "Truncated", "", "", ""), (row[0], *row[3:]))
    start = int(row[2])
    compare("its place", (b"", 1), (subprocess.run([PROGRAM, "vet"], input=cut.read_bytes()[start:], capture_output=True).stdout, 1))
    compare("a cut file in ranges", (expected, "", 1), ran("--bytes", "1000000", cut, one))
    compare("a large message", (of_program([one]), "", 0), ran("--bytes", "100", one))
    stopped = folder / "stopped"
    stopped.write_bytes(b"\0\0\0\0\0\0\x80\xff" + one.read_bytes())
    compare("a large file without messages", (of_program([stopped]), "", 1), ran("--bytes", "100", stopped))
    compare("the same file twice", (of_program([one, none]), "", 0), ran(one, one, none))
    text, said, status = ran("--refused", rows, folder / "no", one, folder)
    compare("missing files", (True, True, 3), (text.startswith("files 3 bytes 3144 messages 1 accepted 1 refused 0\n"), text.endswith(
        "failed FileNotFoundError 1\nfailed IsADirectoryError 1\n"), status))
    compare("their rows", {(str(folder / "no"), "FileNotFoundError"), (str(folder), "IsADirectoryError")},
            {(row[0], row[3]) for row in rows_of(rows)})
    compare("their lines", {f"vet_archive: {folder / 'no'}: FileNotFoundError", f"vet_archive: {folder}: IsADirectoryError"},
            {line.partition(": [")[0] for line in said.splitlines()})
    many = [folder / f"small{number}" for number in range(40)]
    for file in many:
        file.write_bytes(CYCLE)
    # (the others are still there to be vetted when both workers have died, and no cluster gives them up)
    text, said, status = ran("--refused", rows, *many[:2], f"deadly://{one}", *many[2:], one,
                             DASK_DISTRIBUTED__SCHEDULER__ALLOWED_FAILURES="0", DASK_DISTRIBUTED__DEPLOY__LOST_WORKER_TIMEOUT="100ms")
    compare("a file that kills workers", ("files 42 bytes 3784 messages 41 accepted 1 refused 40\nrefused DepthLimit 40\n"
                                          "failed KilledWorker 1\n", 3), (text, status))
    compare("its row", [(f"deadly://{one}", "KilledWorker")], [(row[0], row[3]) for row in rows_of(rows) if row[3] != "DepthLimit"])
    names = folder / "names"
    names.write_bytes(b"".join(bytes(it) + b"\0" for it in many))
    compare("many names", (of_program(many), "", 1), ran("--files0-from", names))
    packed, zipped = folder / "one.packed", folder / "four.bin.gz"
    packed.write_bytes(subprocess.run([PROGRAM, "pack", files[0]], stdout=subprocess.PIPE).stdout)
    compare("packed files", of_program([packed], ["--packed"]), ran("--packed", "--bytes", "1000", packed)[0])
    stream = TOP / "examples/stream-of-four.bin"
    zipped.write_bytes(gzip.compress(stream.read_bytes()))
    compare("compressed files, by URL", (of_program([stream]), "", 0), ran("--compression", "infer", "--bytes", "100", f"file://{zipped}"))
    compare("limits", of_program([stream], ["--depth", "5"]), ran("--depth", "5", stream)[0])
    shared = TOP / "examples/shared.bin"
    compare("exclusive", of_program([shared], ["--exclusive"]), ran("--exclusive", shared)[0])


def small_archive(folder):
    """Small files of samples. Some have a circle, some are cut, empty, or no stream of messages."""
    samples, files = [(TOP / "examples" / name).read_bytes() for name in SAMPLES], []
    for number in range(SMALL):
        data = samples[number % len(samples)] + (CYCLE if number % 10 == 3 else b"")
        data = {7: data[:-8 * (1 + number % 40)], 9: b"\0\0\0\0\0\0\x80\xff" + data, 11: b""}.get(number % 50, data)
        files.append(folder / f"{number:05}.bin")
        files[-1].write_bytes(data)
    return files


def small_files(ran, folder, files):
    """Many small files: the rows of two processes, by few tasks, also if the second half comes with a later run."""
    rows, log, names = folder / "small.csv", folder / "small.log", folder / "small.names"
    names.write_bytes(b"\0".join(map(bytes, files)))
    options = ("--files0-from", names)
    done = subprocess.run([*ran.command[:1], "-m", "capvet", "vet", "-j", "2", "--strict", "--unamplified", "--csv", *options],
                          env=ran.environment, capture_output=True, text=True)
    compare("the time of a task is in the example", 1, EXAMPLE.read_text().count(TIMED[0]))
    compare("many small files", (done.stderr, "", 1), ran.patient(folder)("--refused", rows, "--log", log, *options))
    expected = sorted(done.stdout.splitlines())
    compare("their rows", expected, sorted(rows.read_text().splitlines()))
    compare("there are rows of each kind", {"reason", "DepthLimit", "Truncated", "TooLarge"}, {line.split(",")[3] for line in expected})
    lines = [json.loads(line) for line in log.read_text().splitlines()[1:]]
    compare("each file is in the log once", sorted(map(str, files)), sorted(part[0] for line in lines for part in line["parts"]))
    compare(f"at most {MOST_TASKS} tasks have vetted them", True, len(lines) <= MOST_TASKS)
    ran("--refused", rows, "--log", log, *files[:SMALL // 2])
    compare("half of them, and then all", (done.stderr, "", 1), ran("--refused", rows, "--log", log, "--resume", *options))
    compare("the rows then", expected, sorted(rows.read_text().splitlines()))


def changed(data):
    """Bytes with another one in the middle."""
    middle = len(data) // 2
    return data[:middle] + bytes([data[middle] ^ 0xFF]) + data[middle + 1:]


# What a file of each kind has, of some messages, and the end of its name. Of those that break off much is unpacked before.
KINDS = ((".bin", bytes), (".bin", lambda data: data[:-8]), (".bin", lambda data: b"\0\0\0\0\0\0\x80\xff" + data), (".bin", lambda data: b""),
         (".gz", gzip.compress), (".bz2", bz2.compress), (".xz", lzma.compress), (".gz", bytes), (".bin", lambda data: 3 * data + data[:12]),
         (".gz", lambda data: gzip.compress(40 * data)[:-9]), (".bz2", lambda data: bz2.compress(40 * data)[:-9]),
         (".gz", lambda data: changed(gzip.compress(40 * data))), (".xz", lambda data: changed(lzma.compress(data))))
# What is at the end of some names: a byte that is no UTF-8, and what CSV has to quote.
ENDS = (b"", b"", b"", b"", b"-\xff", b"-\xc3\xa9", b',"\n')


@lru_cache(maxsize=None)
def content(kind, data):
    """What a file of a kind has. (there are few of them, and each takes long to compress)"""
    return KINDS[kind][1](data)


def mixed_archive(folder):
    """The names of files of many kinds. Some are links to nothing and to themselves, and others are of an unknown file system."""
    samples, files = [(TOP / "examples" / name).read_bytes() for name in SAMPLES], []
    for number in range(MIXED):
        kind, name = number % (len(KINDS) + 3), bytes(folder) + b"/%05d" % number + ENDS[number % len(ENDS)]
        if kind < len(KINDS):
            name += os.fsencode(KINDS[kind][0])
            with open(name, "wb") as file:
                file.write(content(kind, samples[number % len(samples)] + (CYCLE if number % 3 == 0 else b"")))
        elif kind == len(KINDS):
            name = b"unknown://" + name
        else:
            os.symlink(b"nothing" if number % 2 else os.path.basename(name), name)
        files.append(name)
    return files


def summary_in(said):
    """The lines of a summary among those of faults."""
    return re.findall(rb"^(?:files|refused|stopped|failed) .*\n", said, re.M)


class Kinds:
    """Runs over files of many kinds, of which one waits until `go` is there. The rows of a run are in one file, and what it says
    beside them in another."""

    def __init__(self, ran, folder, files):
        names, waiting = folder / "kinds.names", folder / "kinds.waiting"
        self.rows, self.said, self.log = (folder / f"kinds.{end}" for end in ("csv", "said", "log"))
        self.go, self.pid = (folder / f"kinds.waiting.{end}" for end in ("go", "pid"))
        shutil.copy(TOP / "examples/cycle.bin", waiting)
        self.waiting, middle = b"waiting://" + bytes(waiting), len(files) // 2
        self.files = [*files[:middle], self.waiting, *files[middle:]]
        names.write_bytes(b"\0".join(self.files))
        self.options, self.environment = ("--compression", "infer", "--files0-from", names), ran.environment
        self.vet = [ran.command[0], "-m", "capvet", "vet", "--strict", "--unamplified", *self.options]
        self.dask = [*ran.command, "--workers", "4", *self.options]

    def begin(self, command, out=None, **environment):
        """Begins a run in a session of its own, in which the file waits."""
        for file in (self.go, self.pid):
            file.unlink(missing_ok=True)
        is_dask = EXAMPLE in command
        with open(self.said, "wb") as said, open(os.devnull if is_dask or out else self.rows, "wb") as rows:
            # (a process in the background may have been started with the signal ignored)
            return subprocess.Popen(command, env={**self.environment, **environment}, stdin=subprocess.DEVNULL, start_new_session=True,
                                    stdout=out or (said if is_dask else rows), stderr=said,
                                    preexec_fn=lambda: signal.signal(signal.SIGINT, signal.SIG_DFL))

    def ended(self, process):
        """What a run has found, once the file no longer waits: its rows, its summary, and its status. No process of it is left."""
        self.go.touch()
        status = process.wait(3600)
        compare("processes that are left", [], still_there(process.pid))
        return sorted(self.rows.read_bytes().splitlines()), summary_in(self.said.read_bytes()), status

    def run(self, command):
        """The same of a run in which no file waits, with its seconds."""
        begin = time.monotonic()
        process = self.begin(command)
        return self.ended(process), time.monotonic() - begin

    def waits(self, process, others=()):
        """The number of the process that has the file open which waits, once that is none of the others."""
        while process.poll() is None and (int((self.pid.exists() and self.pid.read_text()) or 0) in (0, *others)):
            time.sleep(0.01)
        return int(self.pid.read_text())


def processes_of(session):
    """The processes of a session that have not ended, each with its command."""
    found = {}
    for folder in Path("/proc").glob("[0-9]*"):
        with suppress(OSError):
            state, _, _, its = (folder / "stat").read_text().rpartition(")")[2].split()[:4]
            if int(its) == session and state != "Z":
                found[int(folder.name)] = (folder / "cmdline").read_text()
    return found


def still_there(session):
    """The processes of a session that don't end within a minute."""
    end = time.monotonic() + 60
    while (found := processes_of(session)) and time.monotonic() < end:
        time.sleep(0.05)
    return sorted(found.values())


def many_kinds(ran, folder, files):
    """Files of many kinds: the rows of one process, of four and of Dask are the same."""
    kinds, chance = Kinds(ran, folder, files), random.Random(SEED)
    (expected, found, status), one = kinds.run([*kinds.vet, "--csv", "-j", "1"])
    same = expected, found, 3
    compare("files of many kinds, by one process", 3, status)
    got, four = kinds.run([*kinds.vet, "--csv", "-j", "4"])
    compare("by four processes", same, got)
    reasons = {line.split()[1] for line in found[1:]}
    faults = {b"DepthLimit", b"Truncated", b"TooLarge", b"EOFError", b"BadGzipFile", b"LZMAError", b"FileNotFoundError", b"OSError",
              b"ValueError"}
    compare("they have all faults", set(), faults - reasons)
    compare("a name has its bytes", True, any(b"-\xff" in line for line in expected))
    compare("messages before a fault of a compressed file count", True,
            any(re.search(rb",[1-9]\d+,\d+,EOFError,", line) for line in expected))
    got, by_dask = kinds.run([*kinds.dask, "--refused", kinds.rows, "--log", kinds.log])
    compare("by Dask", same, got)
    print(f"{MIXED} files of many kinds, {len(expected) - 1} rows: {one:.1f} s by one process, {four:.1f} s by four, "
          f"{by_dask:.1f} s by four workers of Dask")
    stopped_and_resumed(kinds, chance, same)
    killed_inside(kinds, chance, same)
    head_reads(kinds, expected)
    nobody_reads(ran, kinds.vet[1:], ("--workers", "2", *kinds.options))


def stopped_and_resumed(kinds, chance, same):
    """A run by Dask that is killed, terminated and interrupted at random points goes on where it was."""
    words = [*kinds.dask, "--refused", kinds.rows, "--log", kinds.log, "--resume"]
    kinds.log.unlink()
    for how, status in ((signal.SIGKILL, -9), (signal.SIGTERM, -15), (signal.SIGINT, 130)) * STOPS:
        before, more, process = lines_of(kinds.log), chance.randrange(1, 5), kinds.begin(words)
        # (a file waits, so the run has no end before. It may be the last one)
        until = time.monotonic() + (30 if before else 600)
        while process.poll() is None and lines_of(kinds.log) < before + more and time.monotonic() < until:
            time.sleep(0.01)
        time.sleep(chance.random())
        compare("it is stopped in the middle", None, process.poll())
        process.send_signal(how)
        compare(f"the status after {how.name}", status, process.wait(600))
        compare(f"processes that are left after {how.name}", [], still_there(process.pid))
        said = kinds.said.read_bytes().splitlines()
        compare(f"what it says last, after {how.name}", how == signal.SIGINT, said[-1:] == [b"vet_archive: stopped"])
        compare(f"a traceback, after {how.name}", False, how == signal.SIGINT and b"Traceback" in b"".join(said))
    compare("some files were done, and others not", True, 0 < len(in_log(kinds.log)) <= MIXED)
    compare("it is resumed", same, kinds.ended(kinds.begin(words)))
    compare("each file is in the log once", sorted(map(os.fsdecode, kinds.files)), in_log(kinds.log))


def in_log(log):
    """The files that a log has."""
    return sorted(part[0] for line in log.read_text().splitlines()[1:] for part in json.loads(line)["parts"])


def killed_inside(kinds, chance, same):
    """If a process is killed in the midst of a file, others get it. If the next one is killed there too, the file has a row for that."""
    expected, found, status = same
    vet, dask = [*kinds.vet, "--csv", "-j", "4"], [*kinds.dask, "--refused", kinds.rows]
    lost = sorted(kinds.waiting + b",0,0,KilledWorker,,," if line.startswith(kinds.waiting) else line for line in expected)
    for name, command, environment in (("-j 4", vet, {}), ("Dask", dask, {"DASK_DISTRIBUTED__SCHEDULER__ALLOWED_FAILURES": "0"})):
        for count in (1, 2):
            process, killed = kinds.begin(command, **(environment if count == 2 else {})), []
            for _ in range(count):
                killed.append(kinds.waits(process, killed))
                time.sleep(chance.random())
                os.kill(killed[-1], signal.SIGKILL)
            if name == "Dask" and count == 1:
                others = sorted(it for it, words in processes_of(process.pid).items() if "spawn_main" in words and it not in killed)
                os.kill(chance.choice(others), signal.SIGKILL)
            rows, counted, ended_with = kinds.ended(process)
            compare(f"{name}, with {count} killed", (expected if count == 1 else lost, status), (rows, ended_with))
            compare(f"{name}, with {count} killed, the summary", found if count == 1 else [b"failed KilledWorker 1\n"],
                    counted if count == 1 else [line for line in counted if b"Killed" in line])


def head_reads(kinds, expected):
    """Where `head -5` reads the rows, it gets five, and then the run ends with one line and status 3."""
    line = b"capvet: output failed"
    for command, last in (([*kinds.vet, "--csv", "-j", "1"], line), ([*kinds.vet, "--csv", "-j", "4"], line),
                          ([*kinds.dask, "--refused", "/dev/stdout"], b"vet_archive: BrokenPipeError: [Errno 32] Broken pipe")):
        process = kinds.begin(command, subprocess.PIPE)
        head = subprocess.Popen(["head", "-5"], stdin=process.stdout, stdout=subprocess.PIPE)
        process.stdout.close()
        rows = head.communicate()[0].splitlines()
        kinds.go.touch()
        compare("what head -5 writes", (5, set()), (len(rows), set(rows).difference(expected)))
        compare("the end of the run", (3, last), (process.wait(600), kinds.said.read_bytes().splitlines()[-1]))
        compare("and no traceback", False, b"Traceback" in kinds.said.read_bytes())
        compare("processes that are left after head -5", [], still_there(process.pid))


def lines_of(file):
    """How many lines a file has, or 0 without it."""
    return file.read_text().count("\n") if file.exists() else 0


def nobody_reads(ran, vet, words):
    """Where nobody reads an output of a run, it ends with one line and status 3, whether Python buffers the output or not."""
    python, dask = ran.command[0], ran.command[1:]
    four, line = [*vet, "-j", "4"], b"capvet: output failed"
    of_dask = b"vet_archive: BrokenPipeError: [Errno 32] Broken pipe"
    for is_buffered, output, how, last in (
            (True, "stdout", [*four, "--csv"], line), (True, "stdout", [*vet, "-j", "1", "--csv"], line), (True, "stdout", four, line),
            (True, "stdout", [*four, "--json", "--all"], line), (True, "stderr", [*four, "--csv"], None), (True, "stdout", [*vet, "--help"], line),
            (False, "stdout", [*four, "--csv"], line), (False, "stderr", four, None), (True, "stdout", [*dask, "--refused", "/dev/stdout", *words], of_dask),
            (True, "stdout", [*dask, TOP / "examples/contacts.bin"], of_dask), (True, "stderr", [*dask, *words], None)):
        reads, writes = os.pipe()
        os.close(reads)
        environment = {**ran.environment, "PYTHONUNBUFFERED": "" if is_buffered else "1"}
        done = subprocess.run([python, *how], env=environment, **{"stdout": subprocess.DEVNULL, "stderr": subprocess.PIPE, output: writes})
        os.close(writes)
        said = done.stderr or b""
        compare(f"nobody reads {output} of {' '.join(map(str, how))}", (3, last, False),
                (done.returncode, said.splitlines()[-1] if said else None, b"Traceback" in said or b"ignored" in said))


def beside(python, modules, files, kind):
    """Workers that have started need at most twice the time of processes."""
    environment = {**os.environ, "PYTHONPATH": f"{EXAMPLE.parent}:{modules}"}
    done = subprocess.run([python, TOP / "tests/bindings/scale_cluster.py", "beside", *files], env=environment, capture_output=True, text=True,
                          timeout=1200)
    compare("workers beside processes", 0, done.returncode)
    if done.returncode:
        print(done.stderr[-2000:])
        return
    seconds = json.loads(done.stdout)
    for at, what in enumerate(("time", "processor time")):
        processes, workers = (median(it[at] for it in seconds[name]) for name in ("processes", "workers"))
        print(f"{len(files)} {kind} files: {what} {processes:.2f} s by two processes, {workers:.2f} s by two workers of Dask")
        if not at:
            compare(f"{kind} files take at most {MOST_BESIDE} of the time by Dask", True, workers <= MOST_BESIDE * processes)


def watched(ran, files, is_stopped):
    """What a run says on a terminal and what it writes, and its status. It may be stopped by Ctrl-C once it says how long it takes."""
    ours, theirs = pty.openpty()
    # (a process in the background may have been started with the signal ignored)
    process = subprocess.Popen([*ran.command, "--bytes", "300000", *files], env=ran.environment, stdin=subprocess.DEVNULL,
                               stdout=subprocess.PIPE, stderr=theirs, start_new_session=True,
                               preexec_fn=lambda: signal.signal(signal.SIGINT, signal.SIG_DFL))
    os.close(theirs)
    said = ""
    try:
        while piece := os.read(ours, 4096):
            said += piece.decode()
            if is_stopped and "left" in said and process.poll() is None:
                os.killpg(process.pid, signal.SIGINT)
                is_stopped = False
    except OSError:
        # (how Linux says that the other end is closed)
        pass
    os.close(ours)
    text = process.communicate()[0].decode()
    return said, text, process.returncode


def on_a_terminal(ran, files):
    """The line of progress, and Ctrl-C, which a terminal sends to all processes."""
    for is_stopped in (False, True):
        # (a run may end before it is stopped, while this process waits for a busy machine. Then it begins again)
        for _ in range(20):
            said, text, status = watched(ran, files, is_stopped)
            if not (is_stopped and text):
                break
        shown = re.findall(r"\r(\d+) of (\d+) files, (\d+) %(?:, [0-9hmins ]+ left)?\x1b\[K", said)
        compare("progress counts all files from the beginning", {str(len(files))}, {total for _, total, _ in shown})
        compare("it grows", sorted(int(part) for _, _, part in shown), [int(part) for _, _, part in shown])
        rest = re.sub(r"\r\d[^\x1b]*\x1b\[K", "", said).replace("\r\n", "\n")
        if is_stopped:
            compare("Ctrl-C", ("\nvet_archive: stopped\n", "", 130), (rest, text, status))
        else:
            compare("the end of the line", ("\n", of_program(files), 1), (rest, text, status))
            compare("the last of it", ("100", True), (shown[-1][2], "left" in said))


def refused_runs(ran, folder):
    """Runs that can't be: each ends at once, with a line."""
    one = TOP / "examples/contacts.bin"
    for words in (["--workers", "0", one], ["--bytes", "0", one], [], ["--resume", one], ["--depth", "257", one]):
        text, said, status = ran(*words)
        compare(f"{words} is refused", ("", 2, True), (text, status, "error: " in said))
    text, said, status = ran("--refused", folder / "no/rows.csv", one)
    compare("rows that can't be written", ("", 3, 1), (text, status, said.count("\n")))
    text, said, status = ran("--scheduler", "tcp://127.0.0.1:9", one, DASK_DISTRIBUTED__COMM__TIMEOUTS__CONNECT="1s")
    compare("no cluster", ("", 3, True), (text, status, said.startswith("vet_archive: ")))


def on_a_cluster(python, modules, files):
    """The same summary after a worker is killed halfway. With --idle two workers are timed beside one."""
    expected = of_program(files)
    environment = {**os.environ, "PYTHONPATH": f"{EXAMPLE.parent}:{modules}"}
    done = subprocess.run([python, TOP / "tests/bindings/scale_cluster.py", "time" if IS_IDLE else "kill", *files], env=environment,
                          capture_output=True, text=True, timeout=1200)
    compare("the runs on a cluster", 0, done.returncode)
    if done.returncode:
        print(done.stderr[-2000:])
        return
    reported = json.loads(done.stdout)
    compare("a worker was killed", (True, ""), (reported["killed"], reported["said"]))
    for name, summary in reported["summaries"].items():
        compare(f"the summary, {name}", expected, summary)
    if IS_IDLE:
        one, two = (min(reported["seconds"][name]) for name in ("1", "2"))
        print(f"1 GiB takes {one:.1f} s by one worker and {two:.1f} s by two")
        compare(f"two workers need at most {MOST_RATIO} of the time of one", True, two <= MOST_RATIO * one)


def main():
    with tempfile.TemporaryDirectory() as scratch:
        folder = Path(scratch)
        os.environ["PATH"] = f"{PROGRAM.parent}:{os.environ['PATH']}"
        for name in ("shown", "archive", "modules", "small", "mixed"):
            (folder / name).mkdir()
        python = None if missing("an archive over several processes", "dask") else python_with(MODULES["dask"][0])
        modules = modules_of(folder / "modules") if python else None
        as_shown(folder / "shown", python if modules else None, modules)
        if modules:
            files = archive(folder / "archive")
            ran = Example(python, modules)
            example(ran, folder, files)
            single_files(ran, folder, files)
            small = small_archive(folder / "small")
            small_files(ran, folder, small)
            many_kinds(ran, folder, mixed_archive(folder / "mixed"))
            on_a_terminal(ran, files)
            refused_runs(ran, folder)
            on_a_cluster(python, modules, files)
            if IS_IDLE:
                beside(python, modules, small, "small")
                beside(python, modules, files, "large")
    return ended()


if __name__ == "__main__":
    sys.exit(main())
