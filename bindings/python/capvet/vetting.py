"""`python -m capvet vet`: many files by some processes.

The processes send what they find in parts, and keep nothing of it. If one is killed, only the file that it was at is lost."""

from __future__ import annotations

import csv
import json
import multiprocessing
import os
import shutil
import signal
import stat
import time
from collections import Counter, deque
from dataclasses import dataclass, field
from multiprocessing.connection import Connection, wait
from multiprocessing.reduction import recv_handle, send_handle
from typing import Any, ContextManager, Deque, Dict, Iterator, List, NamedTuple, Optional, Sequence, TextIO

from ._capvet import lib
from .errors import name_of
from .frames import Frames, frames_of
from .reports import Limits

STANDARD_INPUT = "-"
"""The name of standard input among those of files."""
_PIECE, _READ = 1 << 20, 1 << 16
"""How many bytes are read of a file, and of one that fsspec opens."""
_MOST_ROWS = 1 << 16
"""How many characters of rows a part has, about."""
_SECONDS = 0.1
"""After this time a part is sent, if something is done."""
_MOST_FILES, _MOST_BYTES = 64, 8 << 20
"""What a process gets at once: so many files, or fewer if they have so many bytes."""


class Row(NamedTuple):
    """A message that is refused, the place where a file stops being a stream of messages, or a file that can't be read."""

    file: str
    message: int
    offset: int
    reason: str
    segment: Optional[int] = None
    word: Optional[int] = None
    pointer: Optional[int] = None
    length: Optional[int] = None
    charge: Optional[int] = None
    depth: Optional[int] = None
    pointers: Optional[int] = None
    capabilities: Optional[int] = None


_SHORT = 7
"""How many fields the rows have where accepted messages have none."""


@dataclass
class Tally:
    """What is counted. Parts of it can be added."""

    files: int = 0
    bytes: int = 0
    messages: int = 0
    accepted: int = 0
    refused: Counter[str] = field(default_factory=Counter)
    stopped: Counter[str] = field(default_factory=Counter)
    failed: Counter[str] = field(default_factory=Counter)

    def add(self, other: Tally) -> None:
        for name, counted in vars(other).items():
            # (the sum of two Counters is one)
            setattr(self, name, getattr(self, name) + counted)


class How(NamedTuple):
    """How files are vetted, and what is written of their refused messages: nothing, "csv" or "json"."""

    packed: bool
    limits: Limits
    form: Optional[str]
    is_all: bool = False
    """Whether accepted messages have rows too."""
    compression: Optional[str] = None
    """How files are compressed, by the names of fsspec."""

    @property
    def columns(self) -> int:
        return len(Row._fields) if self.is_all else _SHORT


class Part(NamedTuple):
    """What a process has found since its last part."""

    tally: Tally
    rows: str
    faults: List[str]
    is_inside: bool
    """Whether a part of a file has been counted, of which the rest follows."""
    is_idle: bool
    """Whether all files are done that the process was given."""


def header(how: How) -> str:
    """The first line of the rows."""
    return ",".join(Row._fields[:how.columns]) + "\n" if how.form == "csv" else ""


def is_elsewhere(name: str) -> bool:
    """Whether a name is one of fsspec, such as s3://bucket/name."""
    return "://" in name


def _opened(name: str, compression: Optional[str], given: Optional[int]) -> ContextManager[Any]:
    """A file, which fsspec opens if it is elsewhere or compressed, or standard input, by the descriptor that was given."""
    if given is not None:
        return open(given, "rb", buffering=0)
    if compression is None and not is_elsewhere(name):
        return open(name, "rb", buffering=0)
    import fsspec
    opened: ContextManager[Any] = fsspec.open(name, "rb", compression=compression)
    return opened


def _piece_of(file: Any) -> bytes:
    """The next bytes of a file, or none at its end."""
    # (where what unpacks a file finds a fault, `read` loses what came before it)
    read = getattr(file, "read1", None)
    piece: Optional[bytes] = file.read(_PIECE) if read is None else read(_READ)
    if piece is None:
        raise BlockingIOError("nothing has come yet, and the input doesn't block")
    return piece


def _is_slow(file: Any) -> bool:
    """Whether a file is a pipe, which may give nothing more for long."""
    try:
        return not stat.S_ISREG(os.fstat(file.fileno()).st_mode)
    except (AttributeError, OSError):
        return False


@dataclass
class _Batch:
    """What was found since the last part was sent."""

    tally: Tally = field(default_factory=Tally)
    rows: List[str] = field(default_factory=list)
    faults: List[str] = field(default_factory=list)
    size: int = 0
    """How many characters the rows have."""
    begin: float = field(default_factory=time.monotonic)

    def write(self, text: str) -> int:
        """Adds the line of a row. The writer of CSV calls this."""
        self.rows.append(text)
        self.size += len(text)
        return len(text)

    def row(self, row: Row, how: How) -> None:
        if how.form == "csv":
            csv.writer(self, lineterminator="\n").writerow(row[:how.columns])
        elif how.form:
            self.write(json.dumps(dict(zip(Row._fields[:how.columns], row))) + "\n")


class _Run:
    """Vets files one after the other, and sends parts."""

    def __init__(self, connection: Connection, how: How) -> None:
        self.connection, self.how, self.batch = connection, how, _Batch()

    def send(self, is_inside: bool, is_idle: bool) -> None:
        batch, self.batch = self.batch, _Batch()
        self.connection.send(Part(batch.tally, "".join(batch.rows), batch.faults, is_inside, is_idle))

    def send_if_due(self, is_inside: bool, is_slow: bool = False) -> bool:
        is_due = is_slow or self.batch.size >= _MOST_ROWS or time.monotonic() - self.batch.begin >= _SECONDS
        if is_due:
            self.send(is_inside, False)
        return is_due

    def vet(self, names: Sequence[str], given: Optional[int]) -> None:
        """Vets files. With a descriptor there is one, which is standard input."""
        for name in names:
            is_sent = self.vet_file(name, given)
            self.batch.tally.files += 1
            # (so no file is in a part and in a later one again, if a process is killed)
            if is_sent:
                self.send(False, False)
            else:
                self.send_if_due(False)
        self.send(False, True)

    def vet_file(self, name: str, given: Optional[int]) -> bool:
        """Vets a file, and returns whether a part of it was sent."""
        frames, is_sent = frames_of(self.how.packed, self.how.limits), False
        try:
            with _opened(name, self.how.compression, given) as file:
                is_slow = _is_slow(file)
                while piece := _piece_of(file):
                    self.batch.tally.bytes += len(piece)
                    frames.add(piece)
                    is_sent = self.vet_messages(name, frames) or is_sent
                    is_sent = self.send_if_due(True, is_slow) or is_sent
                    if frames.is_at_fault:
                        break
                if frames.is_at_fault or frames.is_cut:
                    self.stop(name, frames, self.batch.tally.stopped, frames.fault().reason)
        except Exception as error:
            # (those of fsspec, and of what unpacks files, are of many kinds)
            self.stop(name, frames, self.batch.tally.failed, type(error).__name__)
            text = str(error) or ("out of memory" if isinstance(error, MemoryError) else type(error).__name__)
            self.batch.faults.append(text if isinstance(error, OSError) and error.filename else f"{name}: {text}")
        return is_sent

    def stop(self, name: str, frames: Frames, counter: Counter[str], reason: str) -> None:
        counter[reason] += 1
        self.batch.row(Row(name, frames.number, frames.offset, reason), self.how)

    def vet_messages(self, name: str, frames: Frames) -> bool:
        """Vets the messages that have come, and returns whether a part was sent."""
        is_sent = False
        while records := frames.find():
            first = frames.number
            frames.drop(records)
            for number, record in enumerate(records, first):
                self.batch.tally.messages += 1
                offset, length, charge, pointers, capabilities, depth, _, segment, word, answer, _ = record
                if answer == lib.CAPVET_OK:
                    self.batch.tally.accepted += 1
                    if not self.how.is_all:
                        continue
                    row = Row(name, number, offset, "accepted", None, None, None, length, charge, depth, pointers, capabilities)
                else:
                    reason = name_of(answer)
                    self.batch.tally.refused[reason] += 1
                    # (of a refused message the record has the number of the pointer there)
                    row = Row(name, number, offset, reason, segment, word, pointers, length)
                self.batch.row(row, self.how)
                if self.batch.size >= _MOST_ROWS:
                    is_sent = self.send_if_due(True) or is_sent
        return is_sent


def _work(connection: Connection, others: List[Connection], how: How) -> None:
    """What a process does: it vets the files that it is given, until the other end of the connection is closed."""
    # (it has inherited the other ends, and they would never be closed)
    for other in others:
        other.close()
    # (a terminal sends the signal to all processes, and the one at the other end decides)
    signal.signal(signal.SIGINT, signal.SIG_IGN)
    try:
        while True:
            names = connection.recv()
            # (a process that multiprocessing begins has no standard input)
            _Run(connection, how).vet(names, recv_handle(connection) if STANDARD_INPUT in names else None)
    except (EOFError, OSError):
        pass


@dataclass
class _Worker:
    """A process, and which of the files that it was given it has not reported yet."""

    process: Any
    connection: Connection
    names: List[str] = field(default_factory=list)
    is_inside: bool = False


class Files:
    """Vets files by some processes. Iterate over it for the parts, which come in no fixed order. close() ends it at once.

    STANDARD_INPUT may be one of the names, once.
    """

    def __init__(self, names: Sequence[str], jobs: int, how: How) -> None:
        self.size = 0
        """The bytes of all files."""
        self._how, self._waiting = how, self._groups(names)
        self._workers: Dict[Connection, _Worker] = {}
        self._jobs = min(jobs, len(self._waiting))

    def _groups(self, names: Sequence[str]) -> Deque[List[str]]:
        """The files in groups, each of which a process gets at once."""
        groups: Deque[List[str]] = deque()
        group_size = _MOST_BYTES
        for name in names:
            size = _size(name)
            self.size += size or 0
            is_alone = size is None or name == STANDARD_INPUT
            if not groups or is_alone or group_size + (size or 0) > _MOST_BYTES or len(groups[-1]) == _MOST_FILES:
                groups.append([])
                group_size = 0
            groups[-1].append(name)
            group_size += _MOST_BYTES + 1 if is_alone else size or 0
        return groups

    def __enter__(self) -> Files:
        return self

    def __exit__(self, *_: object) -> None:
        for worker in self._workers.values():
            worker.process.kill()
            worker.process.join()
            worker.connection.close()
        self._workers.clear()

    def _begin(self) -> None:
        here, there = multiprocessing.Pipe()
        process = multiprocessing.Process(target=_work, args=(there, [here, *self._workers], self._how), daemon=True)
        # (or the signal could end the process before it ignores it)
        signal.pthread_sigmask(signal.SIG_BLOCK, (signal.SIGINT,))
        try:
            process.start()
        finally:
            signal.pthread_sigmask(signal.SIG_UNBLOCK, (signal.SIGINT,))
        there.close()
        self._workers[here] = worker = _Worker(process, here)
        self._give(worker)

    def _give(self, worker: _Worker) -> None:
        worker.names, worker.is_inside = self._waiting.popleft(), False
        try:
            worker.connection.send(worker.names)
            if STANDARD_INPUT in worker.names:
                send_handle(worker.connection, 0, worker.process.pid)
        except OSError:
            # (it was killed, which the next look at its connection shows, and has none of these files)
            self._waiting.appendleft(worker.names)
            worker.names = []

    def __iter__(self) -> Iterator[Part]:
        """The parts as they come, and one without anything now and then."""
        while self._waiting or any(worker.names for worker in self._workers.values()):
            while self._waiting and len(self._workers) < self._jobs:
                self._begin()
            ready = wait(list(self._workers), timeout=_SECONDS)
            for connection in ready:
                yield from self._received(self._workers[connection])  # type: ignore[index]
            if not ready:
                yield Part(Tally(), "", [], False, False)

    def _received(self, worker: _Worker) -> Iterator[Part]:
        try:
            part: Part = worker.connection.recv()
        except (EOFError, OSError):
            yield from self._killed(worker)
            return
        del worker.names[:part.tally.files]
        worker.is_inside = part.is_inside
        yield part
        if part.is_idle and self._waiting:
            self._give(worker)

    def _killed(self, worker: _Worker) -> Iterator[Part]:
        """What is known of the files of a process that was killed. They are given to others, but for the one that it was at."""
        worker.process.join()
        worker.connection.close()
        del self._workers[worker.connection]
        names = worker.names
        if names and (worker.is_inside or len(names) == 1):
            name, names = names[0], names[1:]
            batch = _Batch(Tally(files=1, failed=Counter(KilledWorker=1)))
            batch.row(Row(name, 0, 0, "KilledWorker"), self._how)
            fault = f"{name}: the process that vetted it was killed (status {worker.process.exitcode})"
            yield Part(batch.tally, "".join(batch.rows), [fault], False, False)
        self._waiting.extendleft([name] for name in reversed(names))


def _size(name: str) -> Optional[int]:
    """How many bytes a file has, or None for a pipe and the like."""
    try:
        status = os.stat(0 if name == STANDARD_INPUT else name)
    except OSError:
        return 0
    return status.st_size if stat.S_ISREG(status.st_mode) else None


def summary(tally: Tally, form: str = "text") -> str:
    """How many files, messages and bytes there are, and how many messages are refused for each reason."""
    if form == "json":
        return json.dumps(vars(tally)) + "\n"
    text = (f"files {tally.files} bytes {tally.bytes} messages {tally.messages} accepted {tally.accepted} "
            f"refused {sum(tally.refused.values())}\n")
    for word, counts in (("refused", tally.refused), ("stopped", tally.stopped), ("failed", tally.failed)):
        text += "".join(f"{word} {reason} {count}\n" for reason, count in sorted(counts.items(), key=lambda it: (-it[1], it[0])))
    return text


class Bar:
    """How many bytes are done, and how long the others take, on a terminal. Elsewhere it shows nothing. Where the bytes are not
    known it counts files."""

    _WIDTH = 30

    def __init__(self, out: TextIO, total: int, unit: str = "MiB") -> None:
        self._out, self._total, self._is_shown = out if out.isatty() else None, total, False
        self._time, self._begin, self._unit = 0.0, time.monotonic(), unit

    def show(self, done: int) -> None:
        """Shows it, if it has changed for long enough or was hidden."""
        now = time.monotonic()
        if self._out is None or self._is_shown and now - self._time < _SECONDS:
            return
        part = min(1.0, done / self._total) if self._total else 1.0
        width = max(5, min(self._WIDTH, shutil.get_terminal_size().columns - 40))
        filled = int(part * width)
        numbers = f"{done} of {self._total} files" if self._unit == "files" else f"{done / 1048576:.1f} of {self._total / 1048576:.1f} MiB"
        left = int((now - self._begin) * (1 - part) / part) if 0 < part < 1 else 0
        self._out.write(f"\r[{'#' * filled}{'.' * (width - filled)}] {int(part * 100):3}% {numbers}"
                        f"{f', {left // 60}:{left % 60:02} left' if left else ''}\x1b[K")
        self._out.flush()
        self._time, self._is_shown = now, True

    def hide(self) -> None:
        """Clears it, so that other lines can be written."""
        if self._out is not None and self._is_shown:
            self._out.write("\r\x1b[K")
            self._out.flush()
            self._is_shown = False

    def end(self, done: int) -> None:
        """Shows it a last time, and ends its line."""
        self._is_shown = False
        self.show(done)
        if self._out is not None:
            self._out.write("\n")
            self._out.flush()
