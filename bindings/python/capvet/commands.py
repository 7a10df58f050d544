"""The command line of `python -m capvet`."""

from __future__ import annotations

import argparse
import codecs
import importlib.util
import io
import os
import sys
import traceback
from typing import BinaryIO, ContextManager, Iterable, Iterator, List, Optional, Sequence, TextIO, Tuple, Union

from . import __version__
from .errors import FrameError, Refusal
from .mapping import write_page
from .reports import DEFAULT, Limits
from .streams import read_messages
from .tree import json_pieces, text_lines
from .parquet import ParquetRows, TextRows
from .vetting import STANDARD_INPUT, Bar, Files, How, Tally, header, is_elsewhere, summary

REFUSED, WRONG, FAILED, INTERRUPTED = 1, 2, 3, 130

_OPTIONS = {"message_words": "--size", "charge": "--words", "depth": "--depth"}


class OutputError(Exception):
    """An output takes nothing more."""


def put(pieces: Iterable[str], out: Optional[TextIO] = None) -> None:
    """Writes text, and passes it on at once."""
    out = out or sys.stdout
    try:
        out.writelines(pieces)
        out.flush()
    except OSError as error:
        raise OutputError from error


def fault_text(error: FrameError, received: int) -> str:
    """What is wrong with a frame, as the program prints it."""
    return f"{error.reason} at byte {received}" if error.reason == "Truncated" else f"{error.reason} {error.segments or error.words}"


def common(parser: argparse.ArgumentParser) -> None:
    """The options that the program has too."""
    parser.add_argument("--packed", action="store_true", help="the input is packed")
    parser.add_argument("--size", metavar="N", type=int, default=DEFAULT.message_words,
                        help="most words of a message (default: %(default)s)")
    parser.add_argument("--words", metavar="N", type=int, default=DEFAULT.charge,
                        help="most words that a traversal reads (default: %(default)s)")
    parser.add_argument("--depth", metavar="N", type=int, default=DEFAULT.depth,
                        help="deepest level of an object (default: %(default)s)")
    parser.add_argument("--strict", action="store_true", help="refuse four forms that common readers reject")
    parser.add_argument("--unamplified", action="store_true",
                        help="refuse a message whose traversal reads 4,096 words more than its segments have")


def limits_of(words: argparse.Namespace) -> Limits:
    return Limits(message_words=words.size, charge=words.words, depth=words.depth, allow_nonstrict=not words.strict,
                  allow_amplified=not words.unamplified, exclusive=words.exclusive)


def standard_input() -> BinaryIO:
    if sys.stdin is None:
        raise OSError("standard input is closed")
    return sys.stdin.buffer


def opened(name: Optional[str]) -> ContextManager[BinaryIO]:
    """The file of this name, or standard input, which stays open: without a name, and by `-`."""
    if name is None or name == STANDARD_INPUT:
        return open(standard_input().fileno(), "rb", closefd=False)
    return open(name, "rb")


def run_tree(words: argparse.Namespace) -> int:
    """Writes each message's tree. The end of the run is reported as by the program."""
    status, number = 0, 0
    with opened(words.file) as file:
        stream = read_messages(file, packed=words.packed, limits=words.limits)
        try:
            for message in stream:
                put((json_pieces if words.json else text_lines)(message))
                number, status = message.number + 1, status or (REFUSED if isinstance(message, Refusal) else 0)
        except FrameError as error:
            print(f"capvet: message {number}: {fault_text(error, stream.received)}", file=sys.stderr)
            return REFUSED
    return status


def names_of(words: argparse.Namespace) -> List[str]:
    """The names of the files to vet, those in folders too."""
    names = list(words.files)
    if words.names is not None:
        with opened(words.names) as file:
            names = [os.fsdecode(name) for name in file.read().split(b"\0") if name]
        # (these are names of files alone)
        names = [os.path.join(".", name) if name == STANDARD_INPUT else name for name in names]
    if STANDARD_INPUT in names:
        standard_input()
    return [file for name in names for file in (files_below(name) if is_folder(name) else [name])]


def is_folder(name: str) -> bool:
    return name != STANDARD_INPUT and os.path.isdir(name)


def files_below(folder: str) -> Iterator[str]:
    """The files of a folder and of those below it, by their names. A folder that can't be read has its own name, and then its row."""
    unread: List[str] = []
    for path, folders, files in os.walk(folder, onerror=lambda error: unread.append(error.filename)):
        folders.sort()
        yield from (os.path.join(path, name) for name in sorted(files))
        yield from unread
        unread.clear()
    yield from unread


def needs(words: argparse.Namespace, names: Sequence[str]) -> Optional[str]:
    """The package that is missing for these options, or None."""
    wanted = {"fsspec": words.compression is not None or any(map(is_elsewhere, names)), "pyarrow": words.parquet is not None}
    return next((name for name, is_wanted in wanted.items() if is_wanted and importlib.util.find_spec(name) is None), None)


def run_vet(words: argparse.Namespace) -> int:
    """Writes a summary over files, or the refused messages with the summary on standard error."""
    names = names_of(words)
    missing = needs(words, names)
    if missing is not None:
        print(f"capvet: this needs the Python package {missing}", file=sys.stderr)
        return WRONG
    form = "json" if words.parquet else words.form
    tally, how = Tally(), How(words.packed, words.limits, form, words.is_all, words.compression)
    written: Union[ParquetRows, TextRows] = ParquetRows(words.parquet) if words.parquet else TextRows(put)
    with written as rows, Files(names, words.jobs, how) as files:
        is_known = words.compression is None and not any(map(is_elsewhere, names))
        bar = Bar(sys.stderr, files.size) if is_known else Bar(sys.stderr, len(names), "files")
        rows.put(header(how))
        try:
            for part in files:
                if part.rows or part.faults:
                    bar.hide()
                rows.put(part.rows)
                sys.stderr.writelines(f"capvet: {fault}\n" for fault in part.faults)
                tally.add(part.tally)
                bar.show(tally.bytes if is_known else tally.files)
        except KeyboardInterrupt:
            bar.hide()
            print(f"capvet: stopped after {tally.files} files, {tally.messages} messages and {tally.bytes} bytes", file=sys.stderr)
            raise
        except OutputError:
            bar.hide()
            raise
        bar.end(tally.bytes if is_known else tally.files)
    put([summary(tally, words.summary)], sys.stderr if words.form else sys.stdout)
    return FAILED if tally.failed else REFUSED if tally.refused or tally.stopped else 0


def run_map(words: argparse.Namespace) -> int:
    """Writes the page about one message of a stream."""
    with opened(words.file) as file:
        stream, number = read_messages(file, packed=words.packed, limits=words.limits), 0
        try:
            for message in stream:
                if message.number == words.message:
                    name = f"{'standard input' if words.file in (None, STANDARD_INPUT) else words.file}, message {message.number}"
                    write_page(message, words.limits, name, words.output)
                    return REFUSED if isinstance(message, Refusal) else 0
                number = message.number + 1
        except FrameError as error:
            print(f"capvet: message {number}: {fault_text(error, stream.received)}", file=sys.stderr)
            return REFUSED
    print(f"capvet: there is no message {words.message}", file=sys.stderr)
    return REFUSED


def parsed(argv: Optional[Sequence[str]]) -> argparse.Namespace:
    parser = argparse.ArgumentParser(prog="python -m capvet", description="Looks at untrusted Cap'n Proto messages.",
                                     allow_abbrev=False)
    parser.add_argument("--version", action="version", version=f"capvet {__version__}")
    commands = parser.add_subparsers(metavar="COMMAND", required=True)
    tree = commands.add_parser("tree", help="print each message's tree, with a guess at texts", allow_abbrev=False,
                               description="Prints the tree of each message as `capvet dump` does. A list of bytes that is valid "
                               "UTF-8 and ends in its one zero byte is also shown as text after the word 'guess': only a schema "
                               "says whether it is one.")
    tree.add_argument("--json", action="store_true", help="one JSON object a message, each on a line")
    common(tree)
    tree.add_argument("file", metavar="FILE", nargs="?", help="default: standard input, as by -")
    tree.set_defaults(run=run_tree, exclusive=False)
    drawn = commands.add_parser("map", help="write a page that shows a message", allow_abbrev=False,
                                description="Writes one HTML page that loads no other file. It shows the verdict, the tree, the bytes "
                                "and a map of the words of a message, and says why a message is refused.")
    drawn.add_argument("-o", "--output", metavar="PAGE", required=True, help="the page to write")
    drawn.add_argument("--message", metavar="N", type=int, default=0, help="the number of the message in the stream, from 0")
    common(drawn)
    drawn.add_argument("file", metavar="FILE", nargs="?", help="default: standard input, as by -")
    drawn.set_defaults(run=run_map, exclusive=False)
    vet = commands.add_parser("vet", help="vet many files, and print a summary", allow_abbrev=False,
                              description="Vets the messages of many files as `capvet vet` does, and prints how many are refused "
                              "for each reason. A file stops at the first place where it is no stream of messages. If a "
                              "file can't be read, the others are vetted. Of a folder all files are vetted, those of folders below "
                              "too. On a terminal a bar shows how much is done.",
                              epilog="Example: python -m capvet vet -j 4 --strict --unamplified --csv archive > refused.csv")
    vet.add_argument("-j", "--jobs", metavar="N", type=int, default=1, help="how many processes vet files side by side")
    vet.add_argument("--exclusive", action="store_true", help="refuse a message that uses a word twice")
    form = vet.add_mutually_exclusive_group()
    form.add_argument("--csv", dest="form", action="store_const", const="csv",
                      help="write each refused message and its place as CSV, and the summary on standard error")
    form.add_argument("--json", dest="form", action="store_const", const="json", help="the same, as JSON lines")
    form.add_argument("--parquet", metavar="F", help="the same, as Parquet to the file F, by pyarrow")
    vet.add_argument("--all", dest="is_all", action="store_true", help="write a row for each accepted message too, with five more columns")
    vet.add_argument("--summary", choices=("text", "json"), default="text", help="the form of the summary (default: text)")
    vet.add_argument("--compression", metavar="NAME", help="how files are compressed: infer, gzip, bz2, xz, or another of fsspec")
    common(vet)
    vet.add_argument("--files0-from", dest="names", metavar="F",
                     help="vet the files whose names are in the file F, each ended by a zero byte; - is standard input")
    vet.add_argument("files", metavar="FILE", nargs="*", help="a file or a folder; - is standard input")
    vet.set_defaults(run=run_vet)
    words = parser.parse_args(argv)
    if words.run is run_vet and words.jobs < 1:
        vet.error("--jobs has to be at least 1")
    if words.run is run_vet and bool(words.files) == (words.names is not None):
        vet.error("give either FILE.. or --files0-from")
    if words.run is run_vet and words.files.count(STANDARD_INPUT) > 1:
        vet.error("- is standard input, which is read once")
    if words.run is run_vet and words.compression is not None and STANDARD_INPUT in words.files:
        vet.error("--compression is about files: unpack standard input first, for example by zcat")
    if words.run is run_vet and words.is_all and not (words.form or words.parquet):
        vet.error("--all needs --csv, --json or --parquet")
    try:
        words.limits = limits_of(words)
    except ValueError as error:
        name, _, text = str(error).partition(" ")
        parser.error(f"{_OPTIONS[name]} {text}")
    return words


def is_flushed() -> bool:
    """Whether both outputs have taken all that was written. One that has not takes nothing any more."""
    return all([_is_flushed(out) for out in (sys.stdout, sys.stderr)])


def _is_flushed(out: TextIO) -> bool:
    try:
        out.flush()
        return True
    except OSError:
        # (or the interpreter would flush again at its end, and have a status of its own)
        with open(os.devnull, "wb") as nothing:
            os.dup2(nothing.fileno(), out.fileno())
        return False


def failed(text: str) -> int:
    """Reports what is not about the input."""
    try:
        print(text if is_flushed() else "capvet: output failed", file=sys.stderr)
    except OSError:
        pass
    return FAILED


def by_bytes(error: UnicodeError) -> Tuple[bytes, int]:
    """What an output gets for a character that its encoding lacks: for one that stands for a byte of a name this byte, and for
    another one its escape."""
    if not isinstance(error, UnicodeEncodeError):
        raise error
    character = error.object[error.start]
    is_byte = "\udc80" <= character <= "\udcff"
    return bytes([ord(character) - 0xDC00]) if is_byte else character.encode("ascii", "backslashreplace"), error.start + 1


codecs.register_error("capvet.by_bytes", by_bytes)


def ran(argv: Optional[Sequence[str]]) -> int:
    for out in (sys.stdout, sys.stderr):
        if hasattr(out, "reconfigure"):
            # (a terminal may lack characters that a message or the name of a file has)
            out.reconfigure(errors="capvet.by_bytes")
    words = parsed(argv)
    status: int = words.run(words)
    return status


class Closed(io.TextIOBase):
    """A standard output that was closed before Python began."""

    def write(self, text: str) -> int:
        raise OSError("output failed")


def main(argv: Optional[Sequence[str]] = None) -> int:
    """Runs the command line, and returns its status: those of the program `capvet`."""
    sys.stdout = sys.stdout or Closed()  # type: ignore[assignment]
    sys.stderr = sys.stderr or Closed()  # type: ignore[assignment]
    try:
        return ran(argv)
    except SystemExit:
        # (of --help, of --version, or of a wrong command line)
        if is_flushed():
            raise
        return failed("capvet: output failed")
    except KeyboardInterrupt:
        return INTERRUPTED if is_flushed() else FAILED
    except MemoryError:
        return failed("capvet: out of memory")
    except OutputError:
        return failed("capvet: output failed")
    except OSError as error:
        return failed(f"capvet: {error}")
    except Exception:
        return failed(traceback.format_exc().rstrip())
