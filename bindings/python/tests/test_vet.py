"""`python -m capvet vet`, beside `capvet vet`."""
import array
import csv
import gzip
import importlib.util
import io
import json
import os
import pty
import re
import shutil
import signal
import subprocess
import sys
import time
import zlib
from collections import Counter

import capvet as package
import pytest

from support import CASES, FILES, SECONDS, TOP, framed, many, program
from test_tree import capvet


@pytest.fixture
def files(tmp_path):
    """Files with refused messages, one that is cut, one without messages, and the samples."""
    made = [tmp_path / name for name in ("many, and more.bin", "cut.bin", "empty.bin")]
    made[0].write_bytes(b"".join(many(500)))
    made[1].write_bytes(FILES[0].read_bytes()[:-8])
    made[2].write_bytes(b"")
    return [*FILES, *made]


def expected_rows(files, options):
    """The rows, by what the program prints."""
    rows, messages, accepted = [], 0, 0
    for file in files:
        text, error, status = program("vet", *options, file)
        messages, accepted = messages + text.count(b"\n"), accepted + text.count(b" accepted ")
        for number, reason, segment, word, pointers in re.findall(
                r"message (\d+): refused (\w+) at (\d+):(\d+) pointers (\d+)", text.decode()):
            rows.append((str(file), int(number), reason, int(segment), int(word), int(pointers)))
        for number, reason in re.findall(r"message (\d+): (\w+)", error):
            rows.append((str(file), int(number), reason, None, None, None))
    return rows, messages, accepted


@pytest.mark.parametrize("options", [[], ["--strict", "--unamplified", "--exclusive", "--depth", 5]])
@pytest.mark.parametrize("jobs", [1, 3])
def test_rows(files, options, jobs):
    rows, messages, accepted = expected_rows(files, options)
    counts = Counter((row[3] is None, row[2]) for row in rows)
    refused = sum(count for (is_stop, _), count in counts.items() if not is_stop)
    first = (f"files {len(files)} bytes {sum(file.stat().st_size for file in files)} messages {messages} accepted {accepted} "
             f"refused {refused}")
    lines = {f"{'stopped' if is_stop else 'refused'} {reason} {count}" for (is_stop, reason), count in counts.items()}
    assert refused > 100 and "stopped Truncated 1" in lines
    for form, read in ((["--json"], lambda text: [json.loads(line) for line in text.splitlines()]),
                       (["--csv"], lambda text: list(csv.DictReader(io.StringIO(text)))), ([], None)):
        text, error, status = capvet("vet", "-j", jobs, *form, *options, *files)
        summary = (error if form else text.decode()).splitlines()
        assert (summary[0], set(summary[1:]), status) == (first, lines, 1)
        if form:
            got = [tuple(row[name] for name in ("file", "message", "reason", "segment", "word", "pointer"))
                   for row in read(text.decode())]
            expected = [tuple("" if it is None and form == ["--csv"] else str(it) for it in row) for row in rows]
            order = sorted if jobs > 1 else list
            assert order(tuple(map(str, row)) for row in got) == order(expected)


def test_offsets(files):
    data = files[-3].read_bytes()
    for line in capvet("vet", "--json", files[-3])[0].splitlines():
        row = json.loads(line)
        text = program("vet", data=data[row["offset"]:])[0].decode()
        assert text.startswith(f"message 0: refused {row['reason']} at {row['segment']}:{row['word']} pointers {row['pointer']}\n")
        if row["message"] > 20:
            break


def test_status(files, tmp_path):
    assert capvet("vet", FILES[0])[2] == 0
    assert capvet("vet")[2] == capvet("vet", "-j", 0, FILES[0])[2] == capvet("vet", "--csv", "--json", FILES[0])[2] == 2
    for option, name in (("--depth", 257), ("--words", 1 << 29), ("--size", -1)):
        text, error, status = capvet("vet", f"{option}={name}", FILES[0])
        assert status == 2 and f"error: {option} has to be from 0 to " in error
    assert capvet("--version")[::2] == (f"capvet {package.__version__}\n".encode(), 0)
    assert "--version" in capvet("--help")[0].decode()


@pytest.mark.parametrize("jobs", [1, 2])
def test_a_file_that_cannot_be_read_costs_its_own_row(tmp_path, jobs):
    names = [FILES[0], tmp_path / "no", tmp_path / ("x" * 300), FILES[1]]
    text, error, status = capvet("vet", "-j", jobs, *names)
    assert status == 3 and error.count("\n") == 2 and "No such file" in error and "name too long" in error
    assert text.startswith(b"files 4 ") and text.endswith(b"failed FileNotFoundError 1\nfailed OSError 1\n")
    rows = list(csv.DictReader(io.StringIO(capvet("vet", "--csv", *names)[0].decode())))
    assert [(row["file"], row["reason"], row["segment"]) for row in rows] == [
        (str(tmp_path / "no"), "FileNotFoundError", ""), (str(names[2]), "OSError", "")]


def test_folders(tmp_path):
    """The files of a folder are vetted, and those below it, in the order of their names."""
    for name in ("b/2.bin", "b/1.bin", "a/c/3.bin", "4.bin"):
        (tmp_path / name).parent.mkdir(parents=True, exist_ok=True)
        (tmp_path / name).write_bytes((TOP / "examples/cycle.bin").read_bytes())
    (tmp_path / "empty").mkdir()
    text, error, status = capvet("vet", "--csv", tmp_path, FILES[0])
    names = [line.split(",")[0] for line in text.decode().splitlines()[1:]]
    assert names == [str(tmp_path / name) for name in ("4.bin", "a/c/3.bin", "b/1.bin", "b/2.bin")]
    assert status == 1 and error.startswith("files 5 ")
    assert capvet("vet", tmp_path / "empty") == (b"files 0 bytes 0 messages 0 accepted 0 refused 0\n", "", 0)


def test_accepted_messages_have_rows_on_demand(files):
    """A row for each message, with the numbers that the program prints."""
    for jobs in (1, 2):
        text, error, status = capvet("vet", "--all", "--csv", "-j", jobs, *files)
        rows = list(csv.DictReader(io.StringIO(text.decode())))
        for file in files:
            expected = program("vet", file)[0].decode().splitlines()
            of_file = (row for row in rows if row["file"] == str(file) and (row["pointer"] or row["pointers"]))
            got = sorted(of_file, key=lambda row: int(row["message"]))
            for line, row in zip(expected, got):
                accepted = "message {message}: accepted charge {charge} depth {depth} pointers {pointers} caps {capabilities}"
                refused = "message {message}: refused {reason} at {segment}:{word} pointers {pointer}"
                assert line == (accepted if row["reason"] == "accepted" else refused).format(**row)
            assert len(expected) == len(got)
            ends = [int(row["offset"]) + int(row["length"]) for row in got]
            assert ends[:-1] == [int(row["offset"]) for row in got[1:]]
    row = json.loads(capvet("vet", "--all", "--json", FILES[0])[0].splitlines()[0])
    assert (row["reason"], row["segment"], list(row)[7:]) == ("accepted", None, ["length", "charge", "depth", "pointers", "capabilities"])
    assert row["pointer"] is None
    assert json.loads(capvet("vet", "--all", "--json", TOP / "examples/cycle.bin")[0]) | {"file": ""} == {
        "file": "", "message": 0, "offset": 0, "reason": "DepthLimit", "segment": 0, "word": 0, "pointer": 65, "length": 16,
        "charge": None, "depth": None, "pointers": None, "capabilities": None}
    assert capvet("vet", "--all", FILES[0])[2] == 2


def test_summary_as_json(files, tmp_path):
    for form in ([], ["--csv"]):
        out, error, _ = capvet("vet", "--summary", "json", *form, *files, tmp_path / "no")
        found = json.loads(error.splitlines()[-1] if form else out)
        line, *more = capvet("vet", *files, tmp_path / "no")[0].decode().splitlines()
        assert line == (f"files {found['files']} bytes {found['bytes']} messages {found['messages']} accepted {found['accepted']} "
                        f"refused {sum(found['refused'].values())}")
        kinds = [f"{kind} {name} {count}" for kind in ("refused", "stopped", "failed") for name, count in found[kind].items()]
        assert sorted(kinds) == sorted(more)


def test_compressed_files(tmp_path):
    pytest.importorskip("fsspec")
    stream, zipped = TOP / "examples/stream-of-four.bin", tmp_path / "four.bin.gz"
    zipped.write_bytes(gzip.compress(stream.read_bytes()))
    (tmp_path / "cut.gz").write_bytes(zipped.read_bytes()[:-20])
    (tmp_path / "plain.gz").write_bytes(stream.read_bytes())
    expected = capvet("vet", stream)
    assert capvet("vet", "--compression", "infer", zipped) == capvet("vet", "--compression", "gzip", f"file://{zipped}") == expected
    assert capvet("vet", f"file://{stream}") == expected
    text, error, status = capvet("vet", "--compression", "infer", "-j", 2, stream, tmp_path)
    assert status == 3 and text.startswith(b"files 4 ") and b"failed BadGzipFile 1\n" in text and b"failed EOFError 1\n" in text
    assert b" accepted 8 " in text or b" accepted 1" in text
    text, error, status = capvet("vet", "nothing://x", stream)
    assert status == 3 and b"failed ValueError 1\n" in text and "nothing" in error


def test_a_compressed_file_that_breaks_off(tmp_path):
    """What was unpacked before the fault is vetted, however much it is. The row is of the message after it."""
    pytest.importorskip("fsspec")
    broken, plain = tmp_path / "broken.gz", tmp_path / "plain.bin"
    broken.write_bytes(gzip.compress((TOP / "examples/stream-of-four.bin").read_bytes() * 40)[:-9])
    plain.write_bytes(zlib.decompressobj(31).decompress(broken.read_bytes()))
    expected = capvet("vet", "--csv", "--all", plain)[0].splitlines()
    text, _, status = capvet("vet", "--csv", "--all", "--compression", "infer", broken)
    found = text.replace(bytes(broken), bytes(plain)).splitlines()
    assert status == 3 and len(found) > 100 and found[:-1] == expected[:len(found) - 1]
    last = found[-2].split(b",")
    assert found[-1].split(b",")[1:4] == [b"%d" % (int(last[1]) + 1), b"%d" % (int(last[2]) + int(last[7])), b"EOFError"]


STUB = """import json
int64, string = (lambda: "int64"), (lambda: "string")
def schema(fields):
    return fields
class Table:
    @staticmethod
    def from_pylist(rows, schema):
        "".join(row["file"] for row in rows).encode()
        return rows, schema
"""
STUB_PARQUET = """import json
class ParquetWriter:
    def __init__(self, name, schema):
        self.file = open(name, "w")
        json.dump(schema, self.file)
    def write_table(self, table):
        self.file.write("\\n" + json.dumps(table[0]))
    def close(self):
        self.file.close()
"""


def test_parquet_by_a_stand_in(tmp_path):
    """The calls of pyarrow are those of a stand-in, which writes JSON. Debian has no pyarrow, so Parquet itself is not tested."""
    (tmp_path / "pyarrow").mkdir()
    (tmp_path / "pyarrow/__init__.py").write_text(STUB)
    (tmp_path / "pyarrow/parquet.py").write_text(STUB_PARQUET)
    out, cycle = tmp_path / "rows.parquet", TOP / "examples/cycle.bin"
    words = ["-m", "capvet", "vet", "--all", "--parquet", out, FILES[0], cycle]
    path = os.pathsep.join(filter(None, (str(tmp_path), os.environ.get("PYTHONPATH"))))
    ran = subprocess.run([sys.executable, *map(str, words)], capture_output=True, env={**os.environ, "PYTHONPATH": path})
    assert (ran.returncode, ran.stdout) == (1, capvet("vet", FILES[0], cycle)[0]), ran.stderr
    schema, *tables = map(json.loads, out.read_text().splitlines())
    rows = [row for table in tables for row in table]
    expected = list(map(json.loads, capvet("vet", "--all", "--json", FILES[0], cycle)[0].splitlines()))
    assert rows == expected and [name for name, _ in schema] == list(expected[0])
    shutil.copy(cycle, os.fsencode(tmp_path) + b"/\xff")
    ran = subprocess.run([sys.executable, *map(str, words[:-2]), os.fsencode(tmp_path) + b"/\xff"], capture_output=True, env={**os.environ, "PYTHONPATH": path})
    assert (ran.returncode, "/\\\\udcff\"" in out.read_text()) == (1, True), ran.stderr
    assert {kind for name, kind in schema if name not in ("file", "reason")} == {"int64"}


def test_packages_that_are_missing():
    if importlib.util.find_spec("pyarrow") is None:
        assert capvet("vet", "--parquet", "x", FILES[0]) == (b"", "capvet: this needs the Python package pyarrow\n", 2)


def test_many_small_files(tmp_path):
    cycle, sample = (TOP / "examples/cycle.bin").read_bytes(), (TOP / "examples/shared.bin").read_bytes()
    names = []
    for number in range(1000):
        names.append(tmp_path / f"{number}.bin")
        names[-1].write_bytes(cycle if number % 10 == 0 else sample)
    for jobs in (1, 3):
        text, error, status = capvet("vet", "-j", jobs, *names)
        assert text == f"files 1000 bytes {sum(it.stat().st_size for it in names)} messages 1000 accepted 900 refused 100\n".encode() + (
            b"refused DepthLimit 100\n")
    listed = tmp_path / "names"
    listed.write_bytes(b"".join(bytes(it) + b"\0" for it in names))
    assert capvet("vet", "--files0-from", listed) == capvet("vet", "--files0-from", "-", data=listed.read_bytes()) == (text, error, status)
    assert capvet("vet", "--files0-from", listed, FILES[0])[2] == 2


def test_standard_input(tmp_path):
    """`-` is standard input, beside files, with the same rows. It may be a pipe, or a file that was read up to a message."""
    stream, cycle = TOP / "examples/stream-of-four.bin", TOP / "examples/cycle.bin"
    data = cycle.read_bytes() + stream.read_bytes()
    (tmp_path / "file").write_bytes(data)
    for jobs in (1, 3):
        text, *others = capvet("vet", "--all", "--json", "-j", jobs, cycle, "-", stream, data=data)
        expected, *more = capvet("vet", "--all", "--json", "-j", jobs, cycle, tmp_path / "file", stream)
        expected = expected.replace(json.dumps(str(tmp_path / "file")).encode(), b'"-"')
        assert (sorted(text.splitlines()), others) == (sorted(expected.splitlines()), more)
        assert text.count(b'"file": "-"') == 5 and text.count(b"\n") == 10 and others[1] == 1
    with open(tmp_path / "file", "rb") as file:
        file.seek(cycle.stat().st_size)
        ran = subprocess.run([sys.executable, "-m", "capvet", "vet", "-"], stdin=file, capture_output=True, text=True)
    assert (ran.stdout, ran.stderr, ran.returncode) == (f"files 1 bytes {stream.stat().st_size} messages 4 accepted 4 refused 0\n", "", 0)
    assert capvet("vet", "-", data=data[:-8])[0].endswith(b"stopped Truncated 1\n")
    for words in (("vet", "-", "-"), ("vet", "--compression", "gzip", "-")):
        assert capvet(*words, data=data)[2] == 2
    # (in a list it is the name of a file)
    assert "No such file" in capvet("vet", "--files0-from", "-", data=b"-\0")[1]
    for command in (["tree"], ["tree", "--json"]):
        assert capvet(*command, "-", data=data) == capvet(*command, data=data)


def test_standard_input_that_gives_nothing():
    """What is closed, or has nothing yet and doesn't wait, is no input without messages."""
    ran = subprocess.run(["sh", "-c", f"{sys.executable} -m capvet vet - <&-"], capture_output=True, text=True)
    assert (ran.stdout, ran.stderr, ran.returncode) == ("", "capvet: standard input is closed\n", 3)
    reads, writes = os.pipe()
    os.set_blocking(reads, False)
    os.write(writes, FILES[0].read_bytes())
    ran = subprocess.run([sys.executable, "-m", "capvet", "vet", "-"], stdin=reads, capture_output=True, text=True)
    os.close(reads)
    os.close(writes)
    assert ran.returncode == 3 and "capvet: -: nothing has come yet" in ran.stderr and "failed BlockingIOError 1\n" in ran.stdout


def test_standard_input_of_which_rows_come_early():
    """The row of a message comes while the pipe stays open. An interrupt ends the run then."""
    ran = begun("vet", "--csv", "-", stdin=subprocess.PIPE, stdout=subprocess.PIPE, stderr=subprocess.PIPE)
    ran.stdout.readline()
    ran.stdin.write((TOP / "examples/cycle.bin").read_bytes())
    ran.stdin.flush()
    assert ran.stdout.readline() == b"-,0,0,DepthLimit,0,0,65\n"
    os.killpg(ran.pid, signal.SIGINT)
    text, error = ran.communicate(timeout=SECONDS)
    assert (text, ran.returncode) == (b"", 130) and re.fullmatch(rb"capvet: stopped after 0 files, \d messages and \d+ bytes\n", error)


def test_names_of_other_bytes(tmp_path):
    name = os.fsencode(tmp_path) + b"/\xff.bin"
    with open(name, "wb") as file:
        file.write((TOP / "examples/cycle.bin").read_bytes())
    for form, shown in (("--csv", b"/\xff.bin,0,0,DepthLimit"), ("--json", b'/\\udcff.bin", "message": 0')):
        ran = subprocess.run([sys.executable, "-m", "capvet", "vet", form, name], capture_output=True)
        assert (ran.returncode, shown in ran.stdout) == (1, True)


def begun(*words, **how):
    """`python -m capvet` in a process group of its own. It can be interrupted, also where a shell has begun the tests in the
    background, which ignore that then."""
    return subprocess.Popen([sys.executable, "-m", "capvet", *map(str, words)], start_new_session=True,
                            preexec_fn=lambda: signal.signal(signal.SIGINT, signal.SIG_DFL), **how)


def children(process):
    """The processes below a process. (Python 3.14 begins workers by a server of forks, which is between)"""
    try:
        with open(f"/proc/{process}/task/{process}/children") as file:
            found = list(map(int, file.read().split()))
    except OSError:
        return []
    return found + [it for child in found for it in children(child)]


def is_there(process):
    try:
        with open(f"/proc/{process}/stat") as file:
            return file.read().split()[2] != "Z"
    except OSError:
        return False


def are_gone(processes):
    """Whether none of these processes is there, once that is so."""
    until = time.monotonic() + SECONDS
    while any(map(is_there, processes)) and time.monotonic() < until:
        time.sleep(0.02)
    return not any(map(is_there, processes))


def reader_of(process, name):
    """The process below another one that has opened this file, once it has."""
    until = time.monotonic() + SECONDS
    while time.monotonic() < until:
        for child in children(process):
            try:
                for number in os.listdir(f"/proc/{child}/fd"):
                    if os.readlink(f"/proc/{child}/fd/{number}") == str(name):
                        return child
            except OSError:
                pass
        time.sleep(0.02)
    raise TimeoutError(f"no process has opened {name}")


@pytest.fixture
def pipe(tmp_path):
    """A pipe that is opened as a file, which holds up a process that reads it."""
    name = tmp_path / "pipe"
    os.mkfifo(name)
    end = os.open(name, os.O_RDWR)
    yield name
    os.close(end)


@pytest.mark.parametrize("jobs", [1, 3])
def test_an_interrupt_ends_it_at_once(tmp_path, pipe, jobs):
    ran = begun("vet", "--csv", "-j", jobs, TOP / "examples/cycle.bin", pipe, FILES[0], stdout=subprocess.PIPE, stderr=subprocess.PIPE)
    # (the row of the first file comes while the second one is open)
    assert ran.stdout.readline() == b"file,message,offset,reason,segment,word,pointer\n"
    assert b",DepthLimit," in ran.stdout.readline()
    reader_of(ran.pid, pipe)
    begin, workers = time.monotonic(), children(ran.pid)
    # (as a terminal does, to all processes)
    os.killpg(ran.pid, signal.SIGINT)
    text, error = ran.communicate(timeout=SECONDS)
    # (on a busy machine the processes may have to wait. The pipe holds them up for ever)
    assert time.monotonic() - begin < (1 if "CAPVET_IDLE" in os.environ else SECONDS) and (text, ran.returncode) == (b"", 130)
    assert re.fullmatch(rb"capvet: stopped after \d files, \d messages and \d+ bytes\n", error) and workers and are_gone(workers)


@pytest.mark.parametrize("jobs", [1, 2])
def test_a_process_that_is_killed_costs_its_file(pipe, jobs):
    names = [TOP / "examples/cycle.bin", pipe, FILES[0]]
    ran = begun("vet", "--json", "-j", jobs, *names, stdout=subprocess.PIPE, stderr=subprocess.PIPE)
    first = json.loads(ran.stdout.readline())
    assert (first["file"], first["reason"]) == (str(names[0]), "DepthLimit")
    os.kill(reader_of(ran.pid, pipe), signal.SIGKILL)
    text, error = ran.communicate(timeout=SECONDS)
    row, = map(json.loads, text.splitlines())
    assert (row["file"], row["reason"], row["segment"]) == (str(pipe), "KilledWorker", None)
    assert ran.returncode == 3 and b"failed KilledWorker 1\n" in error and b"files 3 bytes" in error and b"-9" in error


def test_it_ends_if_nobody_waits(pipe):
    ran = begun("vet", "--csv", pipe, stdout=subprocess.PIPE)
    ran.stdout.readline()
    reader_of(ran.pid, pipe)
    workers = children(ran.pid)
    ran.kill()
    ran.wait()
    ran.stdout.close()
    # (it sees that when it has something to send)
    end = os.open(pipe, os.O_RDWR)
    os.write(end, (TOP / "examples/cycle.bin").read_bytes())
    have_ended = are_gone(workers)
    os.close(end)
    assert workers and have_ended


def shell(command, **how):
    """The status of a shell command with `capvet`, and what it wrote on both outputs."""
    text = command.replace("capvet", f"{sys.executable} -m capvet")
    ran = subprocess.run(["bash", "-c", text], capture_output=True, cwd=TOP / "examples", **how)
    return ran.returncode, ran.stdout.decode(), ran.stderr.decode()


def test_what_is_not_about_the_input_has_status_3():
    failed = (3, "", "capvet: output failed\n")
    for command in ("tree contacts.bin", "vet contacts.bin", "vet --csv cycle.bin", "tree --json contacts.bin", "tree cycle.bin"):
        assert shell(f"capvet {command} >&-") == failed
        assert shell(f"capvet {command} > /dev/full") == failed
    assert shell("capvet vet --csv cycle.bin 2>&-")[::2] == (3, "")
    assert shell("capvet tree nothing 2>&-") == (3, "", "")
    assert shell("capvet tree <&-") == (3, "", "capvet: standard input is closed\n")
    assert shell("capvet tree contacts.bin 2>&-")[0] == 0
    assert shell("(capvet tree contacts.bin; echo $? >&2) | true")[2] in ("capvet: output failed\n3\n", "0\n")
    for variable in ("", "1"):
        environment = {**os.environ, "PYTHONUNBUFFERED": variable}
        for command in ("vet --csv -j 2 cycle.bin contacts.bin", "tree contacts.bin", *["--help", "vet --help", "--version"] * (not variable)):
            assert shell(f"capvet {command} > /dev/full", env=environment) == failed, command
        assert shell("capvet vet nothing 2> /dev/full", env=environment)[0] == 3
    status, text, error = shell("capvet tree contacts.bin", env={**os.environ, "PYTHONIOENCODING": "ascii"})
    assert (status, error) == (0, "") and "Gr\\xfc\\xdfe" in text
    # (no bar where nobody looks at it)
    assert shell("capvet vet contacts.bin") == (0, "files 1 bytes 3144 messages 1 accepted 1 refused 0\n", "")


def memory_of(command, data):
    """The most memory that a command has had resident, and its processes, in bytes."""
    script = ("import resource, subprocess, sys\n"
              "subprocess.run(sys.argv[1:], stdin=sys.stdin, stdout=subprocess.DEVNULL, stderr=subprocess.DEVNULL)\n"
              "print(resource.getrusage(resource.RUSAGE_CHILDREN).ru_maxrss)")
    ran = subprocess.run([sys.executable, "-c", script, sys.executable, "-m", "capvet", *map(str, command)], stdin=data,
                         capture_output=True)
    return int(ran.stdout) * 1024


def test_rows_and_trees_take_no_memory(tmp_path):
    count = 100 * min(CASES, 4000)
    cycles, blob, text = tmp_path / "cycles", tmp_path / "blob", tmp_path / "text"
    cycles.write_bytes((TOP / "examples/cycle.bin").read_bytes() * count)
    for name, letter in ((blob, b"\xff"), (text, b"a")):
        words = array.array("Q", letter * (count * 8 - 8) + letter * 7 + b"\0")
        name.write_bytes(framed(1 | 2 << 32 | (count * 8) << 35, *words))
    base = memory_of(["vet", FILES[0]], None)
    for form in ("--csv", "--json"):
        assert memory_of(["vet", form, cycles], None) < base + (16 << 20)
    for name in (blob, text):
        for form in ([], ["--json"]):
            # (the message itself)
            assert memory_of(["tree", *form, name], None) < base + (8 << 20) + 1.3 * name.stat().st_size
    expected = program("dump", text)[0]
    got = capvet("tree", text)[0]
    assert got.replace(b' guess "' + b"a" * (count * 8 - 1) + b'"', b"", 1) == expected
    node = json.loads(capvet("tree", "--json", text)[0])["root"]
    assert len(node["words"]) == count and node["text_guess"] == "a" * (count * 8 - 1)


@pytest.mark.parametrize("jobs", [1, 2])
def test_bar(files, jobs):
    here, there = pty.openpty()
    ran = subprocess.run([sys.executable, "-m", "capvet", "vet", "-j", str(jobs), *map(str, files)], stdout=subprocess.PIPE, stderr=there)
    os.close(there)
    shown = os.read(here, 1 << 16).decode()
    os.close(here)
    assert "[" + "#" * 30 + "] 100%" in shown and ran.stdout.startswith(b"files ")


def test_bar_of_small_files(tmp_path):
    names = [tmp_path / f"{number}.bin" for number in range(200)]
    for name in names[:-1]:
        name.write_bytes(FILES[0].read_bytes())
    os.mkfifo(names[-1])
    end = os.open(names[-1], os.O_RDWR)
    here, there = pty.openpty()
    ran = begun("vet", *names, stdout=subprocess.PIPE, stderr=there)
    shown = ""
    # (all but the last one, which waits for its bytes)
    while "100%" not in shown:
        shown = (shown + os.read(here, 1 << 16).decode())[-100:]
    os.write(end, FILES[0].read_bytes()[:9])
    assert ran.poll() is None
    os.killpg(ran.pid, signal.SIGINT)
    assert ran.wait(timeout=SECONDS) == 130
    for it in (end, here, there):
        os.close(it)
    ran.stdout.close()


def test_rows_for_spark(files, monkeypatch):
    """The function of examples/python/vet_spark.py that mapInPandas calls, without Spark: its rows are those of the command."""
    pandas = pytest.importorskip("pandas")
    if not (TOP / "examples/python/vet_spark.py").exists():
        pytest.skip("a source distribution has no examples: Spark")
    monkeypatch.syspath_prepend(str(TOP / "examples/python"))
    import vet_spark
    frames = [pandas.DataFrame({"path": list(map(str, some)), "content": [file.read_bytes() for file in some]}) for some in (files[:2], files[2:])]
    got = pandas.concat(vet_spark.vet(frames), ignore_index=True)
    expected = map(json.loads, capvet("vet", "--all", "--json", "--strict", "--unamplified", *files)[0].splitlines())
    assert list(got.columns) == [it.split()[0] for it in vet_spark.SCHEMA.split(", ")]
    rows = [tuple(None if pandas.isna(it) else it for it in row) for row in got.itertuples(index=False)]
    assert rows == [tuple(row[name] for name in got.columns) for row in expected]
