"""What the package for JavaScript is asked, and what it has to answer: what the program writes over changed messages of a fixed seed.
tests/bindings/js.py runs it. tests/bindings/js/answers.mjs answers."""
import json
import random
import re
import subprocess
from dataclasses import dataclass

from amount import cases
from harness import ARCHIVE, PROGRAM, TOP, compare, run, with_lengths
from made import changed, made_up, samples
from needs import missing
from unpacking import changed_text, made_text

HERE = TOP / "tests/bindings/js"
MANY, PIECE = cases(1_000, full=100_000), 1_000  # changed messages, in Node and in Chromium
SEED = 20261126
# How many requests are answered by one run of Node.
GROUP = 40
# Options of the program, each with the limits that have the same effect.
RUNS = (("--strict --unamplified", {}),
        ("--unamplified", {"allowNonstrict": True}),
        ("--strict", {"allowAmplified": True}),
        ("", {"allowNonstrict": True, "allowAmplified": True}),
        ("--strict --unamplified --size 392 --words 300 --depth 6", {"messageWords": 392, "charge": 300, "depth": 6}))
STRICT, LAX = RUNS[0], RUNS[3]


@dataclass
class Request:
    """What the package is asked, and what it has to answer."""
    name: str
    asked: dict
    stream: bytes
    expected: bytes


def written(words, stream):
    """What the program writes to standard output, and the first line of its standard error."""
    ran = subprocess.run([PROGRAM, *words.split()], input=stream, capture_output=True)
    # (the library explains one message, which is in no input, and only if it refuses it by these limits)
    text = re.sub(rb"^  filter, .*\n(?:  .*\n)*", b"", ran.stdout, flags=re.M)
    return re.sub(rb", byte \d+ of the input", b"", text) + ran.stderr.split(b"\n")[0] + b"\n" * bool(ran.stderr)


def cut(chance, length):
    """A way to read a stream, by small chunks if it is short."""
    return {"by": chance.choice(("iterator", "pipe")), "size": chance.choice((1, 7, 64) if length < 10_000 else (100, 1000, 65536))}


def request(command, run_of, stream, chance, words="", **options):
    """A request over a stream of messages, by one of the RUNS and by other options."""
    given, limits = run_of
    asked = {"command": command, "options": {**limits, **options}, "cut": "buffer" if not options.get("packed") and chance.randrange(2)
             else cut(chance, len(stream))}
    flags = " ".join(f"--{name}" for name in options)
    line = f"{command} {words} {given} {flags}"
    return Request(line, asked, stream, written(line, stream))


def some_path(chance):
    """A path. Most lead to some place in some message."""
    return "".join(f"/{chance.choice('ppi')}{chance.choice((0, 0, 0, 1, 1, 2, 4))}" for _ in range(chance.randrange(1, 5)))


def batch(messages, chance):
    """Requests about some messages."""
    stream = b"".join(messages)
    packed = written("pack", stream)
    for it in RUNS:
        yield request("vet", it, stream, chance)
        yield request("vet", it, packed, chance, packed=True)
    yield request("vet", STRICT, stream, chance, exclusive=True)
    yield request("vet", LAX, packed, chance, packed=True, exclusive=True)
    yield request("segments", ("", {}), stream, chance)
    for it in (STRICT, LAX):
        yield request("dump", it, stream, chance)
        yield request("check", it, stream, chance)
        yield request("explain", it, stream, chance)
    yield request("explain", RUNS[-1], stream, chance)
    for path in (some_path(chance) for _ in range(3)):
        it = request("get", LAX, stream, chance, words=path)
        it.asked["path"] = path
        yield it
    yield from accepted(messages, stream, chance)
    yield Request("pack", {"command": "pack", "options": {}}, stream, packed)
    yield Request("unpack", {"command": "unpack", "options": {}}, packed, stream)


def accepted(messages, stream, chance):
    """Requests that the program answers about accepted messages only."""
    lines = written("vet --strict", stream).decode().splitlines()
    copied = b"".join(message for message, line in zip(messages, lines) if ": accepted" in line and line.endswith(" caps 0"))
    way = cut(chance, len(stream))
    yield Request("canon", {"command": "canon", "options": {"allowAmplified": True}, "cut": way}, stream, written("canon --strict", copied))
    filtered = subprocess.run([PROGRAM, "filter", "--pack"], input=stream, capture_output=True).stdout
    yield Request("filter --pack", {"command": "filter", "options": {}, "cut": way}, stream, filtered)


def faults(chance, messages):
    """Requests about streams that are cut, and about messages with changed tables."""
    stream = b"".join(messages[:4])
    packed = written("pack", stream)
    for _ in range(cases(40, full=400)):  # cut streams and changed tables, each in two ways
        yield request("vet", STRICT, stream[:chance.randrange(len(stream) + 1)], chance)
        yield request("vet", LAX, packed[:chance.randrange(len(packed) + 1)], chance, packed=True)
        message = bytearray(chance.choice(messages))
        message[chance.randrange(min(len(message), 8))] ^= 1 << chance.randrange(8)
        yield request("vet", STRICT, bytes(message) + stream, chance)
        yield request("vet", LAX, b"".join(chance.randbytes(9) for _ in range(3)), chance, packed=True)


def some_messages(chance, small):
    return [made_up(chance) if chance.randrange(3) == 0 else changed(chance.choice(small), chance) for _ in range(min(MANY, PIECE))]


def requests(texts):
    """All requests. `texts` gets packed texts and returns what the library gives."""
    chance, small = random.Random(SEED), [message for message in samples() if len(message) < 5000]
    verdicts = [0, 0]
    for _ in range(0, MANY, PIECE):
        messages = some_messages(chance, small)
        for it in batch(messages, chance):
            if it.name.split() == ["vet", "--strict", "--unamplified"]:
                for which, word in enumerate((b": accepted", b": refused")):
                    verdicts[which] += it.expected.count(word)
            yield it
        if texts:
            made = [changed_text(text, chance) if chance.randrange(4) == 0 else text
                    for text in (made_text(chance) for _ in range(len(messages)))]
            listed = with_lengths(made)
            yield Request("texts", {"command": "texts", "options": {}}, listed, texts(listed))
    yield from faults(chance, messages)
    compare("a good part is accepted, and another refused", True, min(verdicts) > MANY // 10)
    print(f"js: {MANY} changed messages, of which {verdicts[0]} are accepted and {verdicts[1]} refused")


def unpacker(folder):
    """Unpacks texts by the library for C, or nothing where there is no compiler."""
    if missing("packed texts beside the library for C", "cc"):
        return None
    built = folder / "texts"
    compare("texts.c", ("", 0), run(["cc", "-O1", f"-I{TOP / 'include'}", TOP / "tests/calls/c/texts.c", ARCHIVE, "-o", built]))

    def unpacked(listed):
        (folder / "listed").write_bytes(listed)
        return subprocess.run([built, folder / "listed"], capture_output=True).stdout
    return unpacked


def same(where, it, got):
    """The answer is what was expected."""
    compare(f"{where}: {it.name} {it.asked}", it.expected, got)


def in_node(folder, where, texts):
    """Each request, answered in Node, some of them at a time."""
    waiting, asked = [], folder / "asked"
    asked.mkdir()

    def answer():
        for number, it in enumerate(waiting):
            (asked / f"{number}.json").write_text(json.dumps(it.asked))
            (asked / f"{number}.bin").write_bytes(it.stream)
        (asked / f"{len(waiting)}.json").unlink(missing_ok=True)
        compare("node.mjs", (f"{len(waiting)}\n", 0), run(["node", HERE / "node.mjs", where / "capvet.js", asked], timeout=3600))
        for number, it in enumerate(waiting):
            same("in Node", it, (asked / f"{number}.node").read_bytes() if (asked / f"{number}.node").exists() else b"")
            (asked / f"{number}.node").unlink(missing_ok=True)
        waiting.clear()
    for it in requests(texts):
        waiting.append(it)
        if len(waiting) == GROUP:
            answer()
    answer()
