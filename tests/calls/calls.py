#!/usr/bin/env python3
"""Builds the C programs of tests/calls/c over the built archive, and runs them, beside the built program.

    calls.py ARCHIVE PROGRAM [messages | packed | streams | flags | nodes | paths] [--full]

With a word only that part is tested: what is about messages, packed bytes, packed messages (`streams`), flags and
reports, nodes, or the paths of pointers. MANY is 20,000, and with --full 100,000.

The header alone is compiled in each standard of C and C++ that it is promised for. `calls` looks at known
buffers, and `allocations` counts how often memory is taken.

`lines` writes what the program writes for a stream, and both outputs are compared. The streams are the samples, each
prefix of one of them, and MANY messages of a fixed seed, most of which are samples with changed bytes. The canonical
copies of as many messages are compared too, with the line of some that have none. So are the words of packed texts: of
the samples, of each prefix of one, and of some that are made up. `texts` unpacks MANY texts, many with changed bytes.

`flags` makes calls with flags, and each field of their reports is compared with tests/shared/model.py: see tests/calls/flags.py.
`nodes` gets the nodes at MANY paths, and `ranges` those of ranges of paths. Both are compared with tests/calls/nodes.py.
`paths` gets those of pointers, which are compared with tests/calls/paths.py.

`packing` looks at known words, and packs MANY lists of words, as the program does. They are the samples, each prefix
of one, changed ones, runs of about the greatest length of a group, and words of few kinds.

`messages` packs the samples and made messages of 1 to 20 segments, a fifth of MANY. The bytes are those that
writePackedMessage of Cap'n Proto's C++ library gives, where that is installed. `pieces` unpacks packed streams a piece at a time,
and a model here has the messages. The streams are samples and made messages, packed each by itself or as a whole, and cut at
each byte.
`unpacking` makes the calls over packed streams, many with changed bytes, and each is compared with tests/calls/unpacking.py.

All but `allocations` run with the compiler's checks of memory, and all but `allocations`, `lines` and `flags` under valgrind,
where these are installed. The last line is 'N passed, M failed', and the
status is 1 where something failed.
"""
import random
import re
import struct
import sys
import tempfile
from pathlib import Path

sys.path[1:1] = map(str, Path(__file__).resolve().parents[1].iterdir())

import flags
import header
import messages
import nodes
import paths
import strict
import tables
import unpacking
from amount import cases
from harness import (ARCHIVE, PROGRAM, TOP, VALGRIND, compare, ended, expect, framed, outputs, over_file, run, under_valgrind,
                     with_lengths)
from made import changed, made_up, samples
from model import DIFFERENCES, Limits, unframed
from needs import missing
from unpacking import changed_text, made_text, next_word

WARN = ["-Wall", "-Wextra", "-pedantic", "-Werror", f"-I{TOP / 'include'}"]
CHECKS = ["-fsanitize=address,undefined", "-fno-sanitize-recover=all"]
MANY = cases(20_000, full=100_000)  # changed messages, canonical copies, lists of words, packed texts: of each
SEED = 20240229
# Packed texts that the program and the library unpack each by a run of its own.
TEXTS = cases(400, full=1000)  # packed texts, each by a run of its own
# Of this number of lists of words one is also packed under valgrind, and of packed texts one is unpacked.
WATCHED = cases(10, full=1)  # under valgrind: one of as many lists of words and packed texts


def compiled(folder, name, compiler, standard, archive, *options):
    """The program that a compiler makes of a file of tests/calls/c, or nothing where it refuses the file."""
    out = folder / f"{name}-{compiler}-{standard}"
    language = ["-x", "c++"] if standard.startswith("c++") else []
    source = [*language, TOP / f"tests/calls/c/{name}.c", *(["-x", "none"] if language else [])]
    text, status = run([compiler, f"-std={standard}", "-g", *WARN, *options, *source, archive, "-o", out])
    expect(f"{compiler} -std={standard} {' '.join(options)} {name}.c", status == 0, text)
    return out if status == 0 else None


def clean(name, *command):
    """A command that has to end with status 0. What it wrote is shown otherwise."""
    text, status = run(command)
    expect(name, status == 0, text)


def header_alone(folder, compiler, standard):
    source = folder / ("alone.cc" if standard.startswith("c++") else "alone.c")
    source.write_text("#include <capvet.h>\n")
    clean(f"the header in {compiler} -std={standard}", compiler, f"-std={standard}", *WARN, "-fsyntax-only", source)


def expected_symbols(archive):
    """The names that the archive needs from others: those for memory that LLVM takes for granted, and no other. (rustc's has code
    that ends the process after a panic, though nothing panics)"""
    lines = run(["nm", archive])[0].splitlines()
    undefined = {line.split()[-1] for line in lines if " U " in line}
    own = {line.split()[-1] for line in lines if " T " in line}
    granted = {"memcpy", "memmove", "memset"} | ({"abort", "memcmp"} if archive.parent.name == "cargo" else set())
    expect("what the archive needs", undefined - own <= granted, str(undefined - own))
    for name in ("capvet_version", "capvet_frame", "capvet_vet", "capvet_vet_exclusive", "capvet_check_canonical",
                 "capvet_check_canonical_words", "capvet_first_difference", "capvet_reader_words", "capvet_reader_nesting",
                 "capvet_canonical", "capvet_get", "capvet_get_range", "capvet_pointer_path", "capvet_earlier_pointer",
                 "capvet_explain", "capvet_explain_overlap", "capvet_pack_words", "capvet_unpack_words", "capvet_pack_message", "capvet_unpack_message",
                 "capvet_limits_default", "capvet_abi_2", "capvet_segments", "capvet_vet_segments", "capvet_frame_bound",
                 "capvet_marks_bound", "capvet_canonical_bound", "capvet_pack_bound"):
        expect(f"the archive has {name}", name in own)


def linked(folder, compiler, archive):
    """A file that defines CAPVET_LINK_CHECK links with the archive, and not with one of another major version."""
    source, other = folder / "check.c", folder / "other.c"
    source.write_text("#define CAPVET_LINK_CHECK\n#include <capvet.h>\nint main(void) { return capvet_version() == 0; }\n")
    other.write_text("#include <stdint.h>\nuint32_t capvet_version(void);\nuint32_t capvet_version(void) { return 131072; }\n")
    clean(f"the link check, by {compiler}", compiler, *WARN, source, archive, "-o", folder / "check")
    text, status = run([compiler, *WARN, source, other, "-o", folder / "check"])
    expect(f"the link check with another library, by {compiler}",
           status != 0 and "undefined reference" in text and "capvet_abi_2" in text, text)


def standards(compiler):
    """The standards by which a compiler is asked. (of Debian's packages that of gcc compiles no C++, and that of clang does)"""
    is_without = missing(f"the header in C++ by {compiler}", {"gcc": "g++", "cc": "c++"}.get(compiler, compiler))
    return ("c99", "c11") if is_without else ("c99", "c11", "c++98", "c++11", "c++17")


def named(folder, compiler, known, archive, program):
    """The names of the answers are those of the code, in C and C++, and the program's words are among them."""
    for standard in known:
        built = compiled(folder, "names", compiler, standard, archive)
        if built is not None:
            text, status = run([built])
            names, differences = {}, {}
            for what, number, name in (line.split() for line in text.splitlines()):
                {"answer": names, "difference": differences}[what][int(number)] = name
            compare(f"the names of answers, by {compiler} -std={standard}", (header.names(), 0), (names, status))
            compare(f"the names of differences, by {compiler} -std={standard}", dict(enumerate(DIFFERENCES, 1)), differences)
    words, (twice, cycle) = set(), ((TOP / "examples" / name).read_bytes() for name in ("shared.bin", "cycle.bin"))
    stream = b"".join(framed(text) for text, _ in strict.CASES) + strict.many(512) + twice + cycle
    for option in "--strict", "--exclusive":
        words |= set(re.findall(r" refused (\w+)", outputs([program, "vet", option], stream)[0].decode()))
    some = {"NullPad", "EmptySegment", "CapabilityPad", "ManySegments", "Overlap", "DepthLimit"}
    expect("the program's words are names", words == some <= set(header.names().values()), str(words))


def takes_no_memory(folder, compiler, archive):
    """No call takes memory of the C library, over each front of each sample."""
    built = compiled(folder, "allocations", compiler, "c11", archive)
    if built is not None:
        clean(f"allocations, by {compiler}", built, *sorted((TOP / "examples").glob("*.bin")), TOP / "examples/contacts.packed")


def streams(chance):
    """What is compared: the samples, messages that use a word twice or nearly so, those of messages.py, the fronts of one
    sample, lies in tables, and many messages."""
    whole = samples()
    yield b"".join(whole)
    yield b"".join([*(bytes.fromhex(stream) for stream, _ in tables.USED_TWICE), *tables.two_lists()])
    yield b"".join(messages.each())
    small = min(whole, key=len)
    for end in range(len(small) + 1):
        yield whole[0] + small[:end]
    for count, size in ((511, 0), (512, 0), (0xFFFFFFFF, 0), (0, 8388608), (0, 8388609), (1, 0xFFFFFFFF)):
        yield small + struct.pack("<II", count, size) + bytes(chance.randrange(0, 64))
    small = [message for message in whole if len(message) < 1000]
    for _ in range(20):
        yield b"".join(made_up(chance) if chance.randrange(3) == 0 else changed(chance.choice(small), chance)
                       for _ in range(MANY // 20))


def compare_lines(lines, program):
    """Both programs over each stream."""
    count = overlaps = 0
    for stream in streams(random.Random(SEED)):
        for command, words in (("vet", ["vet"]), ("exclusive", ["vet", "--exclusive"]), ("check", ["check"])):
            expected = over_file([program, *words], stream)
            count += expected[0].count(b"\n")
            overlaps += expected[0].count(b"Overlap")
            compare(f"{command} of a stream of {len(stream)} bytes", expected, over_file([lines, command], stream))
    expect("messages with a word that is used twice", 100 * overlaps >= MANY, f"{overlaps}")
    print(f"calls: {count} lines compared with the program's, {overlaps} of a word that is used twice")


def with_copies(program, chance):
    """Streams of messages that have a canonical copy, and such with one after the first message that has none."""
    whole = samples()
    yield b"".join(whole), True
    small = [message for message in whole if len(message) < 1000]
    for _ in range(20):
        messages = [made_up(chance) if chance.randrange(3) == 0 else changed(chance.choice(small), chance)
                    for _ in range(MANY // 20)]
        lines = over_file([program, "vet"], b"".join(messages))[0].splitlines()
        have = [b" accepted " in line and line.endswith(b" caps 0") for line in lines]
        yield b"".join(message for message, has in zip(messages, have) if has), True
        none = [(message, line) for message, line, has in zip(messages, lines, have) if not has]
        caps = [message for message, line in none if b" accepted " in line]
        for message in [message for message, _ in none[:10]] + caps[:10]:
            yield whole[0] + message + whole[1], False


def compare_copies(lines, program):
    """Both programs' canonical copies."""
    copied = without = with_caps = 0
    for stream, whole in with_copies(program, random.Random(SEED)):
        out, err, status = over_file([program, "canon"], stream)
        copied, without, with_caps = copied + len(out), without + (status == 1), with_caps + (b"HasCapability" in err)
        compare(f"canon of a stream of {len(stream)} bytes", (out, err, status, whole),
                (*over_file([lines, "canon"], stream), status == 0))
    expect("copies, and messages without one", copied > 1_000_000 and with_caps >= 50 and without - with_caps >= 50,
           f"{copied} bytes, {without} without, {with_caps} with a capability")
    print(f"calls: {copied} bytes of canonical copies compared with the program's, and {without} messages without one")


def plain_texts(chance):
    """Lists of bytes to be packed, some of which end inside a word."""
    messages = samples()
    small = min(messages, key=len)
    kinds = (bytes(8), b"\x8a" * 8, b"\x8a" * 7 + b"\0", b"\0" + b"\x8a" * 6 + b"\0", b"\0\x8a" * 4, b"\0" * 7 + b"\x8a")
    texts = messages + [small[:end] for end in range(len(small))]
    for first in kinds:
        for second in kinds:
            texts += [first * count + second * 2 for count in (254, 255, 256, 257, 511, 512, 513)]
    few = [message for message in messages if len(message) < 500]
    while len(texts) < MANY:
        if chance.randrange(4) == 0:
            texts.append(changed(chance.choice(few), chance))
        else:
            runs = (chance.choice(kinds) * chance.choice((1, 1, 2, 9)) for _ in range(chance.randrange(6)))
            texts.append(b"".join(runs) + chance.randbytes(chance.choice((0, 0, 8, 8 * chance.randrange(4), 5))))
    return texts


def compare_packed(packing, watched, program):
    """Packed texts, beside the program's. It takes all in one run: after each comes a word that is a group by itself,
    which no run takes in."""
    texts, end, end_text = plain_texts(random.Random(SEED)), b"\1\0\2\0\3\0\4\0", b"\x55\1\2\3\4"
    whole = [text for text in texts if len(text) % 8 == 0]
    cut = [text for text in texts if len(text) % 8 != 0]
    given = outputs([program, "pack"], b"".join(text + end for text in whole))[0]
    got, err, status = over_file([packing], with_lengths(whole + cut))
    compare("packing, with its checks", (b"", 0), (err, status))
    if watched is not None and not missing("lists of words, packed under valgrind", "valgrind"):
        under_valgrind("packing, under valgrind", watched, packing, with_lengths((whole + cut)[::WATCHED]))
    at = place = 0
    for text in whole:
        size = struct.unpack_from("<I", got, at)[0]
        packed = got[at + 4:at + 4 + size]
        expect(lambda: f"pack of {text.hex()}", given[place:place + size + 5] == packed + end_text,
               lambda: f"  {packed.hex()}")
        at, place = at + 4 + size, place + size + 5
    expect("no other text was packed", place == len(given) and got[at:] == b"\xff" * 4 * len(cut))
    for text in cut[:50]:
        compare(f"pack of {text.hex()}", f"capvet: Truncated at byte {len(text)}\n".encode(), outputs([program, "pack"], text)[1])
    expect("texts of both kinds", 100 * len(cut) >= MANY, f"{len(cut)} cut")
    print(f"calls: {len(whole)} lists of words packed as the program does, and {len(cut)} that are cut")


def test_packing(folder, compiler, archive, program):
    watched = compiled(folder, "packing", compiler, "c99", archive)
    packing = compiled(folder, "packing", compiler, "c11", archive, "-O1", *CHECKS)
    if packing is not None:
        clean("packing of known words", packing)
        compare_packed(packing, watched, program)


def made_frame(chance):
    """A message of 1 to 20 segments, whose words are of the kinds that packing knows. Many segments are empty."""
    kinds = (bytes(8), bytes(8), b"\x8a" * 8, b"\x8a" * 7 + b"\0", b"\0\x8a" * 4, b"\1" + bytes(7))
    segments = []
    for _ in range(chance.randrange(1, 21)):
        runs = (chance.choice(kinds) * chance.choice((1, 1, 2, 5, 260)) for _ in range(chance.randrange(3)))
        segments.append(b"".join(runs) + chance.randbytes(8 * chance.choice((0, 0, 0, 1, 3))))
    return framed(*segments)


def packed_by_library(folder, frames):
    """The packed texts that Cap'n Proto's C++ library makes of these messages, or None without the library."""
    if missing("packed messages beside libcapnp", "g++", "pkg-config", "libcapnp"):
        return None
    options, tool = run(["pkg-config", "--cflags", "--libs", "capnp"])[0].split(), folder / "pack-by-library"
    clean("the program that packs by Cap'n Proto's library", "g++", "-std=c++14", "-O1", "-w", TOP / "tests/readers/pack.cpp",
          *options, "-o", tool)
    return over_file([tool], with_lengths(frames))[0] if tool.exists() else b""


def parts_of(output):
    """Texts, each after its length."""
    parts, at = [], 0
    while at < len(output):
        size = struct.unpack_from("<I", output, at)[0]
        parts.append(output[at + 4:at + 4 + size])
        at += 4 + size
    return parts


def test_packed_messages(folder, compiler, archive, program):
    """Messages that are packed, each part by itself, beside those of Cap'n Proto's own library."""
    chance = random.Random(SEED)
    frames = samples() + [made_frame(chance) for _ in range(MANY // 5)]
    packing = compiled(folder, "messages", compiler, "c11", archive, "-O1", *CHECKS)
    watched = compiled(folder, "messages", compiler, "c99", archive)
    if packing is None:
        return
    got, err, status = over_file([packing], with_lengths(frames))
    compare("packing of messages, with its checks", (b"", 0), (err, status))
    texts = parts_of(got)
    expect("each message is packed", len(texts) == len(frames), f"{len(texts)} of {len(frames)}")
    test_pieces(folder, compiler, archive, program, texts, frames)
    test_unpacking(folder, compiler, archive, texts)
    if watched is not None and not missing("messages, packed under valgrind", "valgrind"):
        under_valgrind("packing of messages, under valgrind", watched, packing, with_lengths(frames[:500]))
    output = packed_by_library(folder, frames)
    if output is None:
        return
    for frame, text, expected in zip(frames, texts, parts_of(output)):
        expect(lambda: f"the packed message {frame.hex()}", text == expected, lambda: f"  {text.hex()}\n  {expected.hex()}")
    print(f"calls: {len(texts)} messages packed as Cap'n Proto's C++ library does")


def frames_of_text(text):
    """The whole frames in a packed stream, and what the last call answers."""
    stream, zeros, literal, at = b"", 0, 0, 0
    while (found := next_word(text[at:at + 10], zeros, literal)[0]) is not None:
        word, size, zeros, literal = found
        stream, at = stream + word, at + size
    frames = []
    while stream and (found := unframed(stream, Limits(message_words=1 << 28)))[0] is not None:
        frames.append(stream[:found[1]])
        stream = stream[found[1]:]
    return frames, 4 if stream or at < len(text) or literal else 1


def packed_streams(texts, frames, program, chance):
    """Packed streams, each with the length of its pieces: of packed messages, of messages that are packed together, and
    the fronts of some."""
    small = [text for text in texts if len(text) < 300]
    small_frames = [frame for frame in frames if len(frame) < 300]
    for text in texts[:7]:
        yield 1000, text
    for number in range(cases(100, full=400)):  # packed streams of several messages, unpacked in pieces
        some = [chance.choice(small) for _ in range(chance.randrange(1, 5))]
        joined = b"".join(chance.choice(small_frames) for _ in range(chance.randrange(1, 5)))
        joined += chance.choice((b"", bytes(8), bytes(32)))
        for text in (b"".join(some), outputs([program, "pack"], joined)[0]):
            for piece in (1, 7, 64, 1 << 20):
                yield piece, text
            if number < cases(5, full=20) and len(text) < 600:  # of these, streams that are cut at each byte
                for end in range(len(text)):
                    yield chance.choice((1, 3, 1 << 20)), text[:end]


def test_pieces(folder, compiler, archive, program, texts, frames):
    """Packed streams that are unpacked a piece at a time, beside the model."""
    cases = list(packed_streams(texts, frames, program, random.Random(SEED)))
    pieces = compiled(folder, "pieces", compiler, "c11", archive, "-O1", *CHECKS)
    watched = compiled(folder, "pieces", compiler, "c99", archive)
    if pieces is None:
        return
    asked = [struct.pack("<II", piece, len(text)) + text for piece, text in cases]
    got, err, status = over_file([pieces], b"".join(asked))
    compare("pieces, with its checks", (b"", 0), (err, status))
    if watched is not None and not missing("packed streams, unpacked under valgrind", "valgrind"):
        under_valgrind("pieces, under valgrind", watched, pieces, b"".join(asked[:500]))
    at = count = 0
    for piece, text in cases:
        expected, answer = frames_of_text(text)
        known = with_lengths(expected) + struct.pack("<II", 0xFFFFFFFF, answer)
        found = got[at:at + len(known)]
        expect(lambda: f"pieces of {piece} of {text.hex()}", found == known, found.hex)
        at, count = at + len(known), count + len(expected)
    expect("no more messages", at == len(got))
    print(f"calls: {len(cases)} packed streams unpacked in pieces, {count} messages")


def test_unpacking(folder, compiler, archive, texts):
    """The calls over packed streams, each beside the model."""
    watched = compiled(folder, "unpacking", compiler, "c99", archive)
    asking = compiled(folder, "unpacking", compiler, "c11", archive, "-O1", *CHECKS)
    if asking is not None:
        unpacking.test(asking, watched, texts, random.Random(SEED))


def packed_texts(program, chance):
    """The packed samples, the fronts of one of them, and texts of bytes that are often tags of runs."""
    texts = [outputs([program, "pack"], message)[0] for message in samples()]
    yield from texts
    small = min(texts, key=len)
    for end in range(len(small)):
        yield small[:end]
    for _ in range(TEXTS):
        yield bytes(chance.choice((0, 0xFF, 0x11, 1, 2, chance.randrange(256))) for _ in range(chance.randrange(64)))


def compare_words(lines, program):
    """Both programs over packed texts. Of a text that is cut the program also writes the words before that."""
    whole = cut = 0
    for text in packed_texts(program, random.Random(SEED)):
        out, err, status = over_file([program, "unpack"], text)
        whole, cut = whole + (status == 0), cut + (status != 0)
        compare(f"unpack of {text.hex()}", (b"" if status else out, err, status), over_file([lines, "unpack"], text))
    expect("packed texts of both kinds", 20 * min(whole, cut) >= TEXTS, f"{whole} whole, {cut} cut")
    print(f"calls: the words of {whole} packed texts compared with the program's, and {cut} that are cut")


def many_texts(program, chance):
    """Packed texts: made of groups, the small samples, both of them changed, and bytes as they come."""
    packed = [outputs([program, "pack"], message)[0] for message in samples()]
    small = [text for text in packed if len(text) < 500]
    for _ in range(MANY):
        kind = chance.randrange(20)
        text = chance.choice(small) if kind < 4 else made_text(chance)
        yield chance.randbytes(chance.randrange(64)) if kind == 19 else changed_text(text, chance) if kind % 8 == 0 else text


def words_of(output):
    """What `texts` writes: the words of each text, or nothing of one that is cut."""
    at = 0
    while at < len(output):
        size = struct.unpack_from("<I", output, at)[0]
        at += 4
        yield None if size == 0xFFFFFFFF else output[at:at + size]
        at += 0 if size == 0xFFFFFFFF else size


def compare_texts(texts, watched, program):
    """Both programs over many packed texts. The program takes some whole ones and then a cut one as one text. It has to
    write the words of the whole ones, and to end where the cut one does."""
    many = list(many_texts(program, random.Random(SEED)))
    got, err, status = over_file([texts], with_lengths(many))
    compare("texts, with its checks", (b"", 0), (err, status))
    if watched is not None and not missing("packed texts, unpacked under valgrind", "valgrind"):
        under_valgrind("texts, under valgrind", watched, texts, with_lengths(many[::WATCHED]), "--leak-check=full")
    found = list(words_of(got))
    expect("a result for each text", len(found) == len(many), f"{len(found)}")
    text = words = b""
    for at, (last, its) in enumerate(zip(many, found), 1):
        text, words = text + last, words + (its or b"")
        if its is None or at == len(many):
            out, *end = outputs([program, "unpack"], text)
            fault = f"capvet: Truncated at byte {len(text)}\n".encode() if its is None else b""
            # (of a text that is cut the program also writes the words before that)
            compare(f"unpack of {text.hex()}", (words, fault, int(its is None)), (out[:len(words)] if its is None else out, *end))
            text = words = b""
    cut = found.count(None)
    expect("texts of both kinds", len(many) // 100 <= cut <= len(many) // 2, f"{cut} cut")
    print(f"calls: {len(many) - cut} packed texts unpacked as the program does, and {cut} that are cut")


def test_messages(folder, compilers, archive, program):
    """The header, known buffers, and the lines and copies of many messages."""
    for compiler in compilers:
        known = standards(compiler)
        for standard in known:
            header_alone(folder, compiler, standard)
        built = compiled(folder, "calls", compiler, "c99", archive)
        if built is not None:
            clean(f"calls, by {compiler}", built)
            if not missing("the calls from C under valgrind", "valgrind"):
                clean(f"calls, by {compiler}, under valgrind", *VALGRIND, "--leak-check=full", built)
        takes_no_memory(folder, compiler, archive)
        linked(folder, compiler, archive)
        named(folder, compiler, known, archive, program)
        checked = compiled(folder, "calls", compiler, "c11", archive, *CHECKS)
        if checked is not None:
            clean(f"calls, by {compiler}, with its checks", checked)
    lines = compiled(folder, "lines", compilers[0], "c99", archive, "-O1", *CHECKS)
    if lines is not None:
        compare_lines(lines, program)
        compare_copies(lines, program)


def test_packed(folder, compilers, archive, program):
    """Packing and unpacking words."""
    test_packing(folder, compilers[0], archive, program)
    lines = compiled(folder, "lines", compilers[0], "c99", archive, "-O1", *CHECKS)
    if lines is not None:
        compare_words(lines, program)
    watched = compiled(folder, "texts", compilers[0], "c99", archive)
    texts = compiled(folder, "texts", compilers[0], "c11", archive, "-O1", *CHECKS)
    if texts is not None:
        compare_texts(texts, watched, program)


def test_streams(folder, compilers, archive, program):
    """Packing and unpacking messages."""
    test_packed_messages(folder, compilers[0], archive, program)


def test_flags(folder, compilers, archive, program):
    """Limits, flags and reports, field by field."""
    asking = compiled(folder, "flags", compilers[0], "c11", archive, "-O1", *CHECKS)
    if asking is not None:
        flags.test(asking, samples(), random.Random(SEED))


def test_nodes(folder, compilers, archive, program):
    """The nodes at paths and in ranges, and reports, field by field."""
    watched, several = (compiled(folder, name, compilers[0], "c99", archive) for name in ("nodes", "ranges"))
    asking = compiled(folder, "nodes", compilers[0], "c11", archive, "-O1", *CHECKS)
    if asking is not None:
        nodes.test(asking, watched, program, samples(), random.Random(SEED))
    asking = compiled(folder, "ranges", compilers[0], "c11", archive, "-O1", *CHECKS)
    if asking is not None:
        nodes.test_ranges(asking, several, samples(), random.Random(SEED))


def test_paths(folder, compilers, archive, program):
    """The paths of pointers, field by field."""
    watched = compiled(folder, "paths", compilers[0], "c99", archive)
    asking = compiled(folder, "paths", compilers[0], "c11", archive, "-O1", *CHECKS)
    if asking is not None:
        paths.test(asking, watched, samples(), random.Random(SEED))


PARTS = {"messages": test_messages, "packed": test_packed, "streams": test_streams, "flags": test_flags, "nodes": test_nodes,
         "paths": test_paths}


def main():
    compilers = [name for name in ("gcc", "clang") if not missing(f"the calls from C by {name}", name)]
    if not compilers and not missing("the calls from C", "cc"):
        compilers = ["cc"]
    if not compilers:
        return ended()
    expected_symbols(ARCHIVE)
    for part in sys.argv[3:] or PARTS:
        with tempfile.TemporaryDirectory() as folder:
            PARTS[part](Path(folder), compilers, ARCHIVE, PROGRAM)
    return ended()


if __name__ == "__main__":
    sys.exit(main())
