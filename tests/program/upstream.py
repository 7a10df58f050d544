#!/usr/bin/env python3
"""The messages of Cap'n Proto's own tests, and what these assert of them.

    upstream.py PROGRAM

The messages are those of the tests of libcapnp 1.1.0 and of the Rust crate `capnp` 0.27.2, to the byte, each by the name that it has
there. Where their test reads a message, `vet` has to accept it. Where it has to fail, `vet` has to refuse it, or the stream breaks off.
Where it asserts that a message is canonical or isn't, `check` has to say so, and the canonical copy has to be theirs. Packed words have
to unpack to theirs, and pack to the same bytes.

The files in tests/program/upstream are the test data of libcapnp 1.1.0. Both projects have the MIT License: tests/program/upstream/LICENSE.

The last line is 'N passed, M failed', and the status is 1 if a case failed.
"""
import subprocess
import sys
from pathlib import Path

sys.path[1:1] = map(str, Path(__file__).resolve().parents[1].iterdir())

from harness import PROGRAM, TOP, compare, ended, framed

DATA = TOP / "tests/program/upstream"
ACCEPTED, REFUSED, CANONICAL, NOT_CANONICAL = "accepted", "refused", "canonical", "not canonical"
# (the canonical copy is the message itself)
SAME = None
# For each test the words of its segments, what it asserts of them, and the words of the canonical copy if it compares that.
CASES = {
    "libcapnp 1.1.0, canonicalize-test.c++": (
        ("data word with only its most significant bit set does not get truncated",
         "0000000002000000 1111111111111111 0000000000000080",
         CANONICAL, SAME),
        ("INLINE_COMPOSITE data word with only its most significant bit set does not get truncated",
         "0000000000000100 0100000017000000 0400000002000000 2222222222222222 0000000000000080",
         CANONICAL, SAME),
        ("canonical non-null empty struct field", "0000000000000200 0400000001000000 fcffffff00000000 eeeeeeeeeeeeeeee", CANONICAL),
        ("for pointers to empty structs, preorder is not canonical",
         "0000000000000200 0400000001000000 0400000000000000 eeeeeeeeeeeeeeee",
         NOT_CANONICAL),
        ("isCanonical requires pointer preorder",
         "0000000000000200 0800000001000000 0000000001000000 0001020304050607 0706050403020100",
         NOT_CANONICAL),
        ("isCanonical requires dense packing", "0300000001000000 0000000000000000 0001020304050607", NOT_CANONICAL),
        ("isCanonical rejects multi-segment messages", "0200000001000000 | 0000000001000000 0001020304050607", NOT_CANONICAL),
        ("isCanonical requires truncation of 0-valued struct fields", "0000000001000000 0000000000000000", NOT_CANONICAL),
        ("isCanonical rejects unused trailing words", "0000000001000000 0001020304050607 0000000000000000", NOT_CANONICAL),
        ("isCanonical accepts empty inline composite list of zero-sized structs",
         "0000000000000100 0100000007000000 0000000000000000",
         CANONICAL),
        ("isCanonical rejects inline composite list with inaccurate word-length",
         "0000000000000200 0500000017000000 0800000001000000 0400000001000000 0001020304050607 0706050403020100",
         NOT_CANONICAL),
        ("upgraded lists can be canonicalized",
         "0000000000000400 0000000000000000 0000000000000000 0000000000000000 0100000033000000 0001020304040506 0708091000000000",
         ACCEPTED),
        ("isCanonical requires truncation of 0-valued struct fields in all list members",
         "0100000027000000 0800000002000000 0001020304050607 0000000000000000 0706050403020100 0000000000000000",
         NOT_CANONICAL),
        ("primitive list with nonzero padding",
         "0000000000000100 010000001a000000 0102030100000000",
         NOT_CANONICAL, "0000000000000100 010000001a000000 0102030000000000"),
        ("bit list with nonzero padding",
         "0000000000000100 0100000059000000 ee0f000000000000",
         NOT_CANONICAL, "0000000000000100 0100000059000000 ee07000000000000"),
    ),
    "capnp 0.27.2, tests/canonicalize.rs": (
        ("canonicalize_succeeds_on_null_message", "0000000000000000", CANONICAL, SAME),
        ("dont_truncate_struct_too_far",
         "0000000003000000 1111111111111111 0000000000000080 0000000000000000",
         NOT_CANONICAL, "0000000002000000 1111111111111111 0000000000000080"),
        ("dont_truncate_struct_list_too_far",
         "0000000000000100 010000001f000000 0400000003000000 2222222222222222 0000000000000080 0000000000000000",
         NOT_CANONICAL, "0000000000000100 0100000017000000 0400000002000000 2222222222222222 0000000000000080"),
        ("canonical_non_null_empty_struct_field", "0000000000000200 0400000001000000 fcffffff00000000 eeeeeeeeeeeeeeee", CANONICAL),
        ("pointer_to_empty_struct_preorder_not_canonical",
         "0000000000000200 0400000001000000 0400000000000000 eeeeeeeeeeeeeeee",
         NOT_CANONICAL),
        ("is_canonical_requires_pointer_preorder",
         "0000000000000200 0800000001000000 0000000001000000 0001020304050607 0706050403020100",
         NOT_CANONICAL),
        ("is_canonical_requires_dense_packing", "0300000001000000 0000000000000000 0001020304050607", NOT_CANONICAL),
        ("simple_multisegment_message",
         "0200000001000000 | 0000000001000000 0001020304050607",
         NOT_CANONICAL, "0000000001000000 0001020304050607"),
        ("multisegment_only_first_segment_used",
         "0000000001000000 0001020304050607 | 0000000001000000",
         NOT_CANONICAL, "0000000001000000 0001020304050607"),
        ("is_canonical_requires_truncation_of_0_valued_struct_fields", "0000000001000000 0000000000000000", NOT_CANONICAL),
        ("is_canonical_rejects_unused_trailing_words", "0000000001000000 0001020304050607 0000000000000000", NOT_CANONICAL),
        ("empty_inline_composite_list_of_0_sized_structs", "0000000000000100 0100000007000000 0000000000000000", CANONICAL, SAME),
        ("inline_composite_list_with_void_list", "010000000f000000 0400000000000100 0100000008000000", CANONICAL, SAME),
        ("is_canonical_rejects_inline_composite_list_with_inaccurate_word_length",
         "0000000000000200 0500000017000000 0800000001000000 0400000001000000 0001020304050607 0706050403020100",
         NOT_CANONICAL),
        ("truncate_data_section_inline_composite",
         "0100000017000000 0400000001000100 0000000000000000 010000004a000000 3535352d31323132 0100000000000000",
         NOT_CANONICAL),
        ("truncate_pointer_section_inline_composite",
         "0100000027000000 0800000001000100 0000000000000000 0000000000000000 aaaaaaaaaaaaaaaa 0000000000000000",
         NOT_CANONICAL, "0100000017000000 0800000001000000 0000000000000000 aaaaaaaaaaaaaaaa"),
        ("list_padding_must_be_zero", "010000001a000000 0102030100000000", NOT_CANONICAL, "010000001a000000 0102030000000000"),
        ("bit_list_padding_must_be_zero", "0100000059000000 ee0f000000000000", NOT_CANONICAL, "0100000059000000 ee07000000000000"),
        ("out_of_bounds_zero_sized_list_returns_error", "0100000102000000", REFUSED),
        ("out_of_bounds_zero_sized_void_list_returns_error", "0100000110000000", REFUSED),
        ("far_pointer_to_same_segment", "0e00000000000000 0800000000000000 0000000002000000", NOT_CANONICAL),
    ),
    "capnp 0.27.2, tests/double_far_oob.rs": (
        ("double_far_inline_composite_oob", "0e00000000000000 faffffff00000000 010000000f000000", REFUSED),
    ),
    "capnp 0.27.2, tests/far_pointer_oob.rs": (
        ("far_pointer_out_of_bounds_position", "faffffff00000000 0000000000000000", REFUSED),
    ),
    "capnp 0.27.2, tests/negative_pointer_offset.rs": (
        ("negative_root_pointer_offset", "00006d9701000000 00006d6d6d6dff00", REFUSED),
    ),
    "capnp 0.27.2, tests/inline_composite_tag_oob.rs": (
        ("inline_composite_one_past_end", "0100000007000000", REFUSED),
    ),
    "capnp 0.27.2, tests/total_size.rs": (
        ("total_size_out_of_bounds", "0000000000000100 0000000100000000", REFUSED),
    ),
    "capnp 0.27.2, src/private/layout_test.rs": (
        ("simple_raw_data_struct", "0000000001000000 0123456789abcdef", ACCEPTED),
        ("bool_list", "0100000051000000 7502000000000000", ACCEPTED),
        ("struct_size", "0000000002000100 0000000000000000 0000000000000000 0000000000000000", ACCEPTED),
        ("struct_list_size", "010000001f000000 0400000001000000 0000000000000000 0000000000000000 0000000000000000", ACCEPTED),
        ("empty_struct_list_size", "0000000000000100 0100000007000000 0000000000000000", ACCEPTED),
    ),
    "libcapnp 1.1.0, layout-test.c++": (
        ("SimpleRawDataStruct", "0000000001000000 0123456789abcdef", ACCEPTED),
        ("SUBSTRUCT_DEFAULT", "0000000001000000 0000000000000000", ACCEPTED),
        ("STRUCTLIST_ELEMENT_SUBSTRUCT_DEFAULT", "0000000001000000 0000000000000000", ACCEPTED),
    ),
    "libcapnp 1.1.0, encoding-test.c++": (
        ("Copying ListList downgraded from ListStruct does not get corrupted",
         "0000000000000100 0100000027000000 0400000003000100 dddddddddddddddd dddddddddddddddd dddddddddddddddd "
         "0000000000000000", ACCEPTED),
        ("DefaultsFromEmptyMessage", "0000000000000000", ACCEPTED),
        # (its builder makes these, and not an array of bytes)
        ("VoidListAmplification", "0000000000000100 0100000000000080", REFUSED),
    ),
}
# capvet refuses this one, which the crate reads: the first word of the landing pad isn't a far pointer.
OTHER_REFUSALS = {"far_pointer_to_same_segment": "refused PadNotFar at 0:0 pointers 1"}
# Streams that have to break off: what comes before the end, by its bytes, and the line of the fault.
FAULTS = {
    "libcapnp 1.1.0, serialize-test.c++: RejectTooManySegments":
        ((1024).to_bytes(4, "little") + 1024 * b"\1\0\0\0" + bytes(61436), (), "TooManySegments 1025"),
    "libcapnp 1.1.0, serialize-test.c++: RejectHugeMessage":
        (framed("0000000002000000 0000000000000000 0000000000000000"), ("--size", "2"), "TooLarge 3"),
    "capnp 0.27.2, tests/buffer_size_too_small.rs: buffer_segments_too_small":
        (bytes.fromhex("00000000020000000000000000000000"), (), "Truncated at byte 16"),
    "capnp 0.27.2, src/serialize.rs: 513 segments": (bytes([0, 2, 0, 0]) + bytes(513 * 4), (), "TooManySegments 513"),
    "capnp 0.27.2, src/serialize.rs: half of a table": (bytes(4), (), "Truncated at byte 4"),
    "capnp 0.27.2, src/serialize.rs: a table that lacks a byte": (bytes(7), (), "Truncated at byte 7"),
    "capnp 0.27.2, src/serialize.rs: 0 segments": (b"\xff\xff\xff\xff", (), "Truncated at byte 4"),
    "capnp 0.27.2, src/serialize.rs: test_read_segment_table_overflow":
        (bytes.fromhex("01000000ffffffff0200000000000000"), (), "TooLarge 4294967297"),
}
# Words, and what they pack to: of libcapnp 1.1.0, serialize-packed-test.c++, and the same in the crate, which has the last two alone.
PACKED = (
    ("", ""),
    ("0000000000000000", "0000"),
    ("00000c0000220000", "240c22"),
    ("0103020405070608", "ff010302040507060800"),
    ("0000000000000000 0103020405070608", "0000ff010302040507060800"),
    ("00000c0000220000 0103020405070608", "240c22ff010302040507060800"),
    ("0103020405070608 0806070405020301", "ff0103020405070608010806070405020301"),
    ("0102030405060708 0102030405060708 0102030405060708 0102030405060708 0002040009000501",
     "ff010203040506070803010203040506070801020304050607080102030405060708d60204090501"),
    ("0102030405060708 0102030405060708 0602040309000501 0102030405060708 0002040009000501",
     "ff010203040506070803010203040506070806020403090005010102030405060708d60204090501"),
    ("0800640600010102 0000000000000000 0000000000000000 0000000000000000 0000010002000301", "ed0864060101020002d401020301"),
    (" ".join(3 * ["0000000000000000"]), "0002"),
    (" ".join(258 * ["0000000000000000"]), "00ff0001"),
)
# Packed bytes that end too early, of capnp 0.27.2, src/serialize_packed.rs, and the line.
CUT = {"ff010203040506070825 0102": "Truncated at byte 12", "f0 0102": "Truncated at byte 3", "00": "Truncated at byte 1",
       "ff 0102030405060708": "Truncated at byte 9"}
# The files, and for the packed ones the file that they unpack to.
FILES = {"binary": None, "segmented": None, "lists.binary": None, "annotated-json.binary": None, "flat": None,
         "packed": "binary", "segmented-packed": "segmented", "packedflat": "flat"}


def capvet(data, *words):
    """The bytes that the program writes for an input, its line on standard error, and its status."""
    ran = subprocess.run([PROGRAM, *words], input=data, capture_output=True)
    return ran.stdout, ran.stderr.decode(), ran.returncode


def written(data, *words):
    """What the program says of the one message of an input."""
    out, _, _ = capvet(data, *words)
    return out.decode().removeprefix("message 0: ").rstrip("\n")


def case(name, words, says, *canonical):
    """A message, and what upstream's test asserts of it."""
    message, short = framed(words), name.rpartition(": ")[2]
    verdict = written(message, "vet")
    if short in OTHER_REFUSALS:
        compare(f"{name}, vet", OTHER_REFUSALS[short], verdict)
        compare(f"{name}, check", True, written(message, "check") != CANONICAL)
        return
    compare(f"{name}, vet", REFUSED if says == REFUSED else ACCEPTED, verdict.split(" ")[0])
    if says in (CANONICAL, NOT_CANONICAL):
        got = written(message, "check")
        compare(f"{name}, check", says, got if got == CANONICAL else got[:len(NOT_CANONICAL)])
    if canonical:
        expected = message if canonical[0] is SAME else framed(canonical[0])
        compare(f"{name}, canon", (expected, 0), capvet(message, "canon")[::2])


def amplified():
    """A list of 500 lists of 2^28 structs without words, as a builder of libcapnp lays it out: all pointers, and then all tags."""
    count = 500
    to_tag = (count - 1) << 2 | 1 | 7 << 32
    return framed([1 << 48, 1 | (count << 3 | 6) << 32, *[to_tag] * count, *[1 << 30] * count])


def faults():
    for name, (data, options, expected) in FAULTS.items():
        _, error, status = capvet(data, "vet", *options)
        compare(name, (f"capvet: message 0: {expected}\n", 1), (error, status))


def packed():
    for words, packed_words in PACKED:
        plain, short = bytes.fromhex(words), bytes.fromhex(packed_words)
        compare(f"pack {words[:40]}", (short, 0), capvet(plain, "pack")[::2])
        compare(f"unpack {packed_words}", (plain, 0), capvet(short, "unpack")[::2])
    for data, expected in CUT.items():
        _, error, status = capvet(bytes.fromhex(data), "unpack")
        compare(f"unpack {data}", (f"capvet: {expected}\n", 1), (error, status))
    # (five segments, of which the last four are empty)
    plain = bytes([4, 0, 0, 0, 1]) + bytes(27)
    compare("packed_segment_table", (plain, 0), capvet(bytes([0x11, 4, 1, 0, 1, 0, 0]), "unpack")[::2])
    compare("packed_segment_table, vet", ACCEPTED, written(plain, "vet").split(" ")[0])


def files():
    for name, plain in FILES.items():
        data = (DATA / name).read_bytes()
        if plain is None:
            message = data if name != "flat" else framed(data)
            compare(f"{name}, vet", ACCEPTED, written(message, "vet").split(" ")[0])
        else:
            compare(f"{name}, unpack", ((DATA / plain).read_bytes(), 0), capvet(data, "unpack")[::2])
            # (libcapnp packs each segment by itself, and a run of the program goes on over their ends)
            if plain != "segmented":
                compare(f"{plain}, pack", (data, 0), capvet((DATA / plain).read_bytes(), "pack")[::2])


def main():
    for source, cases in CASES.items():
        for name, *row in cases:
            case(f"{source}: {name}", *row)
    compare("EmptyStructListAmplification", "refused WordLimit at 0:2 pointers 3", written(amplified(), "vet"))
    faults()
    packed()
    files()
    return ended()


if __name__ == "__main__":
    sys.exit(main())
