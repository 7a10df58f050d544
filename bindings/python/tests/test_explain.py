"""The lines that explain a refusal, beside the program."""
import dataclasses
import re

import pytest

import capvet
from support import CASES, FILES, LAX, STRICT, TOP, bytes_of, framed, many, program

# A list of 4,098 elements without bits in one word: one more than an unamplified message has.
AMPLIFIED = framed(1 | 4098 << 35)
LINES = """  path /
  byte 8 of the message
  pointer 0100000010800000 list of empty elements, offset 0, elements 4098
  target 0:1, words 0
  leads into segment 0, words 1
  charge up to here 4098 words, limit 4097 words
  reason the charge up to this pointer and its target is more than the limit
"""


def explained(messages, limits):
    """What the program writes of these messages after the line of each verdict."""
    return [it.explain() if isinstance(it, capvet.Refusal) else "" for it in capvet.messages(b"".join(messages), limits=limits)]


@pytest.mark.parametrize("limits, options", [(capvet.Limits(), STRICT), (LAX, []),
                                             (dataclasses.replace(LAX, depth=3, charge=30), ["--depth", 3, "--words", 30])])
def test_as_the_program(limits, options):
    messages = [bytes_of(it) for file in FILES for it in capvet.messages(file.read_bytes())] + many(max(CASES, 2000))
    text = program("explain", *options, data=b"".join(messages))[0].decode()
    # (the library explains one message, which is in no input, and only if it refuses it by these limits)
    text = re.sub(r", byte \d+ of the input", "", text)
    text = re.sub(r"^  filter, .*\n(  .*\n)*", "", text, flags=re.M)
    expected = re.split(r"^message .*\n", text, flags=re.M)[1:]
    assert len(expected) == len(messages) and 0 < expected.count("") < len(expected)
    assert explained(messages, limits) == expected


def refused(data, **limits):
    with pytest.raises(capvet.Refusal) as error:
        capvet.vet(data, limits=capvet.Limits(**limits))
    return error.value


def test_lines():
    for buffer in (AMPLIFIED, bytearray(AMPLIFIED), memoryview(AMPLIFIED)):
        assert refused(buffer).explain() == LINES
    # (without a table the pointer is at the first byte)
    with pytest.raises(capvet.Refusal) as error:
        capvet.vet_words(AMPLIFIED[8:])
    assert error.value.explain() == LINES.replace("byte 8", "byte 0")


def test_the_longest_path():
    assert refused(framed(0xFFFFFFFC | 1 << 48), depth=256).explain().startswith("  path " + "/p0" * 8 + "/.. 240 steps .." + "/p0" * 8 + "\n")


def test_without_a_pointer():
    assert refused(framed()).explain() == "  reason segment 0 has no words, so the message has no root pointer\n"


def test_overlaps():
    """The lines are those of the program."""
    overlaps = 0
    for data in [(TOP / "examples/shared.bin").read_bytes(), *many(max(CASES, 1000))]:
        for it in capvet.messages(data, limits=dataclasses.replace(LAX, exclusive=True)):
            if isinstance(it, capvet.Message) or it.reason != "Overlap":
                continue
            overlaps += 1
            if overlaps > 40:
                return
            lines = program("explain", "--exclusive", data=data)[0].decode()
            lines = re.sub(r", byte \d+ of the input", "", lines).splitlines()[1:]
            said = it.explain().splitlines()
            assert said == lines
            assert (said[-1].split()[:4] == ["first", "used", "by", it.earlier_path]) == (it.earlier_path is not None)
    assert overlaps > 10


def test_of_a_path():
    with pytest.raises(capvet.Refusal) as error:
        capvet.peek(framed(1 << 48, 1 << 34), "/p0")
    assert (error.value.reason, error.value.position, error.value.pointer, error.value.path) == ("OutOfSegment", (0, 1), None, None)
    # (the lines would be those of the first pointer that is refused, perhaps another one)
    with pytest.raises(ValueError):
        error.value.explain()


def test_bytes_that_changed():
    data = bytearray(AMPLIFIED)
    refusal = refused(memoryview(data).toreadonly())
    data[8:] = bytes(8)
    with pytest.raises(RuntimeError):
        refusal.explain()
