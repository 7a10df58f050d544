"""Messages that were vetted: what they have, and that nothing else makes one."""
import copy
import dataclasses
import pickle
import random
import re
import typing

import pytest

import capvet
from support import CASES, LAX, TOP, bytes_of, framed, lines, many, samples
from test_nodes import iterated, listed, starred

CYCLE = framed(0xFFFFFFFC | 1 << 48)


def test_only_vetting_makes_one():
    message = capvet.vet(samples()[0])
    for make in (capvet.Message, lambda: capvet.Message(CYCLE), lambda: type("Other", (capvet.Message,), {})):
        with pytest.raises(TypeError):
            make()
    for name in ("data", "report", "number", "offset", "segments", "other"):
        with pytest.raises(AttributeError):
            setattr(message, name, memoryview(CYCLE))
    assert copy.copy(message) is copy.deepcopy(message) is message
    # (what is unpickled is vetted)
    pickled = pickle.dumps(capvet.vet(framed(0, 0)))
    assert pickle.loads(pickled).report.words == 2
    with pytest.raises(capvet.Refusal):
        pickle.loads(pickled.replace(framed(0, 0), framed(7, 0)))


def test_getters_are_never_refused():
    """They return what `peek` returns, with the limits of the message and with others."""
    chance, found = random.Random(3), 0
    for data in samples() * 3 + many(CASES):
        limits = capvet.Limits(depth=256, allow_nonstrict=True, allow_amplified=True)
        verdict = next(capvet.messages(data, limits=limits))
        if isinstance(verdict, capvet.Refusal):
            continue
        for _ in range(3):
            path = starred(data, limits, chance)
            which = dict(first=chance.choice((0, 1, 5)), count=chance.choice((None, 3)))
            got = list(verdict.get_range(path, **which))
            assert (got, None) == iterated(data, path, limits, **{name: it for name, it in which.items() if it is not None})
            assert all(verdict.get(path.replace("*", str(number))) == it for number, it in enumerate(got, which["first"]))
            found += len(got)
    assert found > CASES // 2
    message = capvet.vet(samples()[0])
    for call in (message.get, message.get_range):
        with pytest.raises(capvet.PathError) as error:
            call("/x")
        assert (error.value.path, error.value.position) == ("/x", 1)


def test_bytes_that_changed_are_noticed():
    data = bytearray(framed(1 << 48, 0))
    message = capvet.vet(memoryview(data).toreadonly())
    data[16:24] = b"\7" + bytes(7)
    with pytest.raises(RuntimeError):
        message.canonical()
    with pytest.raises(RuntimeError):
        message.get("/p0")


def test_reader_limits():
    """As the guide says: the larger of three times the charge and 2, and the words; and twice the depth and 1."""
    report = capvet.vet(framed(1 << 48, 0xFFFFFFFC, *[0] * 100)).report
    assert (report.charge, report.words, report.depth) == (1, 102, 2)
    assert (report.reader_words(), report.reader_words(2), report.reader_nesting()) == (102, 204, 5)
    assert report.reader_options() == {"traversal_limit_in_words": 8 << 20, "nesting_limit": 64}
    shared = capvet.vet(samples()[0]).report
    assert shared.reader_words(10_000) == (3 * shared.charge + 2) * 10_000 == shared.reader_options(10_000)["traversal_limit_in_words"]
    deep = capvet.vet(framed(*[1 << 48] * 100, 0), limits=capvet.Limits(depth=100)).report
    assert deep.reader_options()["nesting_limit"] == 2 * deep.depth + 1 == 201


@pytest.mark.parametrize("limits", [capvet.Limits(), LAX, capvet.Limits(depth=3, charge=30), dataclasses.replace(LAX, exclusive=True)],
                         ids=["strict", "lax", "small", "exclusive"])
def test_all_at_once(limits):
    data = b"".join(samples() + many(CASES) + samples())
    expected, verdicts = list(capvet.messages(data, limits=limits)), capvet.vet_all(data, limits=limits)
    assert len(verdicts) == len(expected) > CASES and lines(verdicts) == lines(expected)
    assert [(it.number, it.offset, bytes_of(it)) for it in verdicts] == [(it.number, it.offset, bytes_of(it)) for it in expected]
    accepted = [it for it in expected if isinstance(it, capvet.Message)]
    assert verdicts.accepted == len(accepted) > 0
    assert [str(it) for it in verdicts.refused()] == [str(it) for it in expected if isinstance(it, capvet.Refusal)]
    assert [it.report for it in verdicts if isinstance(it, capvet.Message)] == [it.report for it in accepted]
    assert list(verdicts.column("answer")) == [getattr(it, "answer", 0) for it in expected]
    assert list(verdicts.column("offset")) == [it.offset for it in expected]
    for name in ("length", "charge", "depth", "pointers", "capabilities", "segments"):
        column = verdicts.column(name)
        assert [column[it.number] for it in accepted] == [getattr(it.report, name) for it in accepted]
    column, refused = verdicts.column("pointer"), [it for it in expected if isinstance(it, capvet.Refusal)]
    assert [column[it.number] for it in refused] == [it.pointer or 0 for it in refused]
    assert verdicts[-1].number == len(verdicts) - 1 and [it.number for it in verdicts[3:9:2]] == [3, 5, 7]
    with pytest.raises(IndexError):
        verdicts[len(verdicts)]
    with pytest.raises(KeyError):
        verdicts.column("words")


def test_all_of_what_is_no_stream():
    message = samples()[-1]
    assert len(capvet.vet_all(b"")) == 0
    for rest, reason in ((b"1", "Truncated"), (message[:-1], "Truncated"), (b"\0\2\0\0\0\0\0\0", "TooManySegments")):
        with pytest.raises(capvet.FrameError) as error:
            capvet.vet_all(message * 100 + rest)
        assert (error.value.reason, error.value.number, error.value.offset) == (reason, 100, 100 * len(message))
        with pytest.raises(capvet.FrameError) as other:
            list(capvet.messages(message * 100 + rest))
        assert vars(other.value) == vars(error.value)


def test_a_large_message_after_small_ones():
    """The marks of an exclusive message grow with it."""
    data = b"".join(listed(*[None] * size) if size else framed(0) for size in (0, 1, 0, 5000, 0, 2, 40_000, 0))
    verdicts = capvet.vet_all(data, limits=dataclasses.replace(LAX, exclusive=True))
    assert [getattr(it, "reason", None) for it in verdicts] == [None, None, None, "Overlap", None, "Overlap", "Overlap", None]


def test_reasons_are_those_of_the_header():
    # (without the numbers of first differences, which are others)
    header = re.sub(r".*CAPVET_DIFFERENCE_.*\n", "", (TOP / "include/capvet.h").read_text())
    numbers = dict(re.findall(r"^  (CAPVET_\w+) = (\d+)", header, re.M))
    names = dict(re.findall(r"case (CAPVET_\w+): return \"(\w+)\"", header))
    named = {names[name]: int(number) for name, number in numbers.items() if name in names}
    assert len(named) == len(names)
    others = {"Ok", "BadLimits", "BufferTooSmall", "BadPath", "NotCanonical", "HasCapability", "NoNode"}
    refusals, frames = typing.get_args(capvet.RefusalReason), typing.get_args(capvet.FrameReason)
    assert set(refusals) | set(frames) | others == set(named) and not set(refusals) & set(frames)
    assert all(named[name] > 17 for name in refusals) and all(named[name] < 17 for name in frames)
