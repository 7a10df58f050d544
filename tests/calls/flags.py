"""Compares the calls with flags, from C, field by field with tests/shared/model.py. tests/calls/calls.py runs it.

The messages are the samples, those of tests/shared/strict.py, made ones and changed ones, and some whose charge is one below the
bound of unamplified messages, at it and one past it. Each comes with and without trailing bytes. The flags are in all
combinations, and some limits are bad. What a call accepts it accepts with wider limits too, and what capvet_canonical writes
is canonical with the same limits."""
import struct
from collections import Counter

import model
import strict
from harness import compare, expect, framed, over_file
from made import changed, made_up
from model import (AMPLIFIED, ANSWERS, CANONICAL, CHECK_WORDS, EXCLUSIVE, FIELDS, FRAME, NO_TABLE, NONSTRICT, REPORT, RESERVED, SEGMENTS, SLACK,
                   VET, VET_SEGMENTS, Limits)

MANY = 24_000
# In place of a size: that of CAPVET_CANONICAL_BOUND.
BOUND = 0xFFFFFFFF
# `required` of a call that has none, and a report's fields with the reserved ones
REPLY = struct.Struct(f"<IQ{REPORT}")
CALLS = ("capvet_frame", "capvet_vet", "capvet_vet_exclusive", "capvet_canonical", "capvet_check_canonical",
         "capvet_segments", "capvet_vet_segments", "capvet_check_canonical_words", "capvet_first_difference")


def words_of(message):
    """The bytes after the table."""
    return message[8 * ((struct.unpack_from("<I", message)[0] + 1) // 2 + 1):] if len(message) >= 8 else message


def separated(message):
    """The segments of a frame after their lengths, and how many they are. Bytes after the frame belong to the last segment, and
    bytes without a frame are one."""
    segments, _ = model.unframed(message, Limits(message_words=1 << 28))
    if segments is None:
        parts = [message] if message else []
    else:
        parts = [struct.pack(f"<{len(it)}Q", *it) for it in segments]
        parts[-1] += message[8 * (len(parts) // 2 + 1) + sum(map(len, parts)):]
    return struct.pack(f"<{len(parts)}I", *map(len, parts)) + b"".join(parts), len(parts)


def asked(call, data, limits, size):
    """A call over this input, which is given in the form that the call takes."""
    if call == VET_SEGMENTS:
        data, size = separated(data)
    if call == CHECK_WORDS and not limits.flags & NO_TABLE:
        data = words_of(data)
    return call, data, limits, size


def amplified():
    """Messages by how much their charge is above the bound of unamplified ones: lists of Void, lists of empty structs, and
    pointers that share a struct."""
    for past in (-1, 0, 1):
        more = SLACK + 1 + past
        yield past, framed([1 | more << 35])
        yield past, framed([1 | more << 35], [])
        yield past, framed([2 | 1 << 32], [1 | more << 35])
        yield past, framed([1 | 7 << 32, more << 2])
        # (a struct of pointers to one struct: each costs a word and those of the struct; words after it raise the bound)
        for own in (1, 7, 64):
            count = (SLACK + 2) // own + 2
            words = [count << 48, *((count - 1 - i) << 2 | own << 32 for i in range(count)), *range(1, own + 1)]
            yield past, framed(words + [0] * (count * (own + 1) - SLACK - past - len(words)))


# Other messages and parts of one, with the answer of capvet_vet_exclusive.
CYCLE = framed([0x00010000FFFFFFFC])
SHARED = framed([2 << 48, 4 | 1 << 32, 1 << 32, 7])
OTHERS = ((CYCLE, "DEPTH_LIMIT"), (SHARED, "OVERLAP"), (framed([0]), "OK"), (framed([]), "NO_ROOT"), (b"", "NO_MESSAGE"),
          (struct.pack("<II", 512, 0), "TOO_MANY_SEGMENTS"), (framed([1 | 7 << 32, 1]), "COMPOSITE_TAG"),
          (framed([1 | 7 << 32, 1 << 2 | 1 << 32]), "COMPOSITE_OVERRUN"))
# The first bytes of a message, and how many of them are needed where these are too few. A message of one segment with a word
# after it, one of two segments with padding, and the table of 512 segments.
ONE, TWO = framed([7, 8, 9]) + bytes(8), struct.pack("<IIII3Q", 1, 1, 2, 0xEEEEEEEE, 7, 8, 9)
FRONTS = ((ONE[:0], 8), (ONE[:1], 8), (ONE[:7], 8), (ONE[:8], 32), (ONE[:31], 32), (ONE[:32], 0), (ONE, 0), (TWO[:8], 16),
          (TWO[:15], 16), (TWO[:16], 40), (TWO[:39], 40), (TWO, 0), (struct.pack("<II", 511, 0), 2056))
NOT_STRICT = [(framed(text), fault) for text, fault in strict.CASES] + [
    (strict.many(511), None), (strict.many(512), ("MANY_SEGMENTS", 0, 0, 0))]


def are_as_named():
    """The messages are what they are made for: by hand, or by the charge of the model."""
    for message, fault in NOT_STRICT:
        answer, _, report, _ = model.called(VET, message, Limits(), 0)
        got = report[8:10] + report[4:5]
        expect(f"the fault of {message.hex()}", (answer, got) == (ANSWERS[fault[0]], fault[1:]) if fault else answer == 0,
               f"{answer} {got}")
        expect(f"{message.hex()}, accepted", model.called(VET, message, Limits(flags=NONSTRICT), 0)[0] == 0)
    for past, message in amplified():
        _, _, report, _ = model.called(VET, message, Limits(flags=AMPLIFIED), 0)
        words = (len(message) - len(framed(*[[]] * report[7]))) // 8
        expect(f"the charge of {message[:40].hex()}", report[3] == words + SLACK + past, f"{report[3]} of {words} words")
    for front, needed in FRONTS:
        answer, _, report, _ = model.called(FRAME, front, Limits(), 0)
        expect(f"the bytes needed of {front.hex()}", (answer == 0, report[1]) == (needed == 0, needed), f"{answer} {report}")
    for message, name in OTHERS:
        expect(f"the answer for {message.hex()}", model.called(EXCLUSIVE, message, Limits(), 1)[0] == ANSWERS[name])


def requests(small, chance):
    """Calls, each with its input, its limits and the size of its output buffer."""
    known = [message for message, _ in NOT_STRICT]
    bound = [message for _, message in amplified()]
    for message in (*small, *known, *bound, *(message for message, _ in OTHERS), *(front for front, _ in FRONTS)):
        for flags in range(16):
            for call in range(len(CALLS)):
                if flags & NO_TABLE:
                    # (what is after the table; below the table is part of the words)
                    yield asked(call, words_of(message), Limits(flags=flags), chance.choice((0, 1, 1 << 16)))
                # (each one for small messages, and one of them for others)
                more = (0, 1, 7, 8) if len(message) < 200 else (chance.choice((0, 0, 1, 7, 8)),)
                for count in more:
                    yield asked(call, message + bytes(count), Limits(flags=flags), chance.choice((0, 1, 1 << 16)))
    for message in (*small, *bound):
        yield CANONICAL, message, Limits(), BOUND
    for limits in (Limits(flags=16), Limits(flags=1 << 31), Limits(flags=31), Limits(flags=24), Limits(padding=1), *(Limits(reserved=(0,) * at + (1 << 63,) + (0,) * (5 - at)) for at in range(6)),
                   Limits(message_words=(1 << 28) + 1), Limits(charge=(1 << 28) + 1),
                   Limits(depth=257), Limits(message_words=1 << 28, charge=1 << 28, depth=256, flags=7)):
        for call in range(len(CALLS)):
            for message in (SHARED, b""):
                yield asked(call, message, limits, 100)
    for count in (512, 513, 1000):
        yield VET_SEGMENTS, bytes(4 * count), Limits(), count
        yield VET_SEGMENTS, struct.pack("<I", 8) + bytes(4 * (count - 1) + 8), Limits(flags=NONSTRICT), count
    few = [message for message in small if len(message) < 1000] + known
    for _ in range(MANY):
        message = made_up(chance) if chance.randrange(3) == 0 else changed(chance.choice(few), chance)
        message = message[:chance.randrange(len(message) + 1)] if chance.randrange(16) == 0 else message
        message += bytes(chance.choice((0, 0, 0, 0, 1, 7, 8, 24)))
        limits = Limits(chance.choice((8388608, 8388608, 8388608, 3, 60)), chance.choice((30000, 30000, 6, 40)), chance.choice((64, 64, 2, 5)),
                        chance.choice((*range(8), 8, 10, 12, 14, 8, 14, 15)))
        if limits.flags & NO_TABLE and chance.randrange(4):
            message = words_of(message)
        call, size = chance.randrange(len(CALLS)), chance.choice((0, 1 << 12))
        if call == SEGMENTS:
            size = chance.choice((0, 1, 2, 3, 512))
        if call in (EXCLUSIVE, CANONICAL, SEGMENTS) and chance.randrange(2):
            # a buffer that just suffices, or is one too small
            least = model.called(call, message, limits, 1 << 20)[1]
            size = max(0, least - chance.randrange(2))
        yield asked(call, message, limits, size)


def wider(limits, chance):
    """Limits of which none is lower, with more of the ALLOW flags. (words without a table have no bytes after them)"""
    more = chance.randrange(8) & ~(1 if limits.flags & NO_TABLE else 0)
    return Limits(*(chance.choice((it, it + 1, 1 << 20)) if it < 1 << 20 else it for it in (limits.message_words, limits.charge)),
                  min(256, limits.depth + chance.choice((0, 1, 100))), limits.flags | more)


def that_hold(many, chance):
    """Of the calls that return CAPVET_OK: the same with wider limits, and the check of each canonical form."""
    counts = Counter()
    for call, data, limits, size in many:
        # (a tenth of them, and no large message)
        if chance.randrange(10) or len(data) > 2000:
            continue
        answer, required, _, out = model.called(call, data, limits, size)
        if answer != 0:
            continue
        more = wider(limits, chance)
        answer, least, _, _ = model.called(call, data, more, size)
        expect(lambda: f"{CALLS[call]} of {data.hex()} with {limits}, and with {more}", (answer, least) == (0, required))
        counts[call] += 1
        yield call, data, more, size
        if call == CANONICAL:
            # (the words of the form may be more than those of the message)
            expect(lambda: f"the canonical form of {data.hex()} with {limits}", model.called(CHECK_WORDS, out, limits, 0)[0] == 0)
            counts[CHECK_WORDS] += 1
            yield CHECK_WORDS, out, limits, 0
    expect("calls with wider limits, of each kind", len(counts) == len(CALLS) and min(counts.values()) >= 20, counts)


def compare_calls(program, many):
    """Makes all calls in one run of tests/calls/c/flags.c, and compares what each replies with the model."""
    described = (struct.pack("<II", call, size) + limits.packed() + struct.pack("<I", len(data)) + data
                 for call, data, limits, size in many)
    replies, err, status = over_file([program], b"".join(described))
    compare("the calls with flags, with the compiler's checks", (b"", 0), (err, status))
    at, answers = 0, Counter()
    for call, data, limits, size in many:
        if len(replies) < at + REPLY.size:
            expect("a reply for each call with flags", False)
            return answers
        answer, required, *fields = REPLY.unpack_from(replies, at)
        at += REPLY.size
        expected, least, report, out = model.called(call, data, limits, size)
        items = {CANONICAL: 1, SEGMENTS: 16}.get(call, 0) * (answer == ANSWERS["OK"])
        got = replies[at:at + items * required]
        at += len(got)
        answers[call, answer] += 1
        # the report as the header has it, and its reserved fields
        expected_fields = [*report, *[0] * RESERVED]
        expect(lambda: f"{CALLS[call]} of {data.hex()} with {limits} and {size}",
               (answer, required, fields, got) == (expected, least, expected_fields, out),
               lambda: f"expected {expected} {least} {dict(zip(FIELDS, report))} {out.hex()}\n"
                       f"  got {answer} {required} {fields} {got.hex()}")
    expect("no more replies", at == len(replies))
    return answers


def test(program, samples, chance):
    are_as_named()
    many = list(requests(samples, chance))
    many += that_hold(many, chance)
    answers = compare_calls(program, many)
    by_answer = Counter()
    for (call, answer), count in answers.items():
        by_answer[answer] += count
    for name, number in ANSWERS.items():
        expect(f"calls that answer {name}", by_answer[number] >= 10, f"{by_answer[number]}")
    refused = sum(count for answer, count in by_answer.items() if answer)
    print(f"calls: {len(many)} calls with flags compared with the model, {refused} of them with an answer other than OK")
