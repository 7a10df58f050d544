"""Compares capvet_unpack_message, from C, call by call with a model. tests/calls/calls.py runs it.

The streams are packed messages, cut into groups in many ways, packed texts of the library, both of them changed, and made
bytes. Each is unpacked a piece at a time: the model says what a call leaves, and the next call begins with that. Some
calls have other limits, bad ones, or a state that is not the one that was left. Compared are the answer, the bytes that
were consumed, the required size, the state, each field of the report, and the whole buffer."""
import struct
from collections import Counter

import model
from amount import cases
from harness import compare, expect, over_file, under_valgrind
from made import made_up
from model import ANSWERS, FIELDS, REPORT, Limits, unframed
from needs import missing

# the answer, consumed, required, the state and the report, with the reserved fields
REPLY = struct.Struct(f"<I2QQ2I2Q{REPORT}")
STREAMS = cases(20_000, full=100_000)  # packed streams, unpacked call by call
LEAST = STREAMS // 100
ZERO = (0, 0, 0, 0, 0)


def next_word(data, zeros, literal):
    """The next word of a packed stream, how many bytes it takes, and the rest of its run. Otherwise how many bytes are
    needed."""
    if zeros:
        return (bytes(8), 0, zeros - 1, 0), 0
    if literal:
        return ((data[:8], 8, 0, literal - 1), 0) if len(data) >= 8 else (None, 8)
    tag = data[0] if data else None
    need = 1 if tag is None else 2 if tag == 0 else 10 if tag == 255 else 1 + bin(tag).count("1")
    if tag is None or len(data) < need:
        return None, need
    if tag == 0:
        return (bytes(8), 2, data[1], 0), 0
    if tag == 255:
        return (data[1:9], 10, 0, data[9]), 0
    present = iter(data[1:need])
    return (bytes(next(present) if tag >> bit & 1 else 0 for bit in range(8)), need, 0, 0), 0


def is_state(state, out, limits):
    """Whether a call may leave this state."""
    written, zeros, literal, *reserved = state
    if any(reserved) or max(zeros, literal) > 255 or (zeros and literal) or written % 8 or written > len(out):
        return False
    return unframed(out[:written], limits)[0] is None


def unpacked(data, out, state, limits):
    """The answer of a call, what it consumed, the required size, the state, the fields of the report, and the buffer."""

    def result(answer, consumed, size, left, **fields):
        return ANSWERS[answer], consumed, size, left, tuple(fields.get(name, 0) for name in FIELDS), bytes(out)

    if not limits.are_good(model.FRAME) or not is_state(state, out, limits):
        return result("BAD_LIMITS", 0, 0, state)
    out, (written, zeros, literal, *_), at = bytearray(out), state, 0
    while True:
        message, fault = unframed(bytes(out[:written]), limits)
        answer, fields = ("OK", {}) if message is not None else fault
        if answer not in ("NO_MESSAGE", "TRUNCATED"):
            break
        word, need = next_word(data[at:at + 10], zeros, literal)
        if word is None or written + 8 > len(out):
            break
        out[written:written + 8], more, zeros, literal = word
        written, at = written + 8, at + more
    left = written, zeros, literal, 0, 0
    if answer == "OK":
        return result("OK", at, written, (0, *left[1:]), length=written, segments=len(message),
                      words=sum(map(len, message)))
    if answer not in ("NO_MESSAGE", "TRUNCATED"):
        return result(answer, at, 0, left, **fields)
    if word is not None:
        return result("BUFFER_TOO_SMALL", at, fields["input_required"], left)
    if (written, literal) == (0, 0) and at == len(data):
        return result("NO_MESSAGE", at, 0, left, input_required=1)
    return result("TRUNCATED", at, 0, left, input_required=need)


def packed(frame, chance):
    """A packed text of these words, whose groups end anywhere."""
    words, text = [frame[at:at + 8] for at in range(0, len(frame), 8)], b""
    while words:
        word, most = words[0], chance.choice((0, 1, 3, 255))
        if not any(word):
            count = next((k for k, other in enumerate(words) if any(other)), len(words))
            count = min(count, 1 + most)
            text += bytes((0, count - 1))
        elif all(word):
            count = min(len(words), 1 + most)
            text += b"\xff" + word + bytes((count - 1,)) + b"".join(words[1:count])
        else:
            count = 1
            text += bytes((sum(1 << bit for bit in range(8) if word[bit]),)) + bytes(filter(None, word))
        words = words[count:]
    return text


def made_text(chance):
    """A packed text of a few groups, whose last one is whole."""
    text = b""
    for _ in range(chance.randrange(12)):
        tag = chance.choice((0, 0, 0xFF, chance.randrange(256), chance.randrange(256)))
        more = chance.choice((0, 0, 1, 2, chance.randrange(8), 255 if chance.randrange(40) == 0 else 3))
        if tag == 0:
            text += bytes((0, more))
        elif tag == 0xFF:
            text += b"\xff" + chance.randbytes(8) + bytes((more,)) + chance.randbytes(8 * more)
        else:
            text += bytes((tag,)) + chance.randbytes(bin(tag).count("1"))
    return text


def changed_text(text, chance):
    """The text with some bytes changed, left out or put between."""
    text = bytearray(text)
    for _ in range(chance.choice((1, 1, 2, 3))):
        at, more = chance.randrange(len(text) + 1), chance.randrange(1, 9)
        text[at:at + chance.choice((0, 1, 1, more))] = chance.randbytes(chance.choice((0, 1, 1, more)))
    return bytes(text)


def streams(texts, chance):
    """Packed streams: of messages, of their texts one after another, changed ones, and made ones."""
    small = [text for text in texts if len(text) < 300]
    # tables of more than 512 segments, of many words, and of just 512
    tables = [struct.pack("<II", 512, 0), struct.pack("<II", 0, 9_000_000), struct.pack("<II", 0xFFFFFFFF, 1),
              struct.pack("<II", 2, 1 << 31) + struct.pack("<II", 1 << 31, 1), struct.pack("<II", 511, 1) + bytes(2048)]
    while True:
        kind = chance.randrange(8)
        frames = b"".join(made_up(chance) for _ in range(chance.randrange(1, 4)))
        if chance.randrange(10) == 0:
            frames += chance.choice(tables) + bytes(8 * chance.randrange(3))
        text = made_text(chance) if kind == 7 else b"".join(chance.choice(small) for _ in range(chance.randrange(1, 3)))
        text = packed(frames, chance) if kind < 4 else text
        text = changed_text(text, chance) if kind % 2 else text
        yield text[:chance.randrange(len(text) + 1)] if chance.randrange(4) == 0 else text


def other_state(state, out, chance):
    """A state beside the one that a call left."""
    return chance.choice(((state[0] + 4, *state[1:]), (len(out) // 8 * 8 + 8, *state[1:]), (1 << 63, *state[1:]),
                          (state[0], 256, 0, 0, 0), (state[0], 0, 256, 0, 0), (state[0], 1, 1, 0, 0),
                          (*state[:3], 1, 0), (*state[:3], 0, 1 << 63), (state[0], 0, chance.randrange(1, 4), 0, 0),
                          (len(out) // 8 * 8, 0, 0, 0, 0), (state[0], 255, 0, 0, 0), ZERO))


def other_limits(limits, chance):
    """Other limits, most of which are bad."""
    return chance.choice((Limits(flags=8), Limits(flags=1 << 23), Limits(depth=257), Limits(charge=1 << 28 | 1),
                          Limits(message_words=1 << 28 | 1), Limits(reserved=(0, 0, 0, 0, 0, 1)), Limits(depth=0, charge=0, flags=7),
                          Limits(message_words=limits.message_words + 1), Limits(message_words=1 << 28)))


def calls_over(text, chance):
    """The calls over a stream, each with its input, buffer, state and limits, and what the model says of it."""
    limits = Limits(message_words=chance.choice((8388608, 8388608, 0, 2, 6)))
    out, state, at = chance.randbytes(chance.choice((0, 0, 7, 8, 20, 64, 200))), ZERO, 0
    piece = chance.choice((1, 3, 9, 40, len(text) + 1))
    end = min(len(text), chance.choice((0, piece)))
    for _ in range(24):
        if chance.randrange(40) == 0:
            state = other_state(state, out, chance)
        call = text[at:end], out, state, other_limits(limits, chance) if chance.randrange(60) == 0 else limits
        expected = answer, consumed, required, state, _, out = unpacked(*call)
        yield call, expected
        at += consumed
        if answer in (ANSWERS["TRUNCATED"], ANSWERS["NO_MESSAGE"]):
            if end == len(text):
                return
            end = min(len(text), end + piece)
        elif answer == ANSWERS["BUFFER_TOO_SMALL"]:
            if required > 1 << 14:
                return
            out = out[:state[0]] + chance.randbytes(required - state[0] + chance.choice((0, 0, 3, 40)))
        elif answer == ANSWERS["BAD_LIMITS"]:
            state = ZERO
        elif answer != ANSWERS["OK"] and chance.randrange(2):
            return


def described(calls):
    """The calls as tests/calls/c/unpacking.c reads them."""
    return b"".join(limits.packed() + struct.pack("<Q2I2Q2I", *state, len(data), len(out)) + data + out
                    for (data, out, state, limits), _ in calls)


def compare_calls(program, calls):
    """The calls beside the model, and how often each answer came."""
    replies, err, status = over_file([program], described(calls))
    compare("unpacking, with the compiler's checks", (b"", 0), (err, status))
    at, answers = 0, Counter()
    for call, expected in calls:
        end = at + REPLY.size + len(call[1])
        if end > len(replies):
            break
        reply, out = REPLY.unpack_from(replies, at), replies[end - len(call[1]):end]
        holds = (*reply[:3], reply[3:8], reply[8:8 + len(FIELDS)], out) == expected and not any(reply[8 + len(FIELDS):])
        expect(lambda: f"unpacking {call}", holds, lambda: f"{reply} {out}\n  {expected}")
        most = 8 * call[3].message_words + 2056
        expect("the bound of a frame", reply[2] <= most, lambda: f"{reply} is above {most}")
        answers[reply[0]] += 1
        at = end
    expect("a reply to each call of unpacking", (answers.total(), at) == (len(calls), len(replies)), answers.total())
    return answers


def test(asking, watched, texts, chance):
    source, answers, count = streams(texts, chance), Counter(), 0
    first = [call for _ in range(500) for call in calls_over(next(source), chance)]
    if watched is not None and not missing("packed streams, call by call under valgrind", "valgrind"):
        under_valgrind("unpacking, under valgrind", watched, asking, described(first))
    for _ in range(STREAMS // 10_000):
        calls = [call for _ in range(10_000) for call in calls_over(next(source), chance)]
        answers, count = answers + compare_calls(asking, calls), count + len(calls)
    for name in ("OK", "NO_MESSAGE", "TOO_MANY_SEGMENTS", "TOO_LARGE", "TRUNCATED", "BAD_LIMITS", "BUFFER_TOO_SMALL"):
        expect(f"calls of unpacking that answer {name}", answers[ANSWERS[name]] >= LEAST, f"{answers[ANSWERS[name]]}")
    expect("no other answer of unpacking", len(answers) == 7, f"{answers}")
    print(f"calls: {count} calls over {STREAMS} packed streams compared with the model")
