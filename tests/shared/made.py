"""Messages for tests: the samples, and messages that are changed or made up. The source distribution for Python has a copy."""
import struct
from pathlib import Path

TOP = Path(__file__).resolve().parents[2]


def samples():
    """The framed messages of the samples."""
    messages = []
    for name in ("contacts.bin", "contacts-many-segments.bin", "telemetry.bin", "stream-of-four.bin"):
        stream = (TOP / "examples" / name).read_bytes()
        while stream:
            count = struct.unpack_from("<I", stream)[0] + 1
            sizes = struct.unpack_from(f"<{count}I", stream, 4)
            end = 8 * (count // 2 + 1 + sum(sizes))
            messages.append(stream[:end])
            stream = stream[end:]
    return messages


def changed(message, chance):
    """The message with some of the bytes of its words changed."""
    table = 8 * ((struct.unpack_from("<I", message)[0] + 1) // 2 + 1)
    message = bytearray(message)
    if len(message) == table:
        return bytes(message)
    for _ in range(chance.choice((0, 1, 1, 1, 2, 3, 8))):
        at = chance.randrange(table, len(message))
        kind = chance.randrange(4)
        if kind == 0:
            message[at] ^= 1 << chance.randrange(8)
        elif kind == 1:
            message[at] = chance.randrange(256)
        else:
            # a word in place of another, or a pointer that is made up
            word = at - at % 8
            other = chance.randrange(table, len(message)) // 8 * 8
            made = struct.pack("<I", chance.randrange(4) | chance.randrange(-4, 40) * 4 & 0xFFFFFFFF) + struct.pack(
                "<HH", chance.randrange(6), chance.randrange(6))
            message[word:word + 8] = message[other:other + 8] if kind == 2 else made
    return bytes(message)


def table_of(sizes):
    """The table of a message of segments of these sizes."""
    numbers = [len(sizes) - 1, *sizes]
    numbers += [0] * (len(numbers) % 2)
    return struct.pack(f"<{len(numbers)}I", *numbers)


def made_up(chance):
    """A message of few words, which are small numbers in the places of pointers."""
    sizes = [chance.randrange(0, 5) for _ in range(chance.choice((1, 1, 2, 3)))]
    words = b"".join(
        struct.pack("<IHH", (chance.randrange(4) | chance.randrange(-2, 5) * 4) & 0xFFFFFFFF, chance.randrange(3),
                    chance.randrange(3)) for _ in range(sum(sizes)))
    return table_of(sizes) + words


def forward_word(chance, at, size, number, count):
    """A word of a segment that leads only to later words of it, or to a landing pad in the next segment."""
    kind, skip = chance.randrange(8), chance.randrange(min(size - at - 1, 3) + 1)
    left = size - at - 1 - skip
    if kind == 0 and chance.random() < 0.5:
        return 0
    if kind < 3 and number + 1 < count:
        return 2 | chance.randrange(4) << 3 | number + 1 << 32
    if kind < 5:
        return 1 | skip << 2 | chance.choice((5, 6)) << 32 | chance.randrange(min(left, 3) + 1) << 35
    data = chance.randrange(min(left, 2) + 1)
    return skip << 2 | data << 32 | chance.randrange(min(left - data, 2) + 1) << 48


def shared(chance):
    """A message in which most pointers lead to words of one another."""
    count = chance.choice((1, 1, 2, 3))
    sizes = [chance.randrange(4, 14) for _ in range(count)]
    words = [[forward_word(chance, at, size, number, count) for at in range(size)] for number, size in enumerate(sizes)]
    words[0][0] = chance.randrange(2, 4) << 48
    return table_of(sizes) + b"".join(struct.pack(f"<{len(segment)}Q", *segment) for segment in words)
