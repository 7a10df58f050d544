"""Reads the trees of accepted messages, as docs/format.md defines them, and the lines that `dump` and `get` print for
them, as docs/output.md defines them. It checks nothing: other messages are not its concern."""
import struct
from dataclasses import dataclass, field

BITS = (0, 1, 8, 16, 32, 64)


@dataclass
class Node:
    """A node: its head, the lines of its own words, and its children with their labels."""
    head: str
    words: list = field(default_factory=list)
    children: list = field(default_factory=list)

    def own_lines(self, name, level):
        return ["  " * level + f"{name} {self.head}"] + ["  " * (level + 1) + it for it in self.words]

    def lines(self, name, level=0):
        """The lines of this node and of all below it."""
        below = [line for label, child in self.children for line in child.lines(label, level + 1)]
        return self.own_lines(name, level) + below


def messages(stream):
    """The segments of each message of a stream, as lists of words."""
    at = 0
    while at < len(stream):
        count = struct.unpack_from("<I", stream, at)[0] + 1
        sizes = struct.unpack_from(f"<{count}I", stream, at + 4)
        at += 8 * (count // 2 + 1)
        segments = []
        for size in sizes:
            segments.append(struct.unpack_from(f"<{size}Q", stream, at))
            at += 8 * size
        yield segments


def bits(word, low, count):
    return word >> low & (1 << count) - 1


def offset(word):
    """The offset of a pointer, with its sign."""
    return bits(word, 2, 30) - (1 << 30 if word >> 31 & 1 else 0)


def hexadecimal(word):
    return struct.pack("<Q", word).hex()


def node_of(message, segment, at):
    """The node that the pointer word at this place leads to."""
    word = message[segment][at]
    start = at + 1 + offset(word)
    if bits(word, 0, 2) == 2:
        pad_segment, pad = bits(word, 32, 32), bits(word, 3, 29)
        if not bits(word, 2, 1):
            return node_of(message, pad_segment, pad)
        first, word = message[pad_segment][pad:pad + 2]
        segment, start = bits(first, 32, 32), bits(first, 3, 29)
        if word == 0:
            return struct_of(message, segment, start, 0, 0)
    if word == 0:
        return Node("null")
    if bits(word, 0, 2) == 0:
        return struct_of(message, segment, start, bits(word, 32, 16), bits(word, 48, 16))
    if bits(word, 0, 2) == 1:
        return list_of(message, segment, start, bits(word, 32, 3), bits(word, 35, 29))
    return Node(f"cap {bits(word, 32, 32)}")


def struct_of(message, segment, start, data, pointers):
    words = message[segment][start:start + data]
    return Node(
        f"struct {data} {pointers}",
        [f"d{i} {hexadecimal(word)}" for i, word in enumerate(words)],
        [(f"p{i}", node_of(message, segment, start + data + i)) for i in range(pointers)])


def list_of(message, segment, start, code, size):
    if code == 6:
        children = [(f"i{i}", node_of(message, segment, start + i)) for i in range(size)]
        return Node(f"pointers {size}", [], children)
    if code == 7:
        tag = message[segment][start]
        count, data, pointers = bits(tag, 2, 30), bits(tag, 32, 16), bits(tag, 48, 16)
        step = data + pointers
        children = [
            (f"i{i}", struct_of(message, segment, start + 1 + i * step, data, pointers))
            for i in range(count if step else 0)]
        return Node(f"structs {count} {data} {pointers}", [], children)
    used = BITS[code] * size
    words = message[segment][start:start + (used + 63) // 64]
    values = [bits(word, 0, min(64, used - 64 * i)) for i, word in enumerate(words)]
    return Node(f"list {code} {size}", [f"w{i} {hexadecimal(word)}" for i, word in enumerate(values)])


def text(lines):
    return "".join(line + "\n" for line in lines)


def dump_text(stream, verdicts):
    """What `dump` has to write of a stream whose messages are all accepted, by what `vet` writes of them."""
    trees = (node_of(message, 0, 0).lines("root") for message in messages(stream))
    return "".join(line + text(tree) for line, tree in zip(verdicts.splitlines(keepends=True), trees, strict=True))


def get_text(stream, path):
    """What `get` has to write of one, by the path's text."""
    lines = []
    for number, message in enumerate(messages(stream)):
        node = node_of(message, 0, 0)
        for step in path[1:].split("/") if path != "/" else []:
            node = dict(node.children).get(step) if node else None
        lines += [f"message {number}: found", *node.own_lines("node", 0)] if node else [f"message {number}: none"]
    return text(lines)
