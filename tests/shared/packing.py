"""Packs words as the encoding specification and Cap'n Proto's own packer do."""


def packed(stream):
    """The packed encoding of a stream of words, as one text."""
    words = [stream[at:at + 8] for at in range(0, len(stream), 8)]
    text, at = bytearray(), 0
    while at < len(words):
        first = words[at]
        tag = sum((byte != 0) << place for place, byte in enumerate(first))
        text += bytes([tag]) + first.replace(b"\0", b"")
        at += 1
        if tag in (0x00, 0xff):
            # (zero words, or words with one zero byte at most)
            start, zeros = at, range(8, 9) if tag == 0 else range(2)
            while at < len(words) and at - start < 255 and words[at].count(0) in zeros:
                at += 1
            text += bytes([at - start]) + (b"".join(words[start:at]) if tag else b"")
    return bytes(text)
