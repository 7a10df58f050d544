"""Writes a JSON object for each message of a file, as say.c does, by the package capvet.

    say.py FILE WORDS CHARGE DEPTH FLAGS EXCLUSIVE
"""
import json
import sys
import zlib

import capvet

NUMBERS = {"required": "required", "segments": "segments", "words": "words", "trailing": "trailing_bytes"}


def broken(error):
    numbers = {member: getattr(error, field) for field, member in NUMBERS.items() if getattr(error, field) is not None}
    return {"verdict": "broken", "reason": error.reason, **numbers}


def refused(it):
    about = {"length": it.length, "verdict": "refused", "reason": it.reason}
    if it.pointer is not None:
        about |= {"segment": it.position.segment, "word": it.position.word, "pointer": it.pointer, "path": it.path}
    # (the package finds one for other reasons too)
    if it.reason == "Overlap" and it.earlier_path is not None:
        about["earlier_path"] = it.earlier_path
    return {**about, "explain": it.explain()}


def differing(it):
    if it is None:
        return {}
    path = {} if it.path is None else {"path": it.path}
    return {"difference": {"reason": it.reason, "segment": it.position.segment, "word": it.position.word, "pointers": it.pointers, **path}}


def accepted(message):
    it = message.report
    about = {"length": it.length, "verdict": "accepted", "segments": it.segments, "words": it.words, "charge": it.charge,
             "depth": it.depth, "pointers": it.pointers, "capabilities": it.capabilities}
    try:
        about["canonical"] = zlib.adler32(message.canonical())
    except capvet.CapabilityError:
        pass
    return {**about, "is_canonical": message.is_canonical(), **differing(message.first_difference())}


def said(data, limits):
    try:
        return accepted(capvet.vet(data, limits=limits))
    except capvet.Refusal as refusal:
        return refused(refusal)
    except capvet.FrameError as error:
        return broken(error)


def main(name, *numbers):
    words, charge, depth, flags, exclusive = map(int, numbers)
    limits = capvet.Limits(message_words=words, charge=charge, depth=depth, allow_nonstrict=flags & 1 != 0,
                           allow_amplified=flags & 2 != 0, exclusive=exclusive == 1)
    with open(name, "rb") as file:
        number = 0
        while head := file.read(4):
            data = file.read(int.from_bytes(head, "little"))
            print(json.dumps({"message": number, **said(data, limits)}, separators=(",", ":")))
            number += 1


main(*sys.argv[1:])
