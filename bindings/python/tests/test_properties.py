"""Cases that hypothesis makes, beside the program."""
import dataclasses
import random

from hypothesis import HealthCheck, given, settings
from hypothesis import strategies as st

import capvet
from support import CASES, LAX, STRICT, changed, framed, lines, made_up, program, samples

SMALL = [message for message in samples() if len(message) < 1000]
WORDS = st.one_of(
    st.integers(0, 2**64 - 1), st.just(0),
    st.builds(lambda kind, offset, low, high: (kind | offset << 2) & 0xFFFFFFFF | low << 32 | high << 48, st.integers(0, 3),
              st.integers(-3, 8), st.integers(0, 9), st.integers(0, 3)))
MESSAGES = st.one_of(
    st.builds(lambda words: framed(*words), st.lists(WORDS, max_size=12)),
    st.builds(lambda seed: made_up(random.Random(seed)), st.integers(0, 2**32)),
    st.builds(lambda message, seed: changed(message, random.Random(seed)), st.sampled_from(SMALL), st.integers(0, 2**32)),
    st.binary(max_size=40))


@settings(max_examples=CASES, deadline=None, derandomize=True, database=None, suppress_health_check=list(HealthCheck))
@given(MESSAGES, st.booleans(), st.booleans())
def test_any_bytes(data, is_strict, is_exclusive):
    options = STRICT * is_strict + ["--exclusive"] * is_exclusive
    text, error, status = program("vet", *options, data=data)
    limits = dataclasses.replace(capvet.Limits() if is_strict else LAX, exclusive=is_exclusive)
    got, reason = lines(capvet.messages(data, limits=limits))
    assert got == text
    assert (reason is None and error == "") or f": {reason}" in error
