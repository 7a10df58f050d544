"""Memory and threads."""
import os
import resource
import sys
import threading
import time

import pytest

import capvet
from support import framed, samples


EXCLUSIVE = capvet.Limits(exclusive=True)


def resident():
    with open("/proc/self/statm") as file:
        return int(file.read().split()[1]) * resource.getpagesize()


def test_no_leak():
    count = int(os.environ.get("CAPVET_CALLS", "100000")) // 8
    message, cycle, packed = samples()[0], b"\0\0\0\0\1\0\0\0\xfc\xff\xff\xff\0\0\1\0", capvet.pack_words(samples()[0])

    def calls(times):
        for _ in range(times):
            capvet.vet(message)
            vetted = capvet.vet(message, limits=EXCLUSIVE)
            vetted.canonical()
            vetted.get("/p0/i1/p4")
            list(vetted.get_range("/p0/i*/p4"))
            capvet.vet_all(message)[0].report
            capvet.frame(message)
            capvet.unpack_words(packed)
            list(capvet.messages(message))
            try:
                capvet.vet(cycle)
            except capvet.Refusal:
                pass

    calls(2000)
    before = resident()
    calls(count)
    assert resident() - before < 4 << 20


# (a list of two million pointers, each to a struct without words)
LONG = framed(1 | 6 << 32 | (1 << 21) << 35, *[0xFFFFFFFC] * (1 << 21))


def vets():
    for _ in range(8):
        capvet.vet(LONG)


@pytest.fixture
def no_interruptions():
    """A thread runs until it waits or lets others run: Python interrupts none."""
    interval = sys.getswitchinterval()
    sys.setswitchinterval(600)
    yield
    sys.setswitchinterval(interval)


def lets_others_run(call, tries):
    """Whether this thread runs during a call of another one, in one of so many tries."""
    def work():
        steps.append("begun")
        call()
        steps.append("ended")

    for _ in range(tries):
        steps = []
        thread = threading.Thread(target=work)
        thread.start()
        while not steps:
            time.sleep(0)
        seen = len(steps)
        thread.join()
        if seen == 1:
            return True
    return False


def test_the_lock_is_released(no_interruptions):
    # (one try is enough, but a busy machine may not run this thread in time)
    assert lets_others_run(lambda: capvet.vet(LONG), 10_000)
    # (a call that keeps the lock is found out)
    assert not lets_others_run(lambda: sum(range(1000)), 100)


def least(call):
    """The least seconds of processor time of a call, of ten."""
    times = []
    for _ in range(10):
        begin = time.process_time()
        call()
        times.append(time.process_time() - begin)
    return min(times)


@pytest.mark.skipif("CAPVET_IDLE" not in os.environ, reason="the time for a small message needs an idle machine")
def test_many_small_messages(tmp_path):
    count, file = 20_000, tmp_path / "messages"
    # (96 bytes: a struct of eight data words and two null pointers)
    data = framed(8 << 32 | 2 << 48, *[7] * 8, 0, 0) * count
    file.write_bytes(data)

    def read():
        with open(file, "rb") as stream:
            for _ in capvet.read_messages(stream):
                pass

    at_once, one_by_one, read_from_file = (least(call) / count * 1e6 for call in (
        lambda: capvet.vet_all(data), lambda: [None for _ in capvet.messages(data)], read))
    print(f"python: us for a message of 96 bytes: vet_all {at_once:.2f}, messages {one_by_one:.2f}, read_messages {read_from_file:.2f}")
    assert at_once <= 0.5 and read_from_file <= 3 * one_by_one


@pytest.mark.skipif("CAPVET_IDLE" not in os.environ, reason="the ratio of times needs an idle machine")
def test_two_threads_at_once():
    ratios = []
    for _ in range(10):
        begin = time.perf_counter()
        vets(), vets()
        middle = time.perf_counter()
        threads = [threading.Thread(target=vets) for _ in range(2)]
        [thread.start() for thread in threads]
        [thread.join() for thread in threads]
        ratios.append((time.perf_counter() - middle) / (middle - begin))
    print("two threads at once take", min(ratios), "of the time of one after the other")
    assert min(ratios) <= 0.6, ratios
