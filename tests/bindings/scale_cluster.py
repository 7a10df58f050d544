"""Runs examples/python/vet_archive.py on clusters of this machine, for tests/bindings/scale.py, which gives it a Python that has Dask.

    scale_cluster.py kill|time FILE..
    scale_cluster.py beside FILE..

Prints the summaries as JSON: of two workers, of which one is killed halfway. With `time` also of one worker and of two in turn,
with the seconds of each run. With `beside` it prints the wall and processor seconds of two processes of `python -m capvet vet` and of
two workers that have started, in turn.
"""
import json
import os
import signal
import subprocess
import sys
import time
from contextlib import ExitStack
from tempfile import TemporaryDirectory

import capvet
import vet_archive
from distributed import Client, LocalCluster

# The bytes of a range: the default where runs are timed, and otherwise few, so that a worker dies among many ranges.
BYTES = {"time": 16 << 20, "kill": 1 << 20}
ROUNDS = 3
BESIDE = 5
# What `python -m capvet vet -j 2 --strict --unamplified --csv` does after its start. It prints the wall and processor seconds.
BY_PROCESSES = """import os, sys, time
import capvet
from capvet.vetting import Files, How, Tally
names = sys.stdin.read().split("\\0")
begin, used = time.monotonic(), sum(os.times()[:4])
tally = Tally()
with open(os.devnull, "w") as rows, Files(names, 2, How(False, capvet.Limits(), "csv")) as files:
    for part in files:
        rows.write(part.rows)
        tally.add(part.tally)
print(time.monotonic() - begin, sum(os.times()[:4]) - used)
"""


class Killer(vet_archive.Progress):
    """Kills a process when half of the parts are done."""

    def __init__(self, process):
        super().__init__()
        self.process, self.killed, self.said = process, False, ""

    def show(self, done, total):
        if not self.killed and 2 * done >= total:
            os.kill(self.process, signal.SIGKILL)
            self.killed = True

    def say(self, text):
        self.said += text


def summary(client, files, most, progress):
    """The summary, and the seconds that it took."""
    begin, how = time.monotonic(), vet_archive.How(False, capvet.Limits(), None, most)
    with ExitStack() as stack:
        journal = vet_archive.Journal(None, None, False, how, list(files), stack)
        vet_archive.Run(client, how, journal, progress).vet(list(files))
    return vet_archive.summary(len(files), journal.counts), time.monotonic() - begin


def used():
    """The processor seconds of this process, or of a worker."""
    return sum(os.times()[:2])


def by_workers(client, files, folder):
    """The wall and processor seconds of the example over workers that have started."""
    before, how = used() + sum(client.run(used).values()), vet_archive.How(False, capvet.Limits(), None, BYTES["time"])
    begin = time.monotonic()
    with ExitStack() as stack:
        journal = vet_archive.Journal(f"{folder}/rows", f"{folder}/log", False, how, files, stack)
        vet_archive.Run(client, how, journal, vet_archive.Progress()).vet(files)
    wall = time.monotonic() - begin
    return wall, used() + sum(client.run(used).values()) - before


def by_processes(files):
    """The same by `python -m capvet vet -j 2`."""
    ran = subprocess.run([sys.executable, "-c", BY_PROCESSES], input="\0".join(files), stdout=subprocess.PIPE, text=True, check=True)
    return tuple(map(float, ran.stdout.split()))


def beside(files, quiet):
    """The seconds of both in turn. The first round is not counted."""
    with LocalCluster(n_workers=2, **quiet) as cluster, Client(cluster) as client, TemporaryDirectory() as folder:
        client.wait_for_workers(2)
        rounds = [(by_processes(files), by_workers(client, files, folder)) for _ in range(1 + BESIDE)]
    return dict(zip(("processes", "workers"), zip(*rounds[1:])))


def main(how, *files):
    summaries, seconds = {}, {"1": [], "2": []}
    quiet = {"threads_per_worker": 1, "dashboard_address": "127.0.0.1:0", "silence_logs": 50}
    if how == "beside":
        json.dump(beside(list(files), quiet), sys.stdout)
        return
    with LocalCluster(n_workers=2, **quiet) as cluster, Client(cluster) as client:
        watch = Killer(list(client.run(os.getpid).values())[0])
        summaries["a worker killed"], _ = summary(client, files, BYTES["kill"], watch)
    for workers in ("1", "2") * ROUNDS if how == "time" else ():
        with LocalCluster(n_workers=int(workers), **quiet) as cluster, Client(cluster) as client:
            client.wait_for_workers(int(workers))
            summaries[f"{workers} of two workers"], took = summary(client, files, BYTES["time"], vet_archive.Progress())
            seconds[workers].append(took)
    json.dump({"summaries": summaries, "seconds": seconds, "killed": watch.killed, "said": watch.said}, sys.stdout)


if __name__ == "__main__":
    main(*sys.argv[1:])
