#!/usr/bin/env python3
"""Builds the proxy in guard/ and puts it before servers on loopback.

    guard.py [PROGRAM [ARCHIVE]] [--full] [--idle]

It is installed by `make install-guard`. Its Go tests run with the race detector. The commands of docs/guide.md and of the trial in docs/service.md do what these say. The RPC suite of socat_proxy.py runs through it, plain, and by TLS through two of it. Streams
of changed messages have to pass as by `capvet filter --stop`. Then tests/network/guard plays clients and a server: many connections at
once, of which some send a refused message in between, and PROGRAM vets all that arrived. Others send nothing, a byte a second,
or a claim of 64 MiB, or they reset, while descriptors are scarce or none is left. Times are compared with those of the same proxy that vets
nothing.

With --full there are 5,000 connections and 1,000,000 messages, else 500 and 50,000. With --idle the times have to be within
RATES and LATENCY, for which the machine may do nothing else. A line says what isn't tested. The last line is 'N passed, M
failed', and the status is 1 if a case failed.
"""
import itertools
import json
import os
import re
import resource
import shutil
import signal
import socket
import struct
import subprocess
import sys
import tempfile
import time
import urllib.error
import urllib.request
from pathlib import Path

sys.path[1:1] = map(str, Path(__file__).resolve().parents[1].iterdir())

import filter
import install
import socat_proxy
from amount import IS_IDLE, cases
from before_readers import explained
from harness import ARCHIVE, PROGRAM, TOP, compare, ended, run
from needs import GOCODE, missing
from packing import packed
from socat_proxy import CYCLE, EMPTY, SECONDS, all_of, exactly, free_port, is_open, unread, until

# Options that the program's `filter` has too. (--packed is about the client's side alone)
FILTERS = ([], ["--exclusive"], ["--allow-nonstrict", "--allow-amplified"], ["--words", "60", "--depth", "4"], ["--packed"])
# The least part of the rate of a proxy without vetting, by the bytes of a message, and the most microseconds that vetting
# adds to the median of a call of 1 KiB. (Vetting a message of 40 bytes takes more than twice the time of passing it on)
RATES = {40: 0.15, 128: 0.3, 256: 0.4, 1024: 0.5, 65536: 0.8, 1 << 20: 0.8}
LATENCY = 20
# The time that a guard gives its peers, and the server. A busy machine may take longer than it gives them by itself.
PATIENCE = {"--message-timeout": "10m", "--connect-timeout": "10m"}
# What the guard writes at SIGHUP.
READ_AGAIN = '"event":"certificates are read"'
# The memory that docs/service.md gives: for the guard, for each connection, and for messages. The whole may be exceeded by a part.
MEMORY, EXCESS = (64 << 20, 48 << 10, 256 << 20), 1.15


def patient(options):
    """These options of a guard, and those of PATIENCE that aren't among them."""
    return [*options, *(word for it in PATIENCE.items() if it[0] not in options for word in it)]


class Guard:
    """A guard in front of a server, with its metrics. It is used as that of socat_proxy.py."""

    program = None
    options = ()

    def __init__(self, folder, server, *options, files=None, errors="guard-errors"):
        self.port, self.http, self.errors = free_port(), free_port(), folder / errors
        self.errors.unlink(missing_ok=True)
        limit = None if files is None else lambda: resource.setrlimit(resource.RLIMIT_NOFILE, (files, files))
        words = ["--listen", f"127.0.0.1:{self.port}", "--connect", server, "--metrics", f"127.0.0.1:{self.http}",
                 "--log", "json", "--log-rate", "0", *self.options, *patient(options)]
        with open(self.errors, "a") as errors:
            self.ran = subprocess.Popen([self.program, *words], stdin=subprocess.DEVNULL, stdout=errors, stderr=errors,
                                        preexec_fn=limit)

    def __enter__(self):
        # (once it says so, all is started that stays)
        listens = until(lambda: is_open(self.port) and is_open(self.http) and '"event":"listening"' in self.errors.read_text())
        compare("the guard listens", "yes", "yes" if listens else self.errors.read_text())
        self.before = {name: self.value(name) for name in ("go_goroutines", "process_open_fds")}
        return self

    def __exit__(self, *_):
        compare("connections of the guard are over", True, until(lambda: self.connections() == 0))
        compare("bytes of buffers afterwards", 0, self.value("capvet_guard_buffer_bytes"))
        for name, before in self.before.items():
            # (the connection that asks is one more, now and before)
            compare(f"{name} are as before", True, until(lambda: self.value(name) <= before))
        self.ran.send_signal(signal.SIGTERM)
        compare("the status of the guard", 0, self.ran.wait(SECONDS))

    def value(self, name):
        """A metric. It is 0 where nothing was counted."""
        found = re.search(rf"^{re.escape(name)} (\S+)$", self.page(), re.M)
        return float(found[1]) if found else 0

    def page(self):
        """All metrics."""
        with urllib.request.urlopen(f"http://127.0.0.1:{self.http}/metrics", timeout=SECONDS) as page:
            return page.read().decode()

    def connections(self):
        """How many connections have a place."""
        return sum(self.value(f'capvet_guard_connections{{state="{state}"}}') for state in ("greeting", "connecting", "open"))

    def answer(self, path):
        """The status of a page."""
        try:
            return urllib.request.urlopen(f"http://127.0.0.1:{self.http}/{path}", timeout=SECONDS).status
        except urllib.error.HTTPError as answer:
            return answer.code

    def connect(self, host="127.0.0.1"):
        return socket.create_connection(("127.0.0.1", self.port), timeout=SECONDS, source_address=(host, 0))

    def records(self):
        """What was written about messages since the last call. Lines come a little after their connection has ended, and in order: the
        one about a signal is the last."""
        until(lambda: self.connections() == 0)
        self.ran.send_signal(signal.SIGHUP)
        compare("the log goes on", True, until(lambda: READ_AGAIN in self.errors.read_text()))
        lines = [json.loads(line) for line in self.errors.read_text().splitlines()]
        os.truncate(self.errors, 0)
        return [line for line in lines if "direction" in line]

    def lines(self):
        """The same as the program writes it."""
        return lines_of(self.records())

    def memory(self):
        """The most bytes that were resident at one time."""
        return 1024 * int(re.search(r"^VmHWM:\s+(\d+) kB", Path(f"/proc/{self.ran.pid}/status").read_text(), re.M)[1])


def lines_of(records):
    """What the program writes about these messages."""
    return "".join(f"{'' if it['text'].startswith('refused') else 'capvet: '}message {it['message']}: {it['text']}\n"
                   for it in records)


class SecuredGuard(Guard):
    """Two guards, one after the other, with TLS between them, and one certificate that both show."""

    def __init__(self, folder, server, *options):
        self.inner = Guard(folder, server, "--listen-cert", folder / "cert.pem", "--listen-key", folder / "key.pem",
                           "--listen-client-ca", folder / "cert.pem", errors="inner-errors")
        super().__init__(folder, f"127.0.0.1:{self.inner.port}", "--connect-tls", "--connect-ca", folder / "cert.pem",
                         "--connect-cert", folder / "cert.pem", "--connect-key", folder / "key.pem", *options)

    def __enter__(self):
        self.inner.__enter__()
        return super().__enter__()

    def __exit__(self, *words):
        super().__exit__(*words)
        self.inner.__exit__(*words)

    def records(self):
        """Those of both: a refused reply ends at the guard that is next to the server."""
        return super().records() + self.inner.records()


def tested(folder):
    """The guard is formatted, vetted, and passes each of its tests."""
    top = folder / "path/src/capvet.invalid"
    shutil.copytree(TOP / "bindings/go", top / "capvet")
    shutil.copytree(TOP / "guard", top / "guard")
    compare("make install", ("", 0), install.make("install", folder, f"PREFIX={folder / 'x'}"))
    environment = {**os.environ, "GO111MODULE": "off", "GOPATH": f"{folder / 'path'}:{GOCODE.parent}", "GOFLAGS": "",
                   "PKG_CONFIG_PATH": str(folder / "x/lib/pkgconfig")}
    compare("gofmt -l guard", ("", 0), run(["gofmt", "-l", TOP / "guard", TOP / "tests/network/guard"]))
    compare("go vet guard", ("", 0), run(["go", "vet", "."], cwd=top / "guard", env={**environment, "PWD": str(top / "guard")}))
    if not missing("that staticcheck finds nothing in the guard", "go-staticcheck"):
        compare("staticcheck guard", ("", 0), run(["go-staticcheck", "."], cwd=top / "guard", env={**environment, "PWD": str(top / "guard")}))
    strangers = cases(20, 1000)  # clients that show a certificate with a huge key
    text, status = run(["go", "test", "-race", "-count=1", "-timeout", "55m", "-v", ".", "-strangers", str(strangers)], cwd=top / "guard",
                       env={**environment, "PWD": str(top / "guard")})
    compare("go test -race guard", 0, status)
    if status:
        print(text)
    found = re.findall(r"^--- (\w+): (\w+)", text, re.M)
    compare("the guard has tests", True, len(found) > 20)
    for verdict, case in found:
        compare(f"go test -race guard, {case}", "PASS", verdict)


def command_line(program):
    """Help, version, statuses, and that the manual page has the options of the help."""
    text, status = run([program, "--help"])
    options = re.findall(r"^      (--[a-z-]+)", text, re.M)
    compare("the status of --help", 0, status)
    page = (TOP / "docs/capvet-guard.1").read_text().replace("\\-", "-")
    compare("options of the manual page", options, re.findall(r"^\.TP\n\.BI? (--[a-z-]+)", page, re.M))
    version = run([PROGRAM, "--version"])[0].split()[1]
    compare("the version of the guard", (f"capvet-guard {version}\n", 0), run([program, "--version"]))
    both = ["--listen", "127.0.0.1:0", "--connect", "127.0.0.1:1"]
    for words in ([], both[:2], [*both, "--no"], [*both, "x"], ["--listen", "nowhere", *both[2:]], [*both, "--connect", "nowhere"]):
        compare(f"the status of {words}", 2, run([program, *words])[1])
    with socket.create_server(("127.0.0.1", 0)) as taken:
        at = f"127.0.0.1:{taken.getsockname()[1]}"
        for words in (["--listen", at, *both[2:]], [*both, "--metrics", at], [*both, "--listen-cert", "no", "--listen-key", "no"],
                      ["--listen", "systemd", *both[2:]]):
            text, status = run([program, *words])
            compare(f"the status of {words}, {text}", 3, status)


def unit():
    """The unit for systemd leaves the guard few rights: its exposure is below 2."""
    if missing("the exposure of the unit", "systemd-analyze"):
        return
    words = ["systemd-analyze", "security", "--offline=true", "--threshold=20", TOP / "guard/systemd/capvet-guard.service"]
    text, status = run(words)
    compare(f"systemd-analyze security: {text.splitlines()[-1:]}", 0, status)


def signals(folder):
    """The guard drains after SIGTERM, reads certificates after SIGHUP, and takes a socket of systemd."""
    with socat_proxy.Listener() as listener:
        guard = Guard(folder, listener.address)
        with guard:
            guard.ran.send_signal(signal.SIGHUP)
            with guard.connect() as peer, listener.accept() as server:
                peer.sendall(EMPTY)
                compare("a message after SIGHUP", EMPTY, exactly(server, 16))
        for wait, is_cut in (("1h", True), ("1s", False)):
            guard = Guard(folder, listener.address, "--drain-timeout", wait)
            guard.__enter__()
            with guard.connect() as peer, listener.accept() as server:
                guard.ran.send_signal(signal.SIGTERM)
                compare("nobody is accepted after SIGTERM", True, until(lambda: not is_open(guard.port)))
                # (a second signal doesn't wait)
                if is_cut:
                    peer.sendall(EMPTY)
                    compare("a message after SIGTERM", EMPTY, exactly(server, 16))
                    guard.ran.send_signal(signal.SIGTERM)
                compare(f"the end after SIGTERM, {wait}", ((b"", "closed"), 0), (all_of(peer), guard.ran.wait(SECONDS)))
        with socket.create_server(("127.0.0.1", 0)) as opened:
            activated(listener, opened)


def activated(listener, opened):
    """A guard that gets a listening socket as systemd passes it."""
    def pass_on():
        os.dup2(opened.fileno(), 3)
        os.set_inheritable(3, True)

    shell = 'LISTEN_PID=$$ LISTEN_FDS=1 LISTEN_FDNAMES=guard exec "$@"'
    guard = subprocess.Popen(["sh", "-c", shell, "sh", Guard.program, "--listen", "systemd:guard", "--connect", listener.address],
                             preexec_fn=pass_on, close_fds=False, stdin=subprocess.DEVNULL, stderr=subprocess.DEVNULL)
    with socket.create_connection(opened.getsockname(), timeout=SECONDS) as peer, listener.accept() as server:
        peer.sendall(EMPTY + CYCLE)
        compare("a message by a socket of systemd", (EMPTY, "closed"), all_of(server))
    guard.terminate()
    compare("the status of a guard by systemd", 0, guard.wait(SECONDS))


def certificate(folder):
    """A certificate for 127.0.0.1 that signs itself. Whether there is one."""
    if missing("TLS through the guard, RPC", "openssl"):
        return False
    command = ["openssl", "req", "-x509", "-newkey", "ec", "-pkeyopt", "ec_paramgen_curve:P-256", "-nodes", "-days", "2",
               "-subj", "/CN=guard", "-addext", "subjectAltName=IP:127.0.0.1", "-keyout", folder / "key.pem",
               "-out", folder / "cert.pem"]
    compare("openssl req", 0, run(command)[1])
    return True


def as_rpc(folder):
    """The suite of socat_proxy.py, through a guard, and through two with TLS between them."""
    ez = socat_proxy.build(folder)
    for kind in (Guard, *[SecuredGuard] * certificate(folder)):
        socat_proxy.Guard = kind
        with socat_proxy.Listener() as listener, kind(folder, listener.address) as guard:
            for part in (socat_proxy.requests, socat_proxy.replies, socat_proxy.endings, socat_proxy.side_by_side):
                part(guard, listener)
        socat_proxy.without_server(folder)
        if ez is not None:
            socat_proxy.rpc(folder, ez)


def behind_haproxy(folder):
    """HAProxy before two guards, as docs/service.md has it. It passes on addresses, and knows when the server is gone."""
    if missing("HAProxy before the guard", "haproxy"):
        return
    text = re.search(r"```\n(frontend clients\n.*?)```", (TOP / "docs/service.md").read_text(), re.S)[1]
    with socat_proxy.Listener() as listener, Guard(folder, listener.address, "--listen-proxy", errors="one") as one, \
            Guard(folder, listener.address, "--listen-proxy", errors="two") as two:
        at = free_port()
        for old, new in ((":4000", f"127.0.0.1:{at}"), ("4010", one.port), ("4011", two.port), ("4002", one.http), ("4003", two.http)):
            text = text.replace(old, str(new))
        (folder / "haproxy.cfg").write_text(text)
        with open(folder / "haproxy.log", "w") as log, subprocess.Popen(["haproxy", "-f", folder / "haproxy.cfg"], stdout=log, stderr=log) as ran:
            compare("HAProxy listens", True, until(lambda: is_open(at)))
            for host in ("127.0.0.7", "127.0.0.8"):
                with socket.create_connection(("127.0.0.1", at), timeout=SECONDS, source_address=(host, 0)) as peer:
                    peer.sendall(EMPTY + CYCLE)
                    compare("a client by HAProxy ends", (b"", "closed"), all_of(peer))
                compare("the address of a client by HAProxy", True, until(lambda host=host: f'"peer":"{host}:' in one.errors.read_text() + two.errors.read_text()))
            listener.listener.close()
            compare("HAProxy knows that the server is gone", True, until(lambda: "has no server available" in (folder / "haproxy.log").read_text()))
            ran.terminate()


def paths_of(messages, folder, options):
    """For each message the path of its refusal by the program, or None."""
    allowed = {"--allow-nonstrict": "--strict", "--allow-amplified": "--unamplified"}
    words = [word for word in options if word not in (*allowed, "--packed")]
    words += [word for option, word in allowed.items() if option not in options]
    return [text.partition(" path ")[2] or None for text in explained(messages, folder, *words)]


def in_order(records, peers):
    """The records in the order of their connections, whose addresses are `peers`. A connection is closed before its line is written,
    so that of the next one may come first."""
    places = {}
    for at, peer in enumerate(peers):
        places.setdefault(peer, []).append(at)
    # (a later connection may have the same address, and a record of no connection comes last)
    return sorted(records, key=lambda record: (places.get(record["peer"]) or [len(peers)]).pop(0))


def as_filter(folder):
    """Streams of a few changed messages, some of them cut: as many are passed on as by `capvet filter --stop`, as they came. The
    refused one has the path of `capvet explain`."""
    messages, ended = list(filter.changed(cases(2000, 20_000))), 0  # changed messages, of which streams are made
    for options in FILTERS:
        is_packed, paths, expected, peers = "--packed" in options, paths_of(messages, folder, options), [], []
        words = ["--listen-packed" if word == "--packed" else word for word in options]
        with socat_proxy.Listener() as listener, Guard(folder, listener.address, *words) as guard:
            lines = ""
            for at in range(0, len(messages), 25):
                frames = messages[at:at + 1 + at // 25 % 7]
                stream = b"".join(frames)
                given = packed(stream) if is_packed else stream
                given = given[:len(given) - at // 25 % 3]
                out, err, _ = filter.run(["filter", "--stop", *options], given)
                lines += re.sub(r" at byte \d+", "", err.decode())
                count = len(list(filter.cut(out)))
                with guard.connect() as peer, listener.accept() as server:
                    if err:
                        peers.append("%s:%d" % peer.getsockname())
                        expected.append(paths[at + count] if b": refused " in err else None)
                    half = len(given) // 2
                    send_quietly(peer, given[:half])
                    send_quietly(peer, given[half:])
                    peer.shutdown(socket.SHUT_WR)
                    compare(f"messages from {at} {options}", (b"".join(frames[:count]), "closed"), all_of(server))
            said = in_order(guard.records(), peers)
            compare(f"the lines of {options}", lines, lines_of(said))
            compare(f"the paths of {options}", expected, [record.get("path") for record in said])
            ended += len(said)
    compare("some streams are refused", True, ended > len(messages) // 25)


class Listener(socat_proxy.Listener):
    """A server that many may connect to before it accepts."""

    def __init__(self):
        super().__init__()
        self.listener.listen(2000)

    def forget(self):
        """Closes the connections that wait, until none comes for a second."""
        self.listener.settimeout(1)
        try:
            while True:
                self.listener.accept()[0].close()
        except TimeoutError:
            self.listener.settimeout(SECONDS)


def hostile(folder):
    """A good client is served beside peers that hold descriptors, send slowly, claim much, or reset."""
    with Listener() as listener, Guard(folder, listener.address, "--max-per-peer", "400", "--message-timeout", "2s", files=1024) as guard:
        peers = [guard.connect() for _ in range(1100)]
        # (the descriptors allow 496 at a time, and some of the others are there for a moment)
        rejected = [f'capvet_guard_connections_rejected_total{{cause="{cause}"}}' for cause in ("max_per_peer", "max_connections")]
        compare("connections of one peer above its limit", True, until(lambda: sum(map(guard.value, rejected)) == 700))
        compare("idle connections of one peer", True, until(lambda: guard.connections() == 400))
        # (on a busy machine a connection may be accepted before one that was there earlier)
        held = [peer for peer in peers if is_held(peer)]
        compare("connections that are held", 400, len(held))
        served = [listener.accept() for _ in range(400)]
        good(guard, listener, "idle ones")
        for peer in held:
            send_quietly(peer, struct.pack("<II", 0, 1 << 23) + bytes(1000))
        good(guard, listener, "claims of 64 MiB")
        used = guard.memory()
        compare(f"memory for 400 claims: {used}", True, used < EXCESS * (MEMORY[0] + 512 * MEMORY[1]))
        compare("claims end", True, until(lambda: guard.connections() == 0))
        compare("claims in the log", 400, sum(record["event"] == "message_timeout" for record in guard.records()))
        for peer in [*peers, *served]:
            peer.close()
        slow(guard, listener)
        resets(guard, listener)


def without_descriptors(folder):
    """More idle connections than descriptors, under a limit of connections that is higher. The guard keeps some for itself, so that
    the metrics are there all the while, also beside askers that send nothing."""
    with Listener() as listener, Guard(folder, listener.address, "--max-connections", "5000", files=1024) as guard:
        compare("the guard warns", True, until(lambda: "not for --max-connections 5000" in guard.errors.read_text()))
        compare("its limit", 496, guard.value('capvet_guard_limit{limit="max_connections"}'))
        peers = [guard.connect() for _ in range(1100)]
        compare("places that are taken", True, until(lambda: guard.connections() == 496))
        compare("clients that are turned away", True, until(lambda: guard.value('capvet_guard_connections_rejected_total{cause="max_connections"}') == 604))
        askers = [socket.create_connection(("127.0.0.1", guard.http), timeout=SECONDS) for _ in range(300)]
        compare("/health", 200, guard.answer("health"))
        for peer in [*peers, *askers]:
            peer.close()

        def are_left():
            listener.forget()
            return guard.connections() == 0

        compare("places that are left", True, until(are_left))
        compare("no accept fails", False, "too many open files" in guard.errors.read_text())
        good(guard, listener, "more connections than descriptors")


def is_held(peer):
    """Whether the other end has neither sent anything nor ended the connection."""
    peer.setblocking(False)
    try:
        return bool(peer.recv(1))
    except BlockingIOError:
        return True
    except OSError:
        return False
    finally:
        peer.settimeout(SECONDS)


def send_quietly(peer, text):
    try:
        peer.sendall(text)
    except OSError:
        pass


def good(guard, listener, beside):
    """A client at another address sends and gets messages."""
    with guard.connect("127.0.0.9") as peer, listener.accept() as server:
        peer.sendall(EMPTY * 50)
        server.sendall(EMPTY * 50)
        compare(f"a good client beside {beside}", (EMPTY * 50, EMPTY * 50), (exactly(server, 800), exactly(peer, 800)))


def of_the_guide(folder):
    """The commands that docs/guide.md has for a service, at free ports. The dry run passes on the message of a circle too, and the other
    one ends the connection there. Both write its line."""
    recipe = (TOP / "docs/guide.md").read_text().partition("\n## I run a service\n")[2].partition("\n## ")[0]
    found = re.findall(r"^```sh\ncapvet-guard (.*)\n```$", recipe, re.M)
    compare("commands of the guide, and which is a dry run", [True, False], ["--dry-run" in it for it in found])
    for words, arrives in zip(found, (EMPTY + CYCLE, EMPTY)):
        compare(f"the addresses of {words}", (1, 1), (words.count("127.0.0.1:4000"), words.count("127.0.0.1:4001")))
        with Listener() as listener, open(folder / "guide-errors", "w+") as errors:
            port = free_port()
            asked = words.replace("127.0.0.1:4000", f"127.0.0.1:{port}").replace("127.0.0.1:4001", listener.address)
            ran = subprocess.Popen([Guard.program, *asked.split()], stdin=subprocess.DEVNULL, stdout=errors, stderr=errors)
            compare(f"capvet-guard {words} listens", True, until(lambda: is_open(port)))
            with socket.create_connection(("127.0.0.1", port), timeout=SECONDS) as peer, listener.accept() as server:
                peer.sendall(EMPTY + CYCLE)
                peer.shutdown(socket.SHUT_WR)
                got = b"".join(iter(lambda: server.recv(4096), b""))
            compare(f"what passes capvet-guard {words}", arrives, got)
            said = lambda: (folder / "guide-errors").read_text().count(" requests message 1: refused DepthLimit at ")  # noqa: E731
            until(said)
            ran.send_signal(signal.SIGTERM)
            compare(f"the status of capvet-guard {words}", 0, ran.wait(SECONDS))
            compare(f"the line of capvet-guard {words}", 1, said())


def trial(folder):
    """The commands of the trial in docs/service.md, at free ports: the sample comes back, nothing of the circle does, and its line is there."""
    if missing("the trial of docs/service.md", "socat"):
        return
    block = re.search(r"^### A trial\n.*?^```sh\n(.*?)^```$", (TOP / "docs/service.md").read_text(), re.M | re.S)[1]
    ports = [free_port(), free_port()]
    for port, free in zip(("4000", "4001"), ports):
        block = block.replace(f":{port}", f":{free}")
    # (a busy machine may take longer than the seconds of the page)
    compare("seconds of the trial", (1, 2), (block.count("\nsleep 1\n"), block.count("socat -t 1 ")))
    listen = "".join(f"until grep -q ' 0100007F:{port:04X} 00000000:0000 0A ' /proc/net/tcp; do sleep 0.1; done\n" for port in ports)
    block = block.replace("sleep 1\n", listen).replace("socat -t 1 ", f"socat -t {SECONDS // 3} ")
    environment = {**os.environ, "PATH": f"{Guard.program.parent}:{os.environ['PATH']}"}
    with open(folder / "trial-errors", "w+") as errors:
        ran = subprocess.run(["bash", "-c", block], cwd=TOP, env=environment, stdin=subprocess.DEVNULL, stdout=subprocess.PIPE, stderr=errors,
                             text=True, timeout=SECONDS)
        compare("what the trial of docs/service.md prints", ("accepted\n0\n", 0), (ran.stdout, ran.returncode))
        # (the guard may write it a little later)
        said = lambda: (folder / "trial-errors").read_text().count(" requests message 0: refused DepthLimit at ")  # noqa: E731
        until(said)
        compare("the line of the trial", 1, said())


def slow(guard, listener):
    """Peers that send a byte a second are closed after the timeout of a message, though they go on."""
    peers = [guard.connect() for _ in range(100)]
    served = [listener.accept() for _ in peers]
    message = struct.pack("<II", 0, 1000) + bytes(8000)

    def are_closed():
        nonlocal sent
        for peer in peers:
            send_quietly(peer, message[sent:sent + 1])
        sent += 1
        if sent == 2:
            good(guard, listener, "slow ones")
        time.sleep(0.5)
        return sent > 2 and guard.connections() == 0

    sent = 0
    compare("slow peers are closed, though they go on", True, until(are_closed))
    compare("slow peers in the log", 100, sum(record["event"] == "message_timeout" for record in guard.records()))
    for peer in [*peers, *served]:
        peer.close()


def resets(guard, listener):
    """Peers that reset, at either side, end their own connections."""
    for number in range(200):
        with guard.connect() as peer, listener.accept() as server:
            peer.sendall(EMPTY[:number % 17])
            for end in (peer, server)[number % 2:][:1]:
                end.setsockopt(socket.SOL_SOCKET, socket.SO_LINGER, struct.pack("ii", 1, 0))
    good(guard, listener, "resets")


def budget(folder):
    """Peers that send a MiB of a larger message get no more memory than the guard may have. A good client is served beside them."""
    most, part = 32 << 20, struct.pack("<II", 0, 1 << 20) + bytes(1 << 20)
    with Listener() as listener, Guard(folder, listener.address, "--memory", str(most), "--size", str(1 << 20)) as guard:
        peers = [guard.connect() for _ in range(200)]
        served = [listener.accept() for _ in peers]
        for peer in peers:
            send_quietly(peer, part)
        good(guard, listener, "parts of large messages")
        compare("the parts have come", True, until(lambda: unread(guard.port) == 0))
        used, bound = guard.memory(), EXCESS * (MEMORY[0] + 201 * MEMORY[1] + most)
        compare(f"memory for parts of 200 MiB: {used}, at most {bound}", True, used <= bound)
        for peer in [*peers, *served]:
            peer.close()
        ended = [record["event"] for record in guard.records()]
        compare("some have no memory", True, 100 <= ended.count("memory") < 200)
        compare("the others are cut", 200, ended.count("memory") + ended.count("refused"))


def built_load(folder):
    """The program that plays clients and servers."""
    compare("go build of the load", ("", 0), run(["go", "build", "-o", folder / "load", "."], cwd=TOP / "tests/network/guard",
                                                env={**os.environ, "GOFLAGS": "", "GOPROXY": "off"}))
    return folder / "load"


def storm(folder, load):
    """Many connections at once. Nothing is lost, and the program accepts all that arrived."""
    connections = cases(500, 5000)  # connections at once
    messages = cases(100, 200)  # messages on each of them
    refused = len([i for i in range(connections) if i % 7 == 3])
    passed = connections * messages - refused * (messages - messages // 2)
    if missing(f"{connections} connections at once", "descriptors"):
        return
    server = f"127.0.0.1:{free_port()}"
    with Guard(folder, server, "--memory", str(MEMORY[2]), "--max-connections", str(connections)) as guard:
        text, status = run([load, "storm", f"127.0.0.1:{guard.port}", server, str(connections), str(messages), folder / "got"])
        # (messages that arrived; connections of which some were lost, and that got more; replies that were whole)
        compare(f"{connections} connections at once", (f"{passed} 0 0 {connections}\n", 0), (text, status))
        used, bound = guard.memory(), int(EXCESS * (MEMORY[0] + connections * MEMORY[1] + MEMORY[2]))
        compare(f"memory: {used} bytes, at most {bound}", True, used <= bound)
        print(f"{connections} connections and {passed} messages each way: {used >> 20} MiB, bound {bound >> 20} MiB")
        until(lambda: guard.connections() == 0)
        label = 'capvet_guard_refusals_total{direction="requests",reason="DepthLimit"}'
        compare("refused messages", refused, guard.value(label))
        compare("messages that are counted", passed, guard.value('capvet_guard_messages_total{direction="requests"}'))
    with open(folder / "got", "rb") as got:
        ran = subprocess.run([PROGRAM, "vet", "--strict", "--unamplified"], stdin=got, stdout=subprocess.PIPE, timeout=600)
    compare("the program accepts all that arrived", (passed, 0), (ran.stdout.count(b": accepted "), ran.returncode))
    (folder / "got").unlink()


def times(folder, load):
    """Rates and times of calls, beside the same proxy that vets nothing."""
    server = f"127.0.0.1:{free_port()}"
    with Guard(folder, server, "--direction", "none") as none, Guard(folder, server) as both:
        proxies = [f"127.0.0.1:{guard.port}" for guard in (none, both)]
        for way, (size, least) in itertools.product(("requests", "replies"), RATES.items()):
            amount = cases(1 << 27, 1 << 30)  # bytes of each size of a message
            text, status = run([load, "rate", server, way, str(size), str(amount), *proxies])
            compare(f"rates of {way} of {size} bytes", 0, status)
            if status == 0:
                without, vetted = map(float, text.split())
                print(f"{way} of {size} bytes: {without} MB/s without vetting, {vetted} with it: {vetted / without:.2f}")
                if IS_IDLE:
                    compare(f"the rate of {way} of {size} bytes", True, vetted >= least * without)
        text, status = run([load, "latency", server, str(cases(5000, 50000)), server, *proxies])  # calls for a time
        compare("calls of 1 KiB", 0, status)
        if status == 0:
            direct, p_direct, without, p_without, vetted, p_vetted = map(float, text.split())
            print(f"a call of 1 KiB takes {direct} us without a proxy (99 %: {p_direct}), {without} by one that vets nothing "
                  f"({p_without}), {vetted} by the guard ({p_vetted})")
            if IS_IDLE:
                compare("the median of a call", True, vetted - without <= LATENCY)


def main():
    if missing("the guard", "go", "cc", "pkg-config", "go-prometheus", "go-proxyproto", "go-systemd"):
        return ended()
    with tempfile.TemporaryDirectory() as scratch:
        folder = Path(scratch)
        built, prefix = folder / "capvet-guard", folder / "prefix"
        Guard.program = prefix / "bin/capvet-guard"
        compare("make install-guard", ("", 0), run(["make", "-s", "install-guard", f"BUILT_GUARD={built}", f"BUILT_ARCHIVE={ARCHIVE}",
                                                    f"PREFIX={prefix}", "-o", ARCHIVE], cwd=TOP))
        compare("the guard that is installed", built.read_bytes(), Guard.program.read_bytes())
        command_line(Guard.program)
        unit()
        tested(folder)
        signals(folder)
        of_the_guide(folder)
        trial(folder)
        as_rpc(folder)
        behind_haproxy(folder)
        as_filter(folder)
        hostile(folder)
        without_descriptors(folder)
        budget(folder)
        load = built_load(folder)
        storm(folder, load)
        times(folder, load)
    return ended()


if __name__ == "__main__":
    sys.exit(main())
