"""The package for JavaScript in headless Chromium. tests/bindings/js.py runs it.

A page has the package, and a worker its inlined form. Both ask a server on this machine for requests, and send their answers.
Another page has the inlined form under a policy without any connection. It reports by the address of a picture."""
import base64
import json
import subprocess
from http.server import BaseHTTPRequestHandler, ThreadingHTTPServer
from pathlib import Path
from threading import Event, Lock, Thread

from harness import TOP, compare
from js_requests import HERE, requests, same

PAGES = {
    "/": """<!doctype html><link rel="icon" href="data:,"><script type="module" src="/main.mjs"></script>""",
    "/main.mjs": """import * as capvet from "/capvet/capvet.js";
import { answerServer } from "/page.mjs";
addEventListener("unhandledrejection", ({ reason }) => fetch("/error", { method: "POST", body: String(reason?.stack ?? reason) }));
const worker = new Worker("/worker.mjs", { type: "module" });
worker.addEventListener("message", ({ data }) => fetch("/error", { method: "POST", body: data }));
await answerServer("page", capvet);
""",
    "/worker.mjs": """import * as capvet from "/capvet/capvet-inlined.js";
import { answerServer } from "/page.mjs";
answerServer("worker", capvet).catch((error) => postMessage(String(error.stack)));
""",
    "/strict": """<!doctype html><link rel="icon" href="data:,"><script type="module" src="/strict.mjs"></script>""",
    "/strict.mjs": """import { vet } from "/capvet/capvet-inlined.js";
new Image().src = `/charge/${vet(Uint8Array.from(atob("%s"), (letter) => letter.charCodeAt(0))).report.charge}`;
""" % base64.b64encode((TOP / "examples/contacts.bin").read_bytes()).decode(),
}
POLICIES = {"/": "default-src 'none'; script-src 'self' 'wasm-unsafe-eval'; connect-src 'self'; img-src data:",
            "/worker.mjs": "default-src 'none'; script-src 'self' 'wasm-unsafe-eval'; connect-src 'self'",
            "/strict": "default-src 'none'; script-src 'self' 'wasm-unsafe-eval'; img-src 'self' data:"}
CLIENTS = ("page", "worker")


class Asked:
    """The requests that the page and its worker ask for, each until both have answered."""

    def __init__(self, made):
        self.made, self.kept, self.count, self.answers, self.lock = made, {}, 0, 0, Lock()
        self.ended = {name: Event() for name in (*CLIENTS, "strict")}

    def get(self, number):
        """The request of this number, or None after the last one."""
        with self.lock:
            while self.count <= number and (it := next(self.made, None)) is not None:
                self.kept[self.count] = it, set()
                self.count += 1
            return self.kept[number][0] if number in self.kept else None

    def comes_to_the_end(self, client):
        """Whether a client has answered all. Without any answer it ends after ten minutes at most, since a browser may be stuck."""
        before = None
        while not (ended := self.ended[client].wait(300)) and self.answers != before:
            before = self.answers
        return ended

    def answered(self, client, number, got):
        with self.lock:
            it, answered = self.kept[number]
            same(f"in Chromium, by the {client}", it, got)
            answered.add(client)
            self.answers += 1
            if len(answered) == len(CLIENTS):
                del self.kept[number]


class Handler(BaseHTTPRequestHandler):
    """What the server answers. `server` has the folder of the package and what is asked."""

    def file(self):
        kind, _, rest = self.path[1:].partition("/")
        if self.path in PAGES:
            return PAGES[self.path].encode()
        if kind == "capvet" and ".." not in rest:
            return (self.server.where / rest).read_bytes()
        if self.path in ("/answers.mjs", "/page.mjs"):
            return (HERE / self.path[1:]).read_bytes()
        it = self.server.asked.get(int(rest)) if kind in ("request", "stream") else None
        return it and (json.dumps(it.asked).encode() if kind == "request" else it.stream)

    def do_GET(self):
        if self.path.startswith("/charge/"):
            compare("the inlined form under a strict policy", "/charge/391", self.path)
            self.server.asked.ended["strict"].set()
        body = self.file()
        self.send_response(404 if body is None else 200)
        kinds = {".js": "text/javascript", ".mjs": "text/javascript", "": "text/html"}
        self.send_header("Content-Type", kinds.get(Path(self.path).suffix, "application/octet-stream"))
        if self.path in POLICIES:
            self.send_header("Content-Security-Policy", POLICIES[self.path])
        self.end_headers()
        self.wfile.write(body or b"")

    def do_POST(self):
        client, _, number = self.path[1:].partition("/")
        got, asked = self.rfile.read(int(self.headers["Content-Length"])), self.server.asked
        if client == "error":
            compare("the page has no error", "", got.decode())
        elif number == "end":
            compare(f"the {client} answered all", str(asked.count), got.decode())
            asked.ended[client].set()
        else:
            asked.answered(client, int(number), got)
        self.send_response(204)
        self.end_headers()

    def log_message(self, *_):
        pass


class Server(ThreadingHTTPServer):
    def __init__(self, where, asked):
        super().__init__(("127.0.0.1", 0), Handler)
        self.where, self.asked = where, asked


def in_chromium(folder, where, texts):
    """Each request, answered by a page with the package and by a worker with its inlined form."""
    asked = Asked(requests(texts))
    words = ["chromium", "--headless", "--no-sandbox", "--disable-gpu", "--remote-debugging-port=0"]
    with Server(where, asked) as server:
        Thread(target=server.serve_forever, daemon=True).start()
        for number, (page, names) in enumerate((("/strict", ("strict",)), ("/", CLIENTS))):
            command = [*words, f"--user-data-dir={folder}/profile{number}", f"http://127.0.0.1:{server.server_port}{page}"]
            with subprocess.Popen(command, stdout=subprocess.DEVNULL, stderr=subprocess.DEVNULL) as browser:
                for name in names:
                    compare(f"Chromium came to the end of {name}", True, asked.comes_to_the_end(name))
                browser.terminate()
        server.shutdown()
