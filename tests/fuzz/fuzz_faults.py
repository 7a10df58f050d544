"""Faults that are put into a copy of what isn't proved, one at a time. The target that is named has to find each of them, from the
corpus on, within MOST seconds. `fuzz.py --faults` does it."""
import tempfile
import time
from dataclasses import dataclass
from pathlib import Path

from fuzz_targets import Tree
from harness import TOP, compare, ended

MOST = 600


@dataclass(frozen=True)
class Fault:
    """In this file the first text becomes the second."""
    target: str
    what: str
    file: str
    old: str
    new: str


def of_call(what, call, parameters, after, before=""):
    """A fault of a call of the archive, which is proved: lines before or after the call, in a function in its place."""
    names = ", ".join(word.split()[-1].lstrip("*") for word in parameters.split(","))
    body = f"""#include "fuzz.h"

static capvet_answer faulty({parameters}) {{
  {before}
  const capvet_answer answer = {call}({names});
  {after}
  return answer;
}}
#define {call} faulty
"""
    return Fault("calls", what, "tests/fuzz/calls.c", '#include "fuzz.h"\n', body)


MESSAGE = "const uint8_t *bytes, size_t length, const capvet_limits *limits, "
FAULTS = (
    of_call("capvet_canonical writes a byte after its result", "capvet_canonical",
            MESSAGE + "uint8_t *out, size_t out_size, size_t *required, capvet_report *report",
            "if (answer == CAPVET_OK && *required >= 64 && out_size > *required) out[*required] = 0;"),
    of_call("capvet_vet allows a level too many", "capvet_vet", MESSAGE + "capvet_report *report", "",
            "capvet_limits more = *limits; more.depth += more.depth > 2 && more.depth < CAPVET_MAX_DEPTH; limits = &more;"),
    of_call("capvet_get_range gives a node twice", "capvet_get_range",
            MESSAGE + "const capvet_step *steps, size_t step_count, size_t varying, capvet_node *nodes, size_t node_count, "
            "size_t *found, capvet_report *report", "if (*found > 3) nodes[3] = nodes[2];"),
    of_call("capvet_unpack_message loses the rest of a run", "capvet_unpack_message",
            MESSAGE + "uint8_t *out, size_t out_size, capvet_unpacking *state, size_t *consumed, size_t *required, "
            "capvet_report *report",
            "if (answer == CAPVET_TRUNCATED && state->literal_words == 2) state->literal_words = 1;"),
    Fault("vetted", "the limit of levels for libcapnp is too low", "include/capvet/kj-message.h",
          "capvet_reader_nesting(&report)", "report.depth"),
    Fault("vetted", "the limit of words for libcapnp is that of one reading", "include/capvet/kj-message.h",
          "capvet_reader_words(&report, readings)", "capvet_reader_words(&report, 1)"),
    Fault("vetted", "the copy of unaligned bytes is a word short", "include/capvet/kj-message.h",
          "bytes, length * sizeof(capnp::word));", "bytes, (length - 1) * sizeof(capnp::word));"),
    Fault("streams", "a read may go on after the buffer", "include/capvet/kj-stream.h", "CAPACITY - start_ - held_", "CAPACITY - held_"),
    Fault("streams", "a message is not moved to the start of the buffer", "include/capvet/kj-stream.h", "start_ + required <= CAPACITY",
          "required <= CAPACITY"),
    Fault("streams", "the segments of a large message have no verdict", "include/capvet/kj-stream.h",
          "&options_.limits, &report_) == CAPVET_OK;", "&options_.limits, &report_) != CAPVET_BAD_LIMITS;"),
    Fault("streams", "a late peer is taken for one that has ended", "include/capvet/kj-stream.h", "isLate_ = true;", ""),
    Fault("server", "an address may have a connection too many", "include/capvet/kj-server.h",
          "open >= options_.connectionsOfAddress", "open > options_.connectionsOfAddress"),
    Fault("server", "an address is forgotten while it has connections", "include/capvet/kj-server.h",
          "if (--server.open_[host] == 0) server", "--server.open_[host];\n      server"),
    Fault("server", "an accept that throws ends the server", "include/capvet/kj-server.h",
          "kj::evalNow([&]() { return listener.accept(); })", "listener.accept()"),
    Fault("server", "the calls of a connection have no limit", "include/capvet/kj-server.h",
          "rpc.setFlowLimit(owner.options_.callWords);", ""),
    Fault("server", "a peer has no deadline", "include/capvet/kj-server.h", "options_(options),",
          "options_([&options]() { auto it = options; it.deadline = 1000 * kj::DAYS; return it; }()),"),
    Fault("host", "an argument that just doesn't fit is written past the buffer", "packaging/host.c", "if (length == capacity)",
          "if (length > capacity)"),
    Fault("host", "a block loses its bytes", "packaging/host.c", "tried(realloc(p, size != 0 ? size : alignment))",
          "tried(malloc(size != 0 ? size : alignment))"),
    Fault("rust", "the bytes of a node have a byte too many", "rust/capvet/src/node.rs", "&bytes[offset..offset + length]",
          "&bytes[offset..offset + length + usize::from(length > 8)]"),
    Fault("rust", "a block of nodes begins with the last node again", "rust/capvet/src/nodes.rs", "            self.more,\n",
          "            self.more - u32::from(self.more >= 8),\n"),
    Fault("rust", "the limit of words for the crate capnp is too low", "rust/capvet/src/report.rs",
          "self.words.max(3 * self.charge + 2)", "self.words.max(self.charge)"),
    Fault("rust", "a feed loses a byte", "rust/capvet/src/feed.rs", "self.start += length;", "self.start += length + length / 99;"),
    Fault("rust", "a reader passes on a refused message", "rust/capvet/src/reading.rs",
          "self.end = Some(End::Refused(refused));\n                Err(error)",
          "self.message = refused.unvetted.clone();\n                self.end = Some(End::Refused(refused));\n                Err(error)"),
    Fault("rust", "a packed stream loses a byte", "rust/capvet/src/unpacking.rs", "&packed[done.consumed..]",
          "&packed[(done.consumed + usize::from(done.consumed == 9)).min(packed.len())..]"),
    Fault("rust", "the buffer of an explanation is too small", "rust/capvet/src/calls.rs", "EXPLANATION_BOUND: usize = 6144",
          "EXPLANATION_BOUND: usize = 512"),
    Fault("go-calls", "a result may overwrite the message", "bindings/go/capvet.go", "&& !overlap(dst[len(dst):cap(dst)], b)",
          ""),
    Fault("go-calls", "a range begins one too late", "bindings/go/nodes.go", "number: C.uint32_t(first)}",
          "number: C.uint32_t(first + first/3)}"),
    Fault("go-calls", "an explanation is by the default limits", "bindings/go/explain.go", "e.limits.raw(whole)",
          "(*Limits)(nil).raw(whole)"),
    Fault("go-scanner", "a buffer is not given back", "bindings/go/scanner.go", "s.change(-cap(s.buffer))",
          "s.change(-len(s.buffer))"),
    Fault("go-scanner", "a scanner reads past the frame", "bindings/go/scanner.go", "if end > required {", "if end > required+step {"),
    Fault("go-pump", "bytes that were passed on are held again", "guard/buffer.go", "copy(b.bytes, b.bytes[n:b.length])",
          "copy(b.bytes, b.bytes[n:])"),
    Fault("go-pump", "the place after a message is wrong", "guard/pump.go", "f.offset+int64(length)",
          "f.offset+int64(length)&^1024"),
    Fault("go-greeting", "a byte after the header is lost", "guard/proxy.go", "reader.Buffered() == 0 {\n\t\treturn conn",
          "reader.Buffered() <= 1 {\n\t\treturn conn"),
    Fault("go-greeting", "addresses of two families are sent as they are", "guard/guard.go", "headerOf(g.options.sendProxy, ",
          "proxyproto.HeaderProxyFromAddrs(byte(g.options.sendProxy), "),
    Fault("go-serve", "an address is counted after its connections", "guard/peers.go", "if it.count--; it.isIdle() {",
          "if it.count--; it.isIdle() && false {"),
    Fault("go-serve", "the bytes after a header are lost", "guard/guard.go", "c.conn, header, err = introduced(c.conn)",
          "_, header, err = introduced(c.conn)"),
    Fault("go-run", "a socket that is served is replaced", "guard/address.go", "return conn.Close()",
          "conn.Close()\n\t\treturn os.Remove(path)"),
    Fault("go-run", "a server may have any name", "guard/certificates.go", "DNSName: v.host, ", ""),
    Fault("go-run", "a second signal is not waited for", "guard/main.go", "g.drain(g.options.drainTimeout, again)",
          "g.drain(g.options.drainTimeout, nil)"),
    Fault("go-options", "a size has no bound", "guard/options.go", "if errors.As(err, &limits) {", "if errors.As(err, &limits) && false {"),
    Fault("python", "the bound of packing is too low", "bindings/python/capvet/calls.py", "size = len(view) // 8 * 10",
          "size = len(view) // 8 * 9"),
    Fault("python", "a stream may end after a byte", "bindings/python/capvet/frames.py", "len(self._data) > self._at",
          "len(self._data) > self._at + 1"),
    Fault("python", "the tree takes the padding of a list for its values", "bindings/python/capvet/walking.py",
          "[:size - 8 * at]", "[:size + size % 8 - 8 * at]"),
    Fault("python", "a process that is killed costs all its files", "bindings/python/capvet/vetting.py",
          "name, names = names[0], names[1:]", "name, names = names[0], []"),
    Fault("python", "a long explanation is cut", "bindings/python/capvet/errors.py", "ffi.buffer(text, required[0])",
          "ffi.buffer(text, min(required[0], 400))"),
    Fault("js", "a message at the limit of words is cut", "bindings/js/src/calls.js", "frameLength(input, limits.messageWords)",
          "Math.min(frameLength(input, limits.messageWords), 8 * limits.messageWords)"),
    Fault("js", "a buffer that grows loses a word", "bindings/js/src/feed.js", "larger.set(this.bytes.subarray(0, this.length));",
          "larger.set(this.bytes.subarray(0, this.length - 8));"),
    Fault("js", "the rest of a run of words is lost", "bindings/js/src/feed.js",
          "this.literalWords = view.getUint32(STATE + 12, true);", "this.literalWords = 0;"),
    Fault("js", "nodes are read of other bytes after another call", "bindings/js/src/nodes.js", "if (own !== generation) {",
          "if (own < 0) {"),
)


def find_one(target, fault):
    """A case: the fault is found in time. The search begins with the corpus alone."""
    with tempfile.TemporaryDirectory() as folder:
        tree = Tree(Path(folder) / "tree")
        path = tree.top / fault.file
        text = path.read_text()
        path.write_text(text.replace(fault.old, fault.new, 1))
        compare(f"{target.name} is built with '{fault.what}'", "", target.build(tree))
        begin = time.monotonic()
        result = target.search(tree, Path(folder) / "kept" / target.name, MOST)
        took = time.monotonic() - begin
    compare(f"{target.name} finds '{fault.what}'", True, result.finding != "" and took < MOST)
    print(f"fuzz: {target.name}: {fault.what}: {took:.0f} seconds, {result.runs} runs: {result.finding or 'not found'}", flush=True)


def displaced():
    """The faults whose text isn't in their file any more."""
    return [fault.what for fault in FAULTS if fault.old not in (TOP / fault.file).read_text()]


def find(targets):
    compare("each fault has its place", [], displaced())
    for target in targets:
        for fault in FAULTS:
            if fault.target == target.name:
                find_one(target, fault)
    return ended()
