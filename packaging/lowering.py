"""Makes the WebAssembly module that engines run, of the one that the toolchain links. targets.py runs it.

The linked module has 64-bit memory, which few engines have. binaryen's `wasm-opt` lowers it to 32 bits, and leaves sizes and
addresses 64-bit integers, which hosts in JavaScript have to make for each call. So each export gets a function before it that takes
32 bits. What is proved is changed by `wasm-opt` alone, and not here.
"""
import re
import subprocess

# What the module may use: engines have all of it since 2021.
FEATURES = [f"--enable-{it}" for it in ("bulk-memory", "sign-ext", "nontrapping-float-to-int", "mutable-globals")]
EXPORT = re.compile(r'\(export "(\w+)" \((func|global) (\S+)\)\)')
PARAMETER, RESULT = r"\(param \S+ (i32|i64)\)", r"\(result (i32|i64)\)"


def opt(*words):
    return subprocess.run(["wasm-opt", *FEATURES, *words]).returncode == 0


def head(text, inner):
    """The types of the parameters of a function, and that of its result or None."""
    found = re.search(rf"^ \(func {re.escape(inner)}((?: {PARAMETER})*)(?: {RESULT})?$", text, re.M)
    return re.findall(PARAMETER, found[1]), found.groups()[-1]


def function(name, inner, kinds, result):
    """A function of 32-bit numbers that calls an inner one. A result that has more bits becomes the greatest number."""
    given = (f"(i64.extend_i32_u (local.get {i}))" if kind == "i64" else f"(local.get {i})" for i, kind in enumerate(kinds))
    call, most = f"(call {inner} {' '.join(given)})", "(i64.const 0xffffffff)"
    if result == "i64":
        more = f"(select (local.get $it) {most} (i64.lt_u (local.get $it) {most}))"
        call = f"(local $it i64) (local.set $it {call}) (i32.wrap_i64 {more})"
    return f"(func {name} {'(param i32) ' * len(kinds)}{'(result i32) ' if result else ''}{call})"


def narrowed(text):
    """The text of a module whose exports take and give 32-bit numbers."""
    added = []

    def export(found):
        name, kind, inner = found.groups()
        outer = f"$exported_{name}"
        if kind == "func":
            added.append(function(outer, inner, *head(text, inner)))
        else:
            value = re.search(rf"^ \(global {re.escape(inner)} i64 \(i64.const (\d+)\)\)$", text, re.M)[1]
            added.append(f"(global {outer} i32 (i32.const {value}))")
        return f'(export "{name}" ({kind} {outer}))'
    exported = EXPORT.sub(export, text)
    end = exported.rindex(")")
    return exported[:end] + "".join(f" {it}\n" for it in added) + exported[end:]


def lower(linked, scratch, out):
    """Whether the module is made."""
    text = scratch / "lowered.wat"
    if not opt("--enable-memory64", "--memory64-lowering", "-S", linked, "-o", text):
        return False
    text.write_text(narrowed(text.read_text()))
    return opt("-Os", text, "-o", out)
