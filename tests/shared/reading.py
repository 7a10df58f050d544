"""Makes of a page a script of bash that does what its reader does, word for word, and compares what the script writes.

In order: a block of `sh` is run, and has to succeed. Of a block of `console` each line '$ COMMAND' is run, and has to print what the
page shows after it. A program in C is saved under the name in its first line and built by `pkg-config`. One in Go is saved as
`main.go`, and one in Python is run. One in JavaScript is saved as `vet.mjs` and run over a sample, and has to print what a block
without a language shows after it. All run in one shell, so that a `cd` or an `export` stays. Other blocks are left out, and so are
those with words of UNTRIED.
"""
import re

BLOCK = re.compile(r"^```(\w*)\n(.*?)^```$", re.M | re.S)
# Commands that wait for peers, need rights, or take packages from a network, and a header for servers of pages. Roots have no openssl:
# pages.py runs these commands. Debian has no pycapnp: python.py runs that program with a stand-in.
UNTRIED = ("openssl pkey", "rpc-guard.sh 4000", "--listen", "nc -l", "-S \"$HOSTS\"", "sudo ", "docker ", "Content-Security-Policy", "import capnp\n")
# The first line of a program in C.
PROGRAM = re.compile(r"/\* (\w+\.c): ")
MARK = "@@ step"


def commands(block):
    """The commands of a block, each with its output."""
    return re.findall(r"^\$ (.*)\n((?:(?!\$ ).*\n)*)", block, re.M)


def saved(name, text):
    return f"cat > {name} <<'END-OF-PROGRAM'\n{text}END-OF-PROGRAM"


def steps(page, python):
    """What a page asks to do: the name of each step, its commands, and the output that it has to have, or None."""
    blocks = [(language, block) for language, block in BLOCK.findall(page) if not any(word in block for word in UNTRIED)]
    programs = {name[1]: block for language, block in blocks if language == "c" and (name := PROGRAM.match(block))}
    for name, block in programs.items():
        yield f"save {name}", saved(name, block), ""
    for (language, block), (after, shown) in zip(blocks, [*blocks[1:], ("", None)]):
        if language == "sh":
            yield block.strip(), block.strip(), None
        elif language == "console":
            yield from ((command, command, expected) for command, expected in commands(block))
        elif language == "c" and (name := PROGRAM.match(block)):
            yield f"cc {name[1]}", f"cc {name[1]} $(pkg-config --cflags --libs capvet) -o {name[1][:-2]}", ""
        elif language == "go" and block.startswith("// Command"):
            yield "save main.go", saved("main.go", block), ""
        elif language == "python" and block.startswith(("import ", "from ")):
            yield f"a program in Python: {block[:60]!r}", f"{python} - <<'END-OF-PROGRAM'\n{block}END-OF-PROGRAM", None
        elif language == "js":
            run = f"{saved('vet.mjs', block)}\nnode vet.mjs ../examples/contacts.bin"
            yield f"a program in JavaScript: {block[:60]!r}", run, shown if after == "" else None


def script(page, python="python3"):
    """The script for a page."""
    parts = [f"echo '{MARK}'\n{{ {commands}\n}} 2>&1\necho \"{MARK} $?\"\n" for _, commands, _ in steps(page, python)]
    return "export LC_ALL=C.UTF-8\n" + "".join(parts)


def read(name, page, text, compare, python="python3"):
    """Compares what the script for a page wrote."""
    ran = re.findall(rf"^{MARK}\n(.*?)^{MARK} (\d+)$", text, re.M | re.S)
    asked = list(steps(page, python))
    compare(f"{name}: steps", (True, len(asked)), (bool(asked), len(ran)))
    for (step, _, expected), (got, status) in zip(asked, ran):
        if expected is None:
            compare(f"{name}: {step}", "0", status if status == "0" else f"{status}: {got}")
        else:
            compare(f"{name}: {step}", expected, got)
