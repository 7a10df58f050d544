"""`python -m capvet tree`, beside `capvet dump`."""
import json
import os
import re
import shutil
import subprocess
import sys

import capvet as package
import pytest

from support import FILES, LAX, TOP, framed, many, program

import needs  # (of tests/shared, which support.py has put on the path)

GUESS = re.compile(rb"^( *\w+ list 2 \d+) guess (\".*\")$", re.M)


def capvet(*words, data=None):
    """What `python -m capvet` writes on both outputs, and its status."""
    variables = {**os.environ, "PYTHONIOENCODING": "utf-8"}
    ran = subprocess.run([sys.executable, "-m", "capvet", *map(str, words)], input=data, capture_output=True, env=variables)
    return ran.stdout, ran.stderr.decode(), ran.returncode


def without_guesses(text):
    return GUESS.sub(rb"\1", text)


@pytest.mark.parametrize("file", [*FILES, TOP / "examples/contacts.packed"], ids=lambda file: file.name)
@pytest.mark.parametrize("options", [[], ["--strict", "--depth", 4], ["--unamplified", "--words", 30, "--size", 500]])
def test_samples(file, options):
    options = [*options, *["--packed"] * (file.suffix == ".packed")]
    text, error, status = capvet("tree", *options, file)
    assert (without_guesses(text), error, status) == program("dump", *options, file)


def changed_stream():
    data = b"".join(many(2000))
    expected = program("dump", "--words", 2000, data=data)
    assert expected[0].count(b"message ") == 2000
    return data, expected


def test_changed():
    data, expected = changed_stream()
    text, error, status = capvet("tree", "--words", 2000, data=data)
    assert (without_guesses(text), error, status) == expected
    assert GUESS.search(text)


def test_elements_after_the_last_pointer():
    # (a list of two structs of a data word each, alone and as an element of a list of pointers)
    structs = [1 | 7 << 32 | 2 << 35, 2 << 2 | 1 << 32, 5, 6]
    for message in (framed(*structs), framed(1 | 6 << 32 | 2 << 35, 1 | 1 << 2 | 7 << 32 | 2 << 35, 0, *structs[1:])):
        assert capvet("tree", data=message) == program("dump", data=message)
        assert b"i1 struct 1 0\n" in capvet("tree", data=message)[0]


def test_cut():
    data = (TOP / "examples/stream-of-four.bin").read_bytes()[:3700]
    for command in ([], ["--json"]):
        text, error, status = capvet("tree", *command, data=data)
        assert (error, status) == program("dump", data=data)[1:]
        assert b"message" in text


def test_texts():
    text = capvet("tree", TOP / "examples/contacts.bin")[0].decode()
    guesses = re.findall(r" guess \"(.*)\"$", text, re.M)
    assert len(guesses) > 3 and any("ß" in guess for guess in guesses)
    # (a line feed, an escape and a quotation mark)
    data = bytes([0, 0, 0, 0, 2, 0, 0, 0]) + bytes([1, 0, 0, 0, 0x2A, 0, 0, 0]) + b"\n\x1b\"\\\0\0\0\0"
    assert b'root list 2 5 guess "\\n\\u001b\\"\\\\"\n' in capvet("tree", data=data)[0]


def dumped(node, label="root", level=0):
    """The lines of `dump` for a node of the JSON."""
    kind = node["kind"]
    head, own, children, letter = {
        "null": lambda: ("null", [], [], ""),
        "capability": lambda: (f"cap {node['index']}", [], [], ""),
        "struct": lambda: (f"struct {len(node['data'])} {len(node['pointers'])}", node["data"], node["pointers"], "p"),
        "values": lambda: (f"list {node['element']} {node['count']}", node["words"], [], ""),
        "pointers": lambda: (f"pointers {len(node['elements'])}", [], node["elements"], "i"),
        "structs": lambda: (f"structs {node['count']} {node['data_words']} {node['pointer_words']}", [], node["elements"], "i"),
    }[kind]()
    name = "d" if kind == "struct" else "w"
    text = "  " * level + f"{label} {head}\n" + "".join("  " * (level + 1) + f"{name}{i} {word}\n" for i, word in enumerate(own))
    return text + "".join(dumped(child, f"{letter}{i}", level + 1) for i, child in enumerate(children))


def dumped_message(about):
    if not about["accepted"]:
        return f"message {about['message']}: refused {about['reason']} at {about['segment']}:{about['word']} pointers {about['pointer']}\n"
    return (f"message {about['message']}: accepted charge {about['charge']} depth {about['depth']} pointers {about['pointers']} "
            f"caps {about['capabilities']}\n") + dumped(about["root"])


@pytest.mark.parametrize("file", FILES, ids=lambda file: file.name)
def test_json(file):
    text, error, status = capvet("tree", "--json", file)
    messages = [json.loads(line) for line in text.decode().splitlines()]
    assert "".join(map(dumped_message, messages)).encode() == program("dump", file)[0]


def test_json_of_changed():
    data, expected = changed_stream()
    text, error, status = capvet("tree", "--json", "--words", 2000, data=data)
    messages = [json.loads(line) for line in text.decode().splitlines()]
    assert ("".join(map(dumped_message, messages)).encode(), error, status) == expected


def of_tree(node):
    """A node of the JSON, and all below it."""
    yield node
    for child in node.get("pointers", node.get("elements", [])):
        yield from of_tree(child)


@pytest.mark.parametrize("name", ["contacts.bin", "contacts-many-segments.bin", "telemetry.bin"])
def test_paths_and_places(name):
    message = (TOP / "examples" / name).read_bytes()
    segments, pointers = package.frame(message).segments, 0
    for node in of_tree(json.loads(capvet("tree", "--json", TOP / "examples" / name)[0])["root"]):
        found = package.vet(message, limits=LAX).get(node["path"])
        assert found.kind == node["kind"]
        at = segments[node["segment"]][0] + 8 * node["word"]
        if node["kind"] == "struct":
            assert "".join(node["data"]) == bytes(found.data).hex()
        # (an element of a list of structs has no pointer: its place is that of its bytes)
        if at == found.offset and re.search(r"/i\d+$", node["path"]):
            continue
        # (a pointer of no known kind is refused where it is)
        with pytest.raises(package.Refusal) as error:
            package.vet(message[:at] + b"\7" + bytes(7) + message[at + 8:], limits=LAX)
        assert (error.value.reason, error.value.position) == ("Reserved", (node["segment"], node["word"]))
        pointers += 1
    assert pointers == package.vet(message, limits=LAX).report.pointers


@pytest.mark.skipif(shutil.which("jq") is None, reason=needs.line("the JSON of tree, by jq", "jq"))
def test_jq():
    data, expected = changed_stream()
    text = capvet("tree", "--json", "--words", 2000, data=data)[0]
    ran = subprocess.run(["jq", "-c", "."], input=text, capture_output=True)
    assert ran.returncode == 0 and ran.stderr == b""
    assert [json.loads(line) for line in ran.stdout.splitlines()] == [json.loads(line) for line in text.splitlines()]


def test_wrong_command_lines():
    for words in ([], ["trees"], ["tree", "--depth", "257"], ["tree", "--size", "x"], ["tree", "--nothing"]):
        text, error, status = capvet(*words)
        assert (text, status) == (b"", 2) and "usage: python -m capvet" in error
    text, error, status = capvet("tree", "/nothing")
    assert (text, status) == (b"", 3) and error.startswith("capvet: ") and error.count("\n") == 1
