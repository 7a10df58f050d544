"""`python -m capvet map`: the page has the message inside, and shows the verdict of the program."""
import base64
import json
import re
import time

import pytest

from capvet import mapping
from capvet.commands import main
from capvet.mapping import PAGE
from support import STRICT, TOP, program
from test_tree import capvet as run

# (these are of tests/shared, which support.py has put on the path)
import needs
from browser import SECONDS, Browser

with_page = pytest.mark.skipif(not PAGE.exists(), reason=needs.line("the page of map", "esbuild"))
in_browser = pytest.mark.skipif(not needs.has("chromium"), reason=needs.line("the page of map, in a browser", "chromium"))


def given(page):
    """What a page has inside."""
    return json.loads(re.search('<script type="application/json" id="given">(.*?)</script>', page.read_text())[1])


@with_page
def test_page(tmp_path):
    for words, name, number, status in (([], "contacts.bin", 0, 0), ([], "stream-of-four.bin", 2, 0),
                                        (["--strict", "--depth", 3], "contacts.bin", 0, 1), (["--packed"], "contacts.packed", 0, 0)):
        file, page = TOP / "examples" / name, tmp_path / "<page>.html"
        assert run("map", *words, "--message", number, file, "-o", page) == (b"", "", status)
        inside = given(page)
        stream = file.read_bytes() if name.endswith(".bin") else (TOP / "examples/contacts.bin").read_bytes()
        assert base64.b64decode(inside["bytes"]) in stream and inside["name"] == f"{file}, message {number}"
        depth = 3 if status else 64
        assert inside["limits"] == dict(words=8388608, charge=8388608, depth=depth, isStrict=status == 1, isUnamplified=False)


@with_page
@in_browser
@pytest.mark.parametrize("name, words", [("shared", []), ("cycle", STRICT)])
def test_in_a_browser(tmp_path, name, words):
    # (a name that would end or begin a script)
    file, page = tmp_path / "<!--<script>.bin", tmp_path / "page.html"
    file.write_bytes((TOP / f"examples/{name}.bin").read_bytes())
    run("map", *words, file, "-o", page)
    with Browser() as browser:
        browser.open(page)
        end = time.monotonic() + SECONDS
        while not browser.text("line") and time.monotonic() < end:
            time.sleep(0.05)
        assert browser.text("line") + "\n" == program("vet", *words, file)[0].decode()
        assert browser.text("name") == f"{file}, message 0" and browser.errors == []


def test_wrong(tmp_path):
    assert run("map", TOP / "examples/shared.bin")[2] == 2
    text, error, status = run("map", TOP / "examples/shared.bin", "--message", 1, "-o", tmp_path / "page.html")
    assert (error, status) == ("capvet: there is no message 1\n", 1)
    assert not (tmp_path / "page.html").exists()


def test_without_page(tmp_path, monkeypatch, capfd):
    monkeypatch.setattr(mapping, "PAGE", tmp_path / "none")
    assert main(["map", str(TOP / "examples/shared.bin"), "-o", str(tmp_path / "page.html")]) == 3
    assert capfd.readouterr().err.startswith("capvet: this package was built without the page")
