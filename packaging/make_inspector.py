#!/usr/bin/env python3
"""Makes build/inspector.html: the page in inspector/ as one file, with the package for JavaScript and build/capvet.wasm inside.

    make_inspector.py

It needs esbuild, and the module that `make build TARGET=wasm` builds. The page allows its own script and style by their hashes.
"""
import base64
import hashlib
import os
import shutil
import subprocess
import sys
from pathlib import Path

TOP = Path(__file__).resolve().parent.parent
HERE, MODULE, PAGE = TOP / "inspector", TOP / "build/capvet.wasm", TOP / "build/inspector.html"


def bundled(name):
    """A module and all that it imports, as one script. No text in it ends the element that it is in."""
    words = ["esbuild", name, "--bundle", "--format=iife", "--target=es2022", "--minify-whitespace", "--minify-syntax",
             "--charset=utf8", "--log-level=warning"]
    script = subprocess.run(words, cwd=HERE, check=True, stdout=subprocess.PIPE, text=True).stdout
    if "</script" in script or "<!--" in script:
        sys.exit(f"make_inspector.py: {name} has the end of a script in a text")
    return script


def source(text):
    """The hash of an inline script or style, as a policy names it."""
    return f"'sha256-{base64.b64encode(hashlib.sha256(text.encode()).digest()).decode()}'"


def page():
    script, style = bundled("main.js"), (HERE / "style.css").read_text()
    policy = (f"default-src 'none'; script-src {source(script)} 'wasm-unsafe-eval'; style-src {source(style)}; worker-src blob:; "
              "img-src data:; base-uri 'none'; form-action 'none'")
    parts = {"policy": policy, "style": style, "worker": bundled("worker/main.js"),
             "module": base64.b64encode(MODULE.read_bytes()).decode(), "script": script}
    text = (HERE / "index.html").read_text()
    for name, part in parts.items():
        before, mark, after = text.partition(f"@{name}@")
        if not mark:
            sys.exit(f"make_inspector.py: index.html has no @{name}@")
        text = before + part + after
    return text


def main():
    if shutil.which("esbuild") is None or not MODULE.exists():
        sys.exit("make_inspector.py: it needs esbuild (install esbuild), and build/capvet.wasm (make build TARGET=wasm)")
    # (a test may read the page while another one builds it)
    made = PAGE.with_suffix(f".{os.getpid()}")
    made.write_text(page())
    os.replace(made, PAGE)


if __name__ == "__main__":
    main()
