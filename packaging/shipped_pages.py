"""The pages for users, as the packages have them.

The pages are written for a checkout. What is only true there is between `<!-- sources -->` and `<!-- /sources -->`, and no package
has it. What only packages have is in a comment, from a line `<!-- packages` to a line `-->`. SAID has the words that differ between
a checkout, the archive and Debian. A link to a file that isn't packed becomes plain text.
"""
import re
import shutil
import sys

from common import HERE, TOP, copy_tracked, version

# The pages for users, and those that only the archive has. (A page that isn't there yet is left out)
PAGES = ("install", "guide", "inspector", "service", "in-process", "output", "format", "c", "cpp", "rust", "go", "python", "scale", "proofs", "glossary")
OF_ARCHIVE = ("js",)
# The version of crates that Debian's examples ask for.
MINOR = version().rpartition(".")[0]
# The words of a checkout, and those of a package in their place. (The page on installation is about all of them)
SAID = {
    "archive": (
        ("at the top of the repository", "at the top of the unpacked archive"),
        ("make install PREFIX=$HOME/x\n", ""),
        ("$HOME/x/", "$PWD/"),
        ("```sh\ncapvet-guard --listen", "```sh\nbin/capvet-guard --listen"),
        ("man ./docs/capvet-guard.1", "man share/man/man1/capvet-guard.1"),
    ),
    "debian": (
        ("at the top of the repository", "in a folder with a copy of [the examples](../examples)"),
        ("make install PREFIX=$HOME/x\n", ""),
        ("export PKG_CONFIG_PATH=$HOME/x/lib/pkgconfig\n", ""),
        ("export PATH=$HOME/x/bin:$PATH\n", ""),
        ("The commands of this page are for the folder `venv`, into which all these ways install.\n\n", ""),
        ("venv/bin/python", "python3"),
        ("../bindings/go", "/usr/share/gocode/src/capvet.invalid/capvet"),
        ("man ./docs/capvet-guard.1", "man capvet-guard"),
        ("in `rust/capvet-capnp`", "in the package `librust-capvet-capnp-dev`"),
        ("in `rust/capvet-capnp-rpc`", "in the package `librust-capvet-capnp-rpc-dev`"),
        ("`capvet_capnp = { path = \"capvet/rust/capvet-capnp/0.27\" }`", "`capvet_capnp = \"0.27\"`"),
        ("by `capvet = { path = \"capvet/rust/capvet\" }`", f"by `capvet = \"{MINOR}\"` and [Debian's folder of crates](../README.md)"),
    ),
}
# The same for the page on JavaScript.
SAID_OF_JS = (
    ("The package in `bindings/js` calls", "The package calls"),
    ("`build.mjs` puts the package into a folder", "npm puts the package into a folder"),
    ("make build TARGET=wasm\nnode bindings/js/build.mjs build/capvet.wasm hello/node_modules/capvet\n",
     "mkdir hello\nnpm install --silent --offline --prefix hello ./js/capvet-@version@.tgz\n"),
    (" `tests/bindings/js.py` prints them. With `--idle` it fails if a call takes more than three times the time from C, or nine times for the list.", ""),
)
# A crate of the checkout as an example names it. On Debian it has a version, by which `cargo` finds it in Debian's folder of crates:
# that of the folder, for an adapter to `capnp`, and else MINOR.
CRATE = re.compile(r'\{ path = "[./]*/rust/[\w-]*/?([\d.]*)" \}')
CARGO = """\
[source.crates-io]
replace-with = "debian"
[source.debian]
directory = "/usr/share/cargo/registry"
"""
BLOCK = re.compile(r"^```\w*\n.*?^```\n", re.M | re.S)


def slugs(text):
    """The anchors of a page's headings."""
    return {re.sub(r"[^\w -]", "", title.lower()).replace(" ", "-") for title in re.findall(r"^#+ (.*)$", text, re.M)}


def said(text, pairs):
    """A page in the words of a package."""
    text = re.sub(r"^<!-- sources -->\n.*?^<!-- /sources -->\n", "", text, flags=re.S | re.M)
    text = re.sub(r"\s?<!-- sources -->.*?<!-- /sources -->", "", text, flags=re.S)
    text = re.sub(r"^<!-- packages\n(.*?)^-->\n", r"\1", text, flags=re.S | re.M)
    for old, new in pairs:
        text = text.replace(old, new)
    return re.sub(r"^```\w*\n```\n+", "", text, flags=re.M)


def linked(folder, page):
    """Makes the links of a page that lead to nothing in its package plain text."""
    def of(match):
        file, _, heading = match[2].partition("#")
        path = (page.parent / file if file else page).resolve()
        leads = "://" in file or path.is_relative_to(folder.resolve()) and path.exists() \
            and (not heading or path.suffix != ".md" or heading in slugs(BLOCK.sub("", path.read_text())))
        return match[0] if leads else match[1]

    parts = re.split(f"({BLOCK.pattern})", page.read_text(), flags=re.M | re.S)
    page.write_text("".join(part if part.startswith("```") else re.sub(r"(?<!!)\[([^\]]*)\]\(([^)\s]+)\)", of, part) for part in parts))


def examples_of_debian(folder):
    """Lets the examples take the crates and the Go package from where Debian has them."""
    for file in folder.glob("rust/**/Cargo.toml"):
        file.write_text(CRATE.sub(lambda it: f'"{it[1] or MINOR}"', file.read_text()))
    (folder / "rust/.cargo").mkdir()
    (folder / "rust/.cargo/config.toml").write_text(CARGO)
    go = folder / "go/go.mod"
    go.write_text(go.read_text().replace("../../bindings/go", "/usr/share/gocode/src/capvet.invalid/capvet"))


def readme(folder):
    """Writes the page on installation as the README of a folder with packages. Its links to other pages are plain text there."""
    page = folder / "README.md"
    page.write_text(said((TOP / "docs/install.md").read_text(), ()))
    linked(folder, page)


def write(folder, kind, values):
    """Writes the pages and examples of a package below a folder. `values` are those of its README."""
    values = {"version": version()} | values
    (folder / "docs").mkdir(parents=True, exist_ok=True)
    names = PAGES + (OF_ARCHIVE if kind == "archive" else ())
    sources = {folder / "README.md": HERE / f"README-{kind}.md", folder / "CHANGELOG.md": TOP / "CHANGELOG.md",
               folder / "SECURITY.md": TOP / "SECURITY.md", **{folder / f"docs/{name}.md": TOP / f"docs/{name}.md" for name in names}}
    for page, source in sources.items():
        if source.is_file():
            pairs = () if source.name == "install.md" else SAID[kind] + (SAID_OF_JS if source.name == "js.md" else ())
            text = said(source.read_text(), pairs)
            page.write_text(re.sub(r"@(version|machine|processor)@", lambda word: values[word[1]], text))
    copy_tracked(folder, "examples")
    if kind == "debian":
        examples_of_debian(folder / "examples")
    for page in (page for page in sources if page.is_file()):
        for picture in re.findall(r"!\[[^\]]*\]\(([^)]+)\)", page.read_text()):
            shutil.copy(TOP / page.parent.relative_to(folder) / picture, page.parent / picture)
    for page in (page for page in sources if page.is_file()):
        linked(folder, page)


def check_words():
    """Ends if words of SAID are in no page, so that none of them is kept for nothing."""
    files = [TOP / f"docs/{name}.md" for name in PAGES + OF_ARCHIVE]
    texts = "".join(file.read_text() for file in files if file.is_file())
    of_js = SAID_OF_JS if (TOP / "docs/js.md").is_file() else ()
    for old in {old for pairs in (*SAID.values(), of_js) for old, _ in pairs}:
        if old not in texts:
            sys.exit(f"dist: no page has {old!r} any more: see SAID in packaging/shipped_pages.py")
