"""Writes docs/internals/tests.md: what each script of tests/ and tools/ tests, and how many cases it makes.

All of it comes from the comments of what is listed. In the template:

    {scripts}  the scripts of SCRIPTS in tools/all.py, in that order, each with its docstring
    {others}   the other scripts that are run by themselves, each with the start of its docstring and its command lines
    {modules}  the files that scripts import, each with the first sentence of its docstring
    {cases}    the calls of `cases`, each with the comment on its line and both numbers
    {tables}   the tables of cases in the files of TABLES, each with the comment over it
    {rattle}   the files of tests in Rattle, each with the first sentence of its comment
    {targets}  the fuzz targets, each with the comment at its head
"""
import ast
import os
import re

from source import CRATES, TOP, sentence, summary

# Files with tables of cases, and the folder or files with comments that begin with 'Fuzz'.
TABLES = tuple(f"tests/shared/{name}.py" for name in ("tables", "demands", "filtering", "messages"))
TARGETS = ("tests/fuzz/calls.c", "tests/fuzz/vetted.cpp", "tests/fuzz/streams.cpp", "tests/fuzz/server.cpp", "tests/fuzz/host.c",
           "tests/fuzz/rust/src/lib.rs", "bindings/go/fuzz_test.go", "guard/fuzz_test.go", "guard/fuzz_serve_test.go",
           "guard/fuzz_run_test.go", "guard/fuzz_options_test.go", "tests/fuzz/python/python_fuzz.py", "tests/fuzz/js/fuzz.mjs")
# Sentences that hold of each script: the page says them once.
OF_ALL = (r"(?:The last line(?: of the output)? is 'N passed, [^']*'|Failures are printed as they come|A case is one call of"
          r"|What isn't installed is said|What a machine has no (?:tool|compiler) for is said)[^.]*\.\s*")
# Words of a comment that are code on a page.
OPTION_OR_FILE = re.compile(r"`[^`]*`|(?<![\w./-])(?:--[a-z][\w-]*|[\w./-]+\.(?:py|md|c|cpp|mjs|h|rt|txt)|(?:tests|tools|include|bindings|rust|guard|build|crates|examples)/[\w/.-]*\w|\w+\(\))(?![\w/])")


def docstring(file):
    return ast.get_docstring(ast.parse(file.read_text())) or ""


def prose(text):
    """A comment as Markdown: each paragraph and item on a line of its own, without the sentences of OF_ALL."""
    parts = []
    for part in re.split(r"\n\s*\n", text.strip("\n")):
        if part.startswith("    "):
            parts.append(part)
            continue
        part = re.sub(OPTION_OR_FILE, lambda found: found[0] if found[0][0] == "`" else f"`{found[0]}`", part)
        lines = re.sub(r"\n(?! *(?:-|\d+\.) )\s*", " ", part).split("\n")
        parts.append("\n".join(re.sub(r"^ *(-|\d+\.) +", r"\1 ", line) for line in lines))
    text = re.sub(OF_ALL, "", "\n\n".join(parts))
    return re.sub(r"\n{3,}", "\n\n", "\n".join(line.rstrip() for line in text.split("\n"))).strip()


def phrase(said):
    """A comment as an item of a list."""
    return prose(said[0].lower() + said[1:])


def number(node):
    """A number of cases, or several."""
    value = eval(compile(ast.Expression(node), "cases", "eval"), {"__builtins__": {}})
    return ", ".join(f"{part:,}" for part in (value if isinstance(value, tuple) else (value,)))


class Page:
    def __init__(self, template, top=TOP):
        self.template, self.top = template, top
        self.names = re.findall(r'^    \("([^"]+)", \["(\w+\.py)"', (top / "tools/all.py").read_text(), re.M)
        self.files = sorted([*top.glob("tests/*/*.py"), *top.glob("tools/*.py")])

    def place(self, file):
        return file.relative_to(self.top)

    def section(self, file, text):
        titles = os.path.commonprefix([title for title, name in self.names if name == file.name]).rstrip(", ")
        return f"### `{self.place(file)}`\n\n{f'*{titles[0].upper()}{titles[1:]}.* ' if titles else ''}{prose(text)}"

    def scripts(self):
        by_name = {file.name: file for file in self.files}
        files = [by_name[name] for name in dict.fromkeys(name for _, name in self.names)]
        return "\n\n".join(self.section(file, docstring(file)) for file in files)

    def others(self):
        named = {name for _, name in self.names}
        alone = [file for file in self.files if file.name not in named and file.read_text().startswith("#!")]
        starts = [re.match(r".*?(?:\n\n|$)(?: .*?(?:\n\n|$))?", docstring(file), re.S)[0] for file in alone]
        return "\n\n".join(map(self.section, alone, starts))

    def modules(self):
        shared = [file for file in self.files if not file.read_text().startswith("#!")]
        return "\n".join(f"- `{self.place(file)}`: {phrase(sentence(docstring(file)))}" for file in shared)

    def cases(self):
        rows = ["| Script | Cases | `make test`, `make gate` | `make long` |", "|---|---|---|---|"]
        for file in self.files:
            source = file.read_text()
            lines = source.split("\n")
            calls = [node for node in ast.walk(ast.parse(source)) if isinstance(node, ast.Call)
                     and getattr(node.func, "id", "") == "cases" and (node.args or node.keywords)]
            for call in sorted(calls, key=lambda node: node.lineno):
                comment = re.search(r"  # (.+)$", lines[call.lineno - 1])
                if not comment:
                    raise LookupError(f"{self.place(file)}, line {call.lineno}: a comment has to say what is counted")
                few, full = map(number, [*call.args, *(word.value for word in call.keywords)])
                rows.append(f"| `{file.name}` | {comment[1]} | {few} | {full} |")
        return "\n".join(rows)

    def tables(self):
        found = []
        for name in TABLES:
            text = (self.top / name).read_text()
            for comment, table in re.findall(r"((?:^# [^\n]*\n)+)([A-Z_]+) = [({\[]", text, re.M):
                said = " ".join(line[2:] for line in comment.strip().split("\n"))
                if said[0].isupper():
                    found.append(f"- `{table}` of `{name}`: {phrase(said)}")
        return "\n".join(found)

    def rattle(self):
        found = []
        for crate in sorted(CRATES.glob("test_*")):
            for file in sorted((crate / "src").rglob("*.rt")):
                if file.name not in ("lib.rt", "same.rt") and (said := summary(file)):
                    found.append(f"- `{file.relative_to(TOP)}`: {phrase(said)}")
        return "\n".join(found)

    def targets(self):
        found = []
        for name in TARGETS:
            text = (TOP / name).read_text()
            if name.endswith(".go"):
                comments = [(target, f"{target}{said}") for target, said in
                            re.findall(r"^// (Fuzz\w+)((?: .*\n(?:// .*\n)*))func Fuzz", text, re.M)]
            elif name.endswith(".py"):
                comments = [(name.rpartition("/")[2], docstring(TOP / name))]
            else:
                comment = re.match(r"/\*(.*?)\*/|((?://[^\n]*\n)+)", text, re.S)
                comments = [(name.partition("fuzz/")[2].partition("/")[0], comment[1] or comment[2])]
            if not comments:
                raise LookupError(f"{name} has no comment of a fuzz target")
            for target, said in comments:
                said = re.sub(r"^ ?(?:\*|//!|//) ?", "", said.strip(), flags=re.M)
                said = re.sub(r"^ *Fuzz target: (.)", lambda first: first[1].upper(), said)
                found.append(f"### `{target}`\n\n{prose(said)}")
        return "\n\n".join(found)

    def write(self):
        kinds = "scripts|others|modules|cases|tables|rattle|targets"
        return re.sub(rf"^\{{({kinds})\}}$", lambda found: getattr(self, found[1])(), self.template, flags=re.M)
