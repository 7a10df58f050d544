"""Writes docs/internals/promises.md: the public functions with their promises, the laws, and the files of definitions under them.

A promise is the first sentence of its function's comment, or the one that sentences.txt has for it. In the template:

    {rows CRATE: NAMES}  these functions of a crate, each with its promise
    {rest CRATES}        the names of the crates' other public functions that have contracts
    {laws}               the laws, each with its promise
    {definitions}        the files whose definitions the contracts of these crates cite, directly or through others
"""
import re
from pathlib import Path

from source import CRATES, Contract, chunk_with, chunks, cited, public, sentence, spec, summary, traits

SENTENCES = Path(__file__).resolve().parent / "sentences.txt"


def name_of(function: Contract):
    return f"{function.owner}::{function.name}" if function.owner else function.name


class Page:
    def __init__(self, template):
        self.template, self.crates, self.shown = template, {}, set()
        self.sentences = dict(line.split(": ", 1) for line in SENTENCES.read_text().splitlines())
        self.used = set()

    def functions(self, crate):
        """The public functions of a crate by name. Those of a name that is there twice are the first of it."""
        if crate not in self.crates:
            self.crates[crate] = {}
            for function in public(crate):
                self.crates[crate].setdefault(name_of(function), function)
        return self.crates[crate]

    def promise(self, function):
        name = name_of(function)
        self.used.add(name)
        said = self.sentences.get(name) or sentence(function.comment)
        if not said:
            raise LookupError(f"{name} has no sentence")
        return f"- `{name}`: {said}"

    def rows(self, crate, names):
        missing = [name for name in names if name not in self.functions(crate)]
        if missing:
            raise LookupError(f"{crate} has no public functions {missing} with a contract")
        self.shown |= {(crate, name) for name in names}
        return "\n".join(self.promise(self.functions(crate)[name]) for name in names)

    def rest(self, *crates):
        names = [name for crate in crates for name in self.functions(crate) if (crate, name) not in self.shown]
        return ", ".join(f"`{name}`" for name in names)

    def laws(self):
        return "\n".join(self.promise(function) for function in self.functions("cap_laws").values())

    def cited(self):
        """The definitions under the contracts, by crate and file: the lines of each file."""
        names, lines = [], {}
        for crate in list(self.crates):
            for function in self.functions(crate).values():
                names += [name for clause in function.clauses.values() for name in cited(clause, function.file)]
            names += [name for file, text in traits(crate) for name in cited(text, file)]
        seen = set()
        while names:
            crate, file, name = names.pop()
            if not crate.startswith("cap_") or file == "declared":
                continue
            chunk = chunk_with(spec(crate, file), name)
            if (crate, file, chunk.names) not in seen:
                seen.add((crate, file, chunk.names))
                lines[crate, file] = lines.get((crate, file), 0) + len(chunk.code())
                names += cited(chunk.text, spec(crate, file))
        return lines

    def definitions(self):
        believed = "".join((SENTENCES.parent / f"{name}.md.in").read_text() for name in ("accepted", "believe"))
        rows = ["| Folder | Lines | Files |", "|---|---|---|"]
        lines = self.cited()
        for crate in sorted({crate for crate, _ in lines}):
            files = [file for of, file in sorted(lines) if of == crate]
            texts = []
            for file in files:
                defined = set(" ".join(re.findall(rf"\{{define {crate} {file}: ([^}}]*)\}}", believed)).split())
                whole = all(set(chunk.names) & defined for chunk in chunks(spec(crate, file)))
                texts.append(f"`{file}`" if whole else f"`{file}`: {self.heading(crate, file)}")
            rows.append(f"| `{crate}/specs` | {sum(lines[crate, file] for file in files)} | {'; '.join(texts)} |")
        return "\n".join(rows)

    def heading(self, crate, file):
        """What a file is about: its first comment, unless there is a sentence for it."""
        said = self.sentences.get(f"{crate}/{file}")
        if said:
            self.used.add(f"{crate}/{file}")
            return said
        said = re.sub(r" \([^)]*\)", "", summary(spec(crate, file))).rstrip(".")
        return said[0].lower() + said[1:]

    def write(self):
        def put(found):
            kind, *rest = found[1].split()
            if kind == "rows":
                return self.rows(rest[0].rstrip(":"), rest[1:])
            return getattr(self, kind)(*rest)

        # (the rest of a crate is known when all rows are)
        text = re.sub(r"\{(rows [^}]*)\}", put, self.template)
        text = re.sub(r"\{(rest [^}]*|laws)\}", put, text)
        text = re.sub(r"\{(definitions)\}", put, text)
        crates = {path.name for path in CRATES.iterdir() if not path.name.startswith("test_") and public(path.name)}
        if missing := sorted(crates - self.crates.keys()):
            raise LookupError(f"the template has no line for {', '.join(missing)}")
        if unused := sorted(self.sentences.keys() - self.used):
            raise LookupError(f"sentences.txt has sentences for what isn't on the page: {', '.join(unused)}")
        return text
