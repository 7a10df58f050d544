"""Writes docs/accepted.md and docs/believe.md: the definitions that the library's promises rest on, in one order over both pages, each
before its first use.

A line of a template in braces is replaced by a copy from the sources:

    {define CRATE FILE: NAMES}     definitions of a file of specs
    {type CRATE NAME: CLAUSES}     a type of the code, with these clauses that are proved of each value, and the names of its others
    {member FILE TRAIT TYPE NAME}  what a type gives for a member of a trait that is for proofs only
    {contract FILE NAME: CLAUSES | OTHERS}
                                   a function with these clauses, and the names of its others; without names all clauses
    {example CRATE FILE: NAMES}    worked examples, without their proofs
    {name CRATE FILE NAME}         a name that exists and that the page doesn't define
    {unmet CRATE FILE NAME}        the same of a definition of the page that no example cites
    {alias FILE NAME}              a name that a file itself gives to what it imports, which the line explains
    {law NAME}                     the name of a law
    {part NAME}                    a link to the part of this heading, by its number, on this page or on the one before
    {counts}, {safe}, ..           numbers of lines

The headings of the template have no numbers: they are counted here. A name that is cited before it is defined is an error, and so is one of Rust or a library, a part of a value or a sign that
the first part of either page doesn't explain. So is a name that a file gives to an import, without a line that explains it. A definition
that nothing on the pages cites is an error too, and a name of a library in the first part of a page that nothing on it uses.
"""
import re
from pathlib import PurePath

from defined_names import Names
from source import CRATES, chunk_with, contract, declared, dedent, functions, rattle, renamed, spec, statement

# Parts of the pages up to which each claim has to be read.
READINGS = {"safe": "A tree, and an accepted message", "fault": "The contract of vet", "library": "The canonical form",
            "all": "Exclusive messages"}
# What is proved of each value of a type, without how.
GHOST = re.compile(r"^    (ghost (\w+): \{(?:[^{}]|\{[^{}]*\})*\})(?: by \{[^{}]*\})?,\n", re.M)


def both(templates):
    """The texts of both pages, by their names. The second goes on from the first."""
    first = Page(templates["accepted.md"])
    texts = {"accepted.md": first.write()}
    return texts | {"believe.md": Page(templates["believe.md"], first).write()}


class Page:
    def __init__(self, template, before=None):
        headings = re.findall(r"^## (.*)$", template, re.M)
        self.numbers = {name: number for number, name in enumerate(headings, 1)}
        notation = template.partition(f"## {headings[0]}\n")[2].partition("\n## ")[0]
        rows = re.findall(r"^\| (`.*?`) \| ", notation, re.M)
        self.names = Names(" ".join(term for row in rows for term in re.findall(r"`([^`]+)`", row)))
        self.template, self.errors, self.out, self.shown, self.parts = template, self.names.errors, [], None, []
        # (the names of each definition, and those that examples cite)
        self.defined, self.met, self.before = {}, set(), before
        if before:
            self.names.go_on(before.names)
            self.defined |= before.defined

    def count(self, kind, text):
        """Adds the lines of a text to those of the part, without comments and empty ones."""
        lines = [line.strip() for line in text.split("\n")]
        self.parts[-1][kind] += sum(1 for line in lines if line and not line.startswith(("--", "//")))

    def define(self, crate, file, names):
        """Definitions, in this order."""
        path, texts = spec(crate, file), []
        for name in names:
            chunk = chunk_with(path, name)
            own = {(crate, file, each) for each in chunk.names}
            self.names.cite(f"{file}.{name}", chunk.text, path, own)
            self.names.known |= own
            self.defined[f"{file}.{name}"] = own
            self.count("lines", chunk.text)
            texts.append(chunk.text)
        return self.block(f"crates/{crate}/specs/{file}.antt", "\n\n".join(texts))

    def type(self, crate, name, clauses):
        """A type of the code, with these clauses of what is proved of its values. Of a trait all members are shown."""
        file, text = declared(crate, name)
        text = re.sub(r"^    #\[.*\n", "", text, flags=re.M)
        self.names.known.add((crate, "declared", name))
        if "pub trait" not in text:
            text = flat(self.ghosts(name, text, clauses))
        self.names.cite(name, text, file)
        self.names.rust(name, text, file, {name, *re.findall(r"^    ([A-Z]\w*)\b", text, re.M)})
        self.count("types", text)
        return self.block(str(file.relative_to(CRATES.parent)), text)

    def ghosts(self, name, text, shown):
        """A type with these clauses, and with the names of its others."""
        found = {clause: text for text, clause in GHOST.findall(text)}
        if missing := [clause for clause in shown if clause not in found]:
            self.errors.append(f"{name} has no clauses {' '.join(missing)}")
        left = [clause for clause in found if clause not in shown]
        text = GHOST.sub(lambda ghost: f"    {ghost[1]},\n" if ghost[2] in shown else "", text)
        return f"{text[:-1]}    // and {', '.join(left)}\n}}" if left else text

    def member(self, path, trait, name, member):
        """What a type gives for a member of a trait that is for proofs only."""
        found = re.search(rf"^impl.* {trait} for {name}\b.*\{{\n(?:.*\n)*?}}$", (CRATES / path).read_text(), re.M)
        line = found and re.search(rf"^    ghost {member} = .*;$", found[0], re.M)
        if not line:
            raise LookupError(f"{path} has no {member} of {trait} for {name}")
        head = found[0].split("\n")[0]
        self.names.cite(f"{name}.{member}", line[0], CRATES / path)
        self.names.rust(f"{name}.{member}", head, CRATES / path)
        text = f"{head}\n{line[0]}\n    // and the functions\n}}"
        self.count("types", text)
        return self.block(f"crates/{path}", text)

    def contract(self, path, name, clauses):
        """The clauses before the bar are shown, and those after it are named. There are no others."""
        found = contract(path, name)
        shown, _, left = " ".join(clauses or found.clauses).partition(" | ")
        if sorted([*shown.split(), *left.split()]) != sorted(filter(None, found.clauses)):
            raise LookupError(f"{name} has the clauses {' '.join(found.clauses)}")
        text = "\n".join(found.clauses[clause] for clause in shown.split() or [""])
        self.names.cite(name, text, CRATES / path)
        self.names.rust(name, f"{found.head}\n{text}", CRATES / path)
        text = dedent(f"{found.head}\n{text}") + (f"\n    // and {', '.join(left.split())}" if left else "")
        self.count("clauses", text)
        return self.block(f"crates/{path}", text)

    def example(self, crate, file, names):
        """Messages and trees in full, and what is proved of them without the proofs."""
        path, texts = spec(crate, file, "proofs"), []
        for name in names:
            chunk = chunk_with(path, name)
            is_value = chunk.text.lstrip().startswith("abbrev") or "\nabbrev" in chunk.text
            text = chunk.text if is_value else statement(path, name)
            self.met |= self.names.cite(f"{file}.{name}", text, path, {(crate, file, name)})
            self.names.known.add((crate, file, name))
            self.count("examples", text)
            texts.append(text)
        return self.block(f"crates/{crate}/proofs/{file}.antt", "\n\n".join(texts))

    def name(self, crate, file, name):
        """A name of a definition that need not be read."""
        chunk_with(spec(crate, file), name)
        if (crate, file, name) in self.names.known:
            self.errors.append(f"{name} is said not to be read, and is on the page")
        return f"`{name}`"

    def unmet(self, crate, file, name):
        """A name of a definition of the page, of which the page has no example."""
        if (crate, file, name) not in self.names.known or (crate, file, name) in self.met:
            self.errors.append(f"{name} is said to be without an example")
        return f"`{name}`"

    def alias(self, path, name):
        """A name that a file itself gives to what it imports. The line of the template says to what."""
        if name not in renamed(CRATES / path):
            self.errors.append(f"{path} gives the name {name} to nothing")
        self.names.aliases.add((CRATES / path, name))
        return f"`{name}`"

    def law(self, name):
        """The name of a law."""
        if not any(found.name == name for file in rattle("cap_laws") for found in functions(file)):
            self.errors.append(f"there is no law {name}")
        return f"`{name}`"

    def part(self, *words):
        """A link to a part of the page."""
        name = " ".join(words)
        is_here = name in self.numbers
        numbers = self.numbers if is_here or not self.before else self.before.numbers
        if name not in numbers:
            self.errors.append(f"the page has no part {name}")
            return name
        number = numbers[name]
        anchor = re.sub(r"[^\w -]", "", f"{number}. {name}".lower()).replace(" ", "-")
        return f"[part {number}](#{anchor})" if is_here else f"[part {number} of the first page](accepted.md#{anchor})"

    def counts(self):
        """The table of the lines of each part, of both pages."""
        rows, read = ["| Part | Definitions | Up to here | Types | Clauses | Examples |", "|---|---|---|---|---|---|"], 0
        before = [part | {"title": f"First page, {part['title']}"} for part in self.before.parts]
        for part in [*before, *self.parts]:
            read += part["lines"]
            if any(part[kind] for kind in ("lines", "clauses", "examples")):
                cells = [part["title"], part["lines"], read, part["types"], part["clauses"], part["examples"]]
                rows.append(f"| {' | '.join(map(str, cells))} |")
        return rows

    def directive(self, line):
        """The lines or the name in place of braces."""
        words, _, names = line[1:-1].partition(": ")
        kind, *rest = words.split()
        if kind in ("define", "type", "example", "contract"):
            return getattr(self, kind)(*rest, names.split())
        return getattr(self, kind)(*rest)

    def write(self):
        """The page, or all of its errors."""
        for line in self.template.split("\n"):
            if line.startswith("## "):
                line = f"## {self.numbers[line[3:]]}. {line[3:]}"
                self.shown = None
                self.parts.append({"title": line[3:], "lines": 0, "types": 0, "clauses": 0, "examples": 0})
            if re.fullmatch(r"\{(define|type|member|contract|example|counts)\b.*\}", line):
                self.out += self.directive(line)
            else:
                named = re.sub(r"\{(name|unmet|alias|law|part) [\w /.,]+\}", lambda found: self.directive(found[0]), line)
                self.out.append(named)
        text = "\n".join(self.out)
        parts = [*(self.before.parts if self.before else ()), *self.parts]
        titles = [part["title"].partition(". ")[2] for part in parts]
        for reading, last in READINGS.items():
            if last in titles:
                lines = sum(part["lines"] for part in parts[:titles.index(last) + 1])
                text = text.replace(f"{{{reading}}}", str(lines))
        # (what the first page defines may be cited on the second alone)
        if self.before:
            self.errors += [f"nothing on the pages cites {what}" for what, own in self.defined.items() if not own & self.names.cited]
        self.names.unused()
        if self.errors:
            raise LookupError("\n".join(self.errors))
        return text

    def block(self, file, text):
        """Lines that show a text. It goes on with the block before, if that is of the same file."""
        self.names.show(text)
        if self.out[-1] == "" and self.out[-2] == "```" and self.shown == file:
            del self.out[-2:]
            return ["", *text.split("\n"), "```"]
        self.shown = file
        return [f"`{file}`{in_coq(file)}:", "", "```", *text.split("\n"), "```"]


def in_coq(file):
    """A link to the same definitions in Coq, where there are any."""
    stem = PurePath(file).stem
    mirror = f"mirror/coq/definitions/{'Declared' if stem == 'lib' else stem}.v"
    is_there = re.match("crates/cap_spec/(specs|src)/", file) and (CRATES.parent / mirror).exists()
    return f" ([in Coq](../{mirror}))" if is_there else ""


def flat(text):
    """A type, each of its cases on one line where its parts have no comments."""
    return re.sub(r"^(    \w+ \{)\n((?:        \w+: .*\n)+)    \},$",
                  lambda case: case[1] + re.sub(r"\s+", " ", " " + case[2]).rstrip(" ,") + " },", text, flags=re.M)
