"""Writes docs/internals/clauses.md: the clauses of contracts beside what Coq proves of a small function that does the same.

mirror/coq/theories/Headline.v has a part for each such function, under a comment that names its file and its function in crates/. A
theorem there has the name of the function and of a clause, or `exactly` if the clause has no name. In the template:

    {twice}      these functions, each clause with its theorem, word for word
    {alone}      how many clauses of each crate are shown twice, and how many in Rattle alone
"""
import re
from typing import NamedTuple

from source import CRATES, TOP, contract, dedent, public

HEADLINE = TOP / "mirror/coq/theories/Headline.v"
PART = re.compile(r"^\(\* ---- (?:(\S+): (\w+), by )?(.*?) \*\)$", re.M)
THEOREM = re.compile(r"^Theorem (\w+) : (.*?)\.\nProof\b", re.M | re.S)


class Part(NamedTuple):
    """A function of the code by its file and its name, by what it is shown in Coq, and the theorems by the names of clauses."""
    path: str
    name: str
    shown_by: str
    theorems: dict


def parts(text):
    """The parts of Headline.v that are about functions of the code."""
    found = []
    heads = [*PART.finditer(text), None]
    for head, following in zip(heads, heads[1:]):
        if head[1]:
            body = text[head.end():following.start() if following else len(text)]
            theorems = {name.removeprefix(f"{head[2]}_"): f"Theorem {name} : {statement}."
                        for name, statement in THEOREM.findall(body) if name.startswith(f"{head[2]}_")}
            found.append(Part(head[1], head[2], head[3], theorems))
    return found


def ensured(function):
    """The clauses that a function ensures, by name. One without a name is `exactly`."""
    return {name or "exactly": text for name, text in function.clauses.items() if not text.lstrip().startswith("requires")}


class Page:
    def __init__(self, template, headline=HEADLINE.read_text()):
        self.template, self.parts = template, parts(headline)

    def twice(self):
        lines = []
        for part in self.parts:
            clauses = ensured(contract(part.path, part.name))
            if unknown := part.theorems.keys() - clauses.keys():
                raise LookupError(f"{part.path} has no clause {', '.join(sorted(unknown))} of {part.name}")
            lines += [f"### {part.name}", "", f"`crates/{part.path}`, by {part.shown_by}:", ""]
            for name in part.theorems:
                lines += ["```", dedent(clauses[name]), "```", "", "```coq", part.theorems[name], "```", ""]
            if alone := [f"`{name}`" for name in clauses if name not in part.theorems]:
                lines += [f"In Rattle alone: {', '.join(alone)}.", ""]
        return "\n".join(lines).strip()

    def alone(self):
        twice = {}
        for part in self.parts:
            crate = part.path.split("/")[0]
            twice[crate] = twice.get(crate, 0) + len(part.theorems)
        rows = ["| Crate | Clauses | Shown twice | In Rattle alone |", "|---|---|---|---|"]
        for crate in sorted(path.name for path in CRATES.iterdir() if not path.name.startswith("test_")):
            if count := sum(len(ensured(function)) for function in public(crate)):
                shown = count if crate == "cap_laws" else twice.get(crate, 0)
                rows.append(f"| `{crate}` | {count} | {shown} | {count - shown} |")
        return "\n".join(rows)

    def write(self):
        return re.sub(r"\{(twice|alone)\}", lambda it: getattr(self, it[1])(), self.template)
