"""All that the eraser rewrites: one table of patterns, and what is done beside it, a function each.

A pattern is the texts of tokens, parted by spaces. `$name` is one word or number, and `$*name` as few tokens as possible, with
whole brackets, and without a `;` unless it is the contents of a block.
"""
from dataclasses import dataclass, field
from typing import Callable, Optional

from tokens import CLOSES, OPENS, Refused, Token, tokens_of, without


@dataclass
class Rule:
    """What is rewritten to what, and why that says the same."""
    name: str
    why: str
    pattern: str
    to: str = ""
    # whether it applies, by the tokens of each name
    when: Optional[Callable] = None
    # further names for `to`, from the tokens of each name
    more: Callable = field(default=lambda found: {})
    # whether it is tried again inside of what it made
    nests: bool = False


def texts(tokens):
    """The texts of tokens."""
    return [token.text for token in tokens]


def listed(tokens):
    """The parts of a list between commas."""
    return [part.strip() for part in " ".join(texts(tokens)).split(",") if part.strip()]


# What the prover and the toolchain derive, and Rust doesn't.
NOT_DERIVED = ("Drop", "Error")


def derived(found):
    """The names of a derive that Rust has too."""
    return {"kept": ", ".join(name for name in listed(found["names"]) if name not in NOT_DERIVED)}


def has_others(found):
    """Whether a derive has a name that Rust hasn't, beside others."""
    names = set(listed(found["names"]))
    return bool(names & set(NOT_DERIVED)) and bool(names - set(NOT_DERIVED))


def bound(found):
    """The names that a pattern binds: as a value, and as they are bound, with their `mut`. The pattern is left without it."""
    pattern, names, mutable = found["pattern"], [], set()
    for index, token in enumerate(pattern):
        before = pattern[index - 1].text if index else ""
        after = pattern[index + 1].text if index + 1 < len(pattern) else ""
        if token.text == ":":
            raise Refused("a pattern of `let .. else` with a field that is renamed")
        if token.kind == "word" and token.text not in ("mut", "ref") and token.text[0].islower() and after not in ("(", "::"):
            names.append(token.text)
            mutable |= {token.text} if before == "mut" else set()

    def joined(parts):
        return parts[0] if len(parts) == 1 else f"({', '.join(parts)})"

    return {"value": joined(names), "binding": joined([f"mut {it}" if it in mutable else it for it in names]),
            "plain": " ".join(text for text in texts(pattern) if text != "mut")}


RULES = (
    Rule("attribute of the prover, for a crate", "it says how proofs are searched", "# ! [ tactic ( $*words ) ]"),
    Rule("derive of `Drop` or of thiserror's `Error`",
         "in Rust each value may be dropped, and nothing prints these errors by their texts", "# [ derive ( $*names ) ]",
         "#[derive($kept)]", has_others, derived),
    Rule("derive of `Drop` alone", "the same", "# [ derive ( Drop ) ]"),
    Rule("text of an error for thiserror", "the same", "# [ error ( $*text ) ]"),
    Rule("import of thiserror", "the same", "use thiserror :: Error ;"),
    Rule("bound `Drop` beside others", "in Rust each value may be dropped", "+ Drop"),
    Rule("bound `Drop` of an associated type", "the same", "type $name : Drop ;", "type $name ;"),
    Rule("bound `Drop` of a `where`", "the same", "where $name : Drop , {", "{"),
    Rule("import of `Model`", "it says what contracts see of a type", "use std :: marker :: Model ;"),
    Rule("`impl Model`", "it has ghost members alone", "impl Model for $*type { }"),
    Rule("`impl Model` for each size", "the same", "impl < const N : usize > Model for $*type { }"),
    Rule("`clone` with a result", "Rust's has none; these values are `Copy`",
         "-> Result < $*type , AllocError > { Ok ( * self ) }", "-> $*type { *self }"),
    Rule("module of vectors", "stable Rust has none", "pub mod vectors ;"),
    Rule("kernel without vectors", "it has the contract of the one with vectors", "use vectors ::", "use scalars::"),
    Rule("`main` with a runtime", "Rust's own `main` calls it", "fn main ( rt : HostRuntime )", "pub(crate) fn main(rt: HostRuntime)"),
    Rule("supertrait `Sized`", "in Rattle each type has it; its method returns `Self` in a `Result`",
         "trait FirstTurn : Turn {", "trait FirstTurn: Turn + Sized {"),
    Rule("`let .. else`", "Rust has it from 1.65 on",
         "let $*pattern = $*value else { $*else } ;", "let $binding = if let $plain = $*value { $value } else { $*else };",
         lambda found: found["value"][-1].text != "}", bound, nests=True),
    Rule("`str::from_utf8`", "Rust has it there from 1.87 on", "str :: from_utf8 ( $*bytes )", "core::str::from_utf8($*bytes)"),
)

def match(pattern, tokens, at):
    """The end of a match of a pattern from `at` on, and the tokens of each name, or None."""
    found, place = {}, 0
    while place < len(pattern):
        part = pattern[place]
        if part.startswith("$*"):
            rest, depth, start, in_block = pattern[place + 1:], 0, at, place and pattern[place - 1] == "{"
            while True:
                if depth == 0 and (more := match(rest, tokens, at)):
                    return more[0], {**found, part[2:]: tokens[start:at], **more[1]}
                text = tokens[at].text
                if tokens[at].kind == "end" or depth == 0 and text == ";" and not in_block:
                    return None
                if tokens[at].kind == "sign":
                    depth += (text in OPENS) - (text in CLOSES)
                    if depth < 0:
                        return None
                at += 1
        if part.startswith("$"):
            if tokens[at].kind not in ("word", "number"):
                return None
            found[part[1:]] = tokens[at:at + 1]
        elif tokens[at].text != part:
            return None
        place, at = place + 1, at + 1
    return at, found


def filled(to, found, more, before):
    """The tokens that a match is rewritten to. Those of names keep their comments."""
    made = []
    for token in tokens_of_template(to):
        name = token.text.lstrip("$*")
        if token.text.startswith("$*"):
            made += found[name]
        elif token.text.startswith("$"):
            made += tokens_of(more[name])[:-1] if name in more else found[name]
        else:
            made.append(token)
    if made:
        made[0] = Token(made[0].kind, made[0].text, before)
    for token in made[1:]:
        token.before = token.before or " "
    return made


def tokens_of_template(to):
    """The tokens of a template, in which a name is one token."""
    made = []
    for token in tokens_of(to)[:-1]:
        if made and made[-1].text in ("$", "$*") and token.text == "*":
            made[-1].text += "*"
        elif made and made[-1].text in ("$", "$*"):
            made[-1].text += token.text
        else:
            made.append(token)
    return made


def by_table(tokens, counts):
    """The tokens, rewritten by the table: a rule after the other, and each from the first token to the last."""
    for rule in RULES:
        pattern, at, most = rule.pattern.split(), 0, len(tokens)
        while at < len(tokens):
            hit = match(pattern, tokens, at) if tokens[at].text == pattern[0] else None
            if not hit or rule.when and not rule.when(hit[1]):
                at += 1
                continue
            counts[rule.name] += 1
            most -= 1
            if most == 0:
                raise Refused(f"a rule without an end: {rule.name}")
            end, found = hit
            if not rule.to:
                tokens = without(tokens, at, end)
                continue
            made = filled(rule.to, found, rule.more(found), tokens[at].before)
            tokens = [*tokens[:at], *made, *tokens[end:]]
            at += 1 if rule.nests else len(made)
    return tokens
