"""The tokens of a Rattle source. Its clauses and ghost items are one token each, and what isn't known is refused.

A clause is written in the prover's language, which isn't Rust. So it is found here, where the text is read, by its braces.
"""
import re
from dataclasses import dataclass


class Refused(Exception):
    """The text has something that the eraser doesn't know."""


@dataclass
class Token:
    """A token, and the space and the comments before it."""
    kind: str
    text: str
    before: str = ""


TRIVIA = re.compile(r"(?:\s+|//[^\n]*)*")
# What a source is made of, beside clauses and ghost items. Only ASCII, so that no sign of the prover's language passes.
CODE = re.compile(r"""
    (?P<string> b?"(?:[^"\\]|\\.)*" )
  | (?P<char>   b?'(?:\\x[0-9a-fA-F]{2}|\\u\{[0-9a-fA-F]+\}|\\.|[^'\\\n])' )
  | (?P<life>   '[A-Za-z_][A-Za-z0-9_]* )
  | (?P<number> [0-9][0-9a-zA-Z_]* )
  | (?P<word>   [A-Za-z_][A-Za-z0-9_]* )
  | (?P<sign>   \.\.= | \.\. | :: | -> | => | == | != | <= | >= | && | \|\| | [-+*/%^&|]=
              | [-+*/%^&|=<>!?:;,.@\#(){}\[\]$] )
""", re.X | re.S)
CLAUSE = re.compile(r"(?:requires|ensures)(?:\s+[a-z_][a-z0-9_]*)?\s*(?=\{)")
GHOST_USE = re.compile(r"ghost\s+use\s[^;{}]*\{[^;{}]*\}\s*;")
GHOST_MEMBER = re.compile(r"ghost\s+[A-Za-z_][A-Za-z0-9_]*\s*[:=]\s*(?=\{)")
PROOF = re.compile(r"by\s*(?=\{)")
GHOST_WORDS = ("requires", "ensures", "ghost")
# What may follow a clause, and a ghost member: nothing else has a place for one.
AFTER_CLAUSE = re.compile(r"\{|;|requires\b|ensures\b")
OPENS, CLOSES = "([{", ")]}"


def braces_end(text, at):
    """The place after the brace that closes the one at `at`, in a clause."""
    depth = 0
    while at < len(text):
        if text[at] == '"':
            at = re.compile(r'"(?:[^"\\]|\\.)*"').match(text, at).end()
            continue
        depth += {"{": 1, "}": -1}.get(text[at], 0)
        at += 1
        if depth == 0:
            return at
    raise Refused("a clause without an end")


def ghost_end(text, at):
    """The place after the clause or ghost item that begins at `at`, and its kind."""
    if head := CLAUSE.match(text, at):
        end = braces_end(text, head.end())
        if not AFTER_CLAUSE.match(text, TRIVIA.match(text, end).end()):
            raise Refused(f"what follows a clause isn't known: {text[end:end + 30]!r}")
        return end, "clause"
    if use := GHOST_USE.match(text, at):
        return use.end(), "ghost use"
    if head := GHOST_MEMBER.match(text, at):
        end = TRIVIA.match(text, braces_end(text, head.end())).end()
        if proof := PROOF.match(text, end):
            end = TRIVIA.match(text, braces_end(text, proof.end())).end()
        # (`;` ends one of a trait or of an impl, `,` one of a struct, and the last of a struct may have nothing)
        if text[end] not in ";,}":
            raise Refused(f"a ghost member without an end: {text[at:at + 40]!r}")
        return end + (text[end] != "}"), "ghost member"
    raise Refused(f"an unknown ghost item: {text[at:at + 40]!r}")


def tokens_of(text):
    """The tokens of a text. The last one is empty, and has the space at the end."""
    tokens, at = [], 0
    while True:
        start = TRIVIA.match(text, at).end()
        before = text[at:start]
        if "//!" in before:
            raise Refused("an inner comment that isn't at the start of the file")
        if start == len(text):
            return [*tokens, Token("end", "", before)]
        found = CODE.match(text, start)
        if not found:
            raise Refused(f"what is this? {text[start:start + 30]!r}")
        kind, at = found.lastgroup, found.end()
        if found[0] in GHOST_WORDS:
            at, kind = ghost_end(text, start)
        tokens.append(Token(kind, text[start:at], before))


def kept_before(before):
    """Of the space and comments before a token that goes: the end of the line before it, and comments that a blank line parts
    from the token. Those right above it are about it, and go with it."""
    line, newline, rest = before.partition("\n")
    if not newline:
        return line if "//" in line else ""
    comments, blank, _ = rest.rpartition("\n\n")
    return f"{line}\n" + comments + blank


def without(tokens, start, end):
    """The tokens without those from `start` up to `end`."""
    # (what is above an attribute is about its item)
    before = tokens[start].before if tokens[start].text == "#" else kept_before(tokens[start].before)
    after = tokens[end].before
    if before.strip() or "\n" in after:
        # (one end of the line is enough)
        before = before.rstrip(" ")
        joined = before + after[after.index("\n") + 1:] if before.endswith("\n") and "\n" in after else before + after
    else:
        joined = tokens[start].before + after
    return [*tokens[:start], Token(tokens[end].kind, tokens[end].text, joined), *tokens[end + 1:]]
