"""Reads files of definitions in Rattle. It refuses what it doesn't know.

An expression is a tuple. Its first part says what it is:

    ('id', name)  ('number', digits)  ('text', quoted)  ('nil',)  ('tuple', parts)  ('paren', inner)
    ('app', function, arguments)  ('op', sign, left, right)  ('not', inner)  ('field', value, name)
    ('if', condition, yes, no)  ('let', name, value, body)
    ('all', groups, body)  ('some', groups, body)  ('fun', groups, body)

A group of binders is (names, type or None, whether it is in braces).
"""
import re
from dataclasses import dataclass, field


class Unknown(Exception):
    """Something that the reader doesn't know."""


TOKEN = re.compile(r"""
   (?P<text>"[^"]*")
 | (?P<id>[A-Za-z_ℕℤ][A-Za-z0-9_'ℕℤ]*)
 | (?P<number>[0-9]+)
 | (?P<field>(?<=[A-Za-z0-9_')])\.(?=[A-Za-z0-9]))
 | (?P<op>\+ℤ|-ℤ|<ℤ|\+\+|==|→|×|⊎|↔|¬|≡|≢|≤|<|∷|\+|-|\*|/|%|\^|=|λ|⊥|⊤|\(|\)|\[|\]|\{|\}|,|:|\.)
 | (?P<space>\s+)
""", re.X)
# The signs from the loosest to the closest, and how each is read: to the right, once, before one, or to the left.
LEVELS = ((("→",), "right"), (("↔",), "once"), (("⊎",), "right"), (("×",), "right"), (("¬",), "before"),
          (("≡", "≢", "≤", "<", "<ℤ", "=="), "once"), (("+", "-", "++", "+ℤ", "-ℤ"), "left"),
          (("∷",), "right"), (("*", "/", "%"), "left"), (("^",), "right"))
# Binders may be where a type may: before → and ×, which are looser than this level.
BINDERS = 3


def tokens(text):
    """The tokens of a text, each with its kind."""
    found, at = [], 0
    while at < len(text):
        token = TOKEN.match(text, at)
        if not token:
            raise Unknown(f"no token at {text[at:at + 40]!r}")
        if token.lastgroup != "space":
            found.append((token.lastgroup, token[0]))
        at = token.end()
    return found


class Parser:
    """Reads one logical line."""

    def __init__(self, text):
        self.text, self.tokens, self.at = text, tokens(text), 0

    def next(self, ahead=0):
        place = self.at + ahead
        return self.tokens[place] if place < len(self.tokens) else ("end", "")

    def take(self, expected=None):
        token = self.next()
        if expected not in (None, token[1]):
            raise Unknown(f"{expected} was expected, and not {token[1]!r}, in {self.text!r}")
        self.at += 1
        return token

    def end(self):
        if self.next()[0] != "end":
            raise Unknown(f"{self.next()[1]!r} is left over in {self.text!r}")

    def group(self):
        """Binders in brackets or braces at this place, or None."""
        kind, opening = self.next()
        if kind != "op" or opening not in "({":
            return None
        ahead = 1
        while self.next(ahead)[0] == "id":
            ahead += 1
        if ahead == 1 or self.next(ahead)[1] != ":":
            return None
        self.take()
        names = [self.take()[1] for _ in range(ahead - 1)]
        self.take(":")
        type_ = self.expression()
        self.take(")" if opening == "(" else "}")
        return names, type_, opening == "{"

    def groups(self):
        found = []
        while group := self.group():
            found.append(group)
        return found

    def expression(self, level=0):
        """What stands at this place, with signs of this level or closer ones."""
        if level == len(LEVELS):
            return self.application()
        signs, how = LEVELS[level]
        if how == "before":
            if self.next()[1] not in signs:
                return self.expression(level + 1)
            self.take()
            return "not", self.expression(level)
        if level <= BINDERS and (bound := self.bound()):
            return bound
        left = self.expression(level + 1)
        while self.next()[0] == "op" and self.next()[1] in signs:
            sign = self.take()[1]
            to_right = how == "right" or sign == "++"
            left = "op", sign, left, self.expression(level if to_right else level + 1)
            if how != "left":
                break
        return left

    def bound(self):
        """A type that begins with binders, or None."""
        start, groups = self.at, self.groups()
        if groups and self.next()[1] == "→":
            self.take()
            return "all", groups, self.expression()
        if len(groups) == 1 and self.next()[1] == "×":
            self.take()
            return "some", groups, self.expression(BINDERS)
        self.at = start
        return None

    def application(self):
        """A function of `λ`, a choice, a name for a value, or a function with its arguments."""
        if self.next()[1] == "λ":
            self.take()
            group = self.group()
            if not group:
                names = []
                while self.next()[1] != ".":
                    names.append(self.take()[1])
                group = names, None, False
            self.take(".")
            return "fun", [group], self.expression()
        if self.next()[1] == "if":
            parts = []
            for word in ("if", "then", "else"):
                self.take(word)
                parts.append(self.expression())
            return "if", *parts
        if self.next()[1] == "let":
            self.take()
            name = self.take()[1]
            self.take("=")
            value = self.expression()
            self.take("in")
            return "let", name, value, self.expression()
        function, arguments = self.atom(), []
        if function == ("id", "Unit") and self.next()[1] == "{":
            for sign in "{0}":
                self.take(sign)
        while self.is_argument():
            arguments.append(self.atom())
        return ("app", function, arguments) if arguments else function

    def is_argument(self):
        kind, text = self.next()
        return text not in ("then", "else", "in") and (kind in ("id", "number", "text") or text in ("(", "[", "⊥", "⊤"))

    def atom(self):
        """A name, a number, or what is in brackets, with the parts that are taken of it."""
        kind, text = self.take()
        if kind in ("id", "number", "text"):
            found = kind, text
        elif text in ("⊥", "⊤"):
            found = "id", text
        elif text == "[":
            self.take("]")
            found = "nil",
        elif text == "(":
            parts = [self.expression()]
            while self.next()[1] == ",":
                self.take()
                parts.append(self.expression())
            self.take(")")
            found = ("tuple", parts) if len(parts) > 1 else ("paren", parts[0])
        else:
            raise Unknown(f"{text!r} in {self.text!r}")
        while self.next()[0] == "field":
            self.take()
            found = "field", found, self.take()[1]
        return found


def parsed(text):
    parser = Parser(text)
    found = parser.expression()
    parser.end()
    return found


# ---- what a file declares, each with the comments over it

@dataclass
class Function:
    name: str
    type: tuple
    comments: list
    equations: list = field(default_factory=list)


@dataclass
class Data:
    """A type by its cases: each with its type and comments."""
    name: str
    parameters: list
    cases: list


@dataclass
class Record:
    """A type by its parts: each with its type and comments."""
    name: str
    parameters: list
    parts: list


@dataclass
class File:
    """What a file uses of others, by file, and its items: (comments, None, a list of functions or data, or a record)."""
    uses: dict
    items: list


def logical(lines, indent):
    """Lines with those that go on from them, and comments: (whether it is a comment, text)."""
    found = []
    for line in lines:
        text = line.strip()
        if text.startswith("--"):
            found.append((True, text[2:].strip()))
        elif text and len(line) - len(line.lstrip()) > indent and found and not found[-1][0]:
            found[-1] = False, f"{found[-1][1]} {text}"
        elif text:
            found.append((False, text))
    return found


def commented(lines):
    """Logical lines, each with the comments over it."""
    comments = []
    for is_comment, text in lines:
        if is_comment:
            comments.append(text)
        else:
            yield text, comments
            comments = []


def functions(lines):
    """Functions by their types and equations."""
    found = {}
    for text, comments in commented(lines):
        if typed := re.match(r"(?:pub )?(\w+) : (.*)$", text):
            found[typed[1]] = Function(typed[1], parsed(typed[2]), comments)
            continue
        parser = Parser(text)
        name, patterns = parser.take()[1], []
        while parser.next()[1] != "=":
            patterns.append(parser.atom())
        parser.take("=")
        body = parser.expression()
        parser.end()
        if name not in found:
            raise Unknown(f"an equation of {name}, which has no type")
        found[name].equations.append((patterns, body))
    return list(found.values())


def header(text, word):
    """The name and the parameters of a type."""
    found = re.match(rf"pub {word} (\w+)\s*(.*) : Type 0 where$", text)
    if not found:
        raise Unknown(text)
    parser = Parser(found[2])
    groups = parser.groups()
    parser.end()
    return found[1], groups


def data(lines):
    """A type by its cases. Cases of one type may share a line."""
    (first, _), *rest = commented(lines)
    cases = []
    for text, comments in rest:
        names, _, type_ = text.partition(" : ")
        cases += [(name, parsed(type_), comments) for name in names.split()]
    return Data(*header(first, "data"), cases)


def record(lines):
    (first, _), *rest = commented(lines)
    parts = []
    for text, comments in rest:
        part = re.match(r"pub (\w+) : (.*)$", text)
        if not part:
            raise Unknown(text)
        parts.append((part[1], parsed(part[2]), comments))
    return Record(*header(first, "record"), parts)


def mutual_data(lines):
    """Types that use each other."""
    blocks = []
    for line in filter(str.strip, lines):
        if line.startswith("  pub data"):
            blocks.append([])
        blocks[-1].append(line[2:])
    return [data(logical(block, 2)) for block in blocks]


def item(lines):
    """What the lines of one item declare."""
    first = lines[0]
    if first.startswith("abbrev mutual"):
        return functions(logical(lines[1:], 2))
    if first.startswith("abbrev pub "):
        return functions(logical([first.removeprefix("abbrev "), *lines[1:]], 0))
    if first.startswith("mutual"):
        return mutual_data(lines[1:])
    if first.startswith("pub data"):
        return [data(logical(lines, 2))]
    if first.startswith("pub record"):
        return record(logical(lines, 2))
    raise Unknown(first)


def body_end(lines, at):
    """Where the item ends whose first line this is. One that is mutual has empty lines inside."""
    is_mutual, end = "mutual" in lines[at], at + 1
    while end < len(lines):
        line = lines[end]
        if re.match(r"(abbrev|pub|mutual|use)\b", line) or not line.strip() and not is_mutual:
            break
        if is_mutual and line.strip() and not line.startswith(" "):
            break
        end += 1
    return end


# A line that names what a file uses of others, and one that passes it on.
USES = re.compile(r"(?:ghost )?(?:pub )?use Rattle\.(cap_spec|cap_difference|cap_laws)\.specs\.(\w+)(?:\.\w+)*\.\{(.*)\};?$")


def uses(text, passed_on=None):
    """The names that a file uses of others, by file. Those that a file only passes on are of the file that declares them."""
    found = {}
    for line in text.split("\n"):
        if used := USES.match(line):
            file = {"cap_difference": "DeclaredDifference"}.get(used[1], "Declared") if used[2] == "declared" else used[2]
            for name in re.split(r",\s*", used[3]):
                found.setdefault((passed_on or {}).get(file, {}).get(name, file), set()).add(name)
    return found


def read(text, passed_on=None):
    """A file of definitions."""
    items, comments, lines, at = [], [], text.split("\n"), 0
    while at < len(lines):
        line, end = lines[at], at + 1
        if line.startswith("--"):
            comments.append(line[2:].strip())
        elif not line.strip() or re.match(r"use |pub use |pub mod ", line):
            if comments:
                items.append((comments, None))
                comments = []
        else:
            end = body_end(lines, at)
            items.append((comments, item(lines[at:end])))
            comments = []
        at = end
    return File(uses(text, passed_on), items)


@dataclass
class Law:
    """A law by its name, its comment, and its clauses: each with its name, which may be empty."""
    name: str
    comments: list
    clauses: list


def laws(text):
    """The laws of a file of code: functions without a body, with statements as contracts."""
    found = []
    for docs, name, contract in re.findall(r"((?:^///.*\n)+)(?:#.*\n)*^pub fn (\w+)\(\)\n((?:.*\n)*?)\{\}", text, re.M):
        clauses = re.findall(r"^    ensures (?:(\w+) )?\{ (.*?) \}$", contract, re.M | re.S)
        if len(clauses) != contract.count("ensures "):
            raise Unknown(f"the clauses of {name}")
        found.append(Law(name, [line[3:].strip() for line in docs.strip().split("\n")],
                         [(clause, parsed(" ".join(statement.split()))) for clause, statement in clauses]))
    return found
