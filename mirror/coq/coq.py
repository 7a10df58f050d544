"""Writes definitions as Coq text: the same names, in the same order, with the same comments.

- A part of a record has the record's name before it, and so has a case of a type that has parameters: `IsInside_exists`.
- A case whose name another type has too has its type's name before it: `Ending_none`.
- A function that only recurs from `suc n` to `n` is one over `nat`, with `_by` after its name. Another one over ℕ uses it.
- A variable whose name Coq would read as something else has `_` after it.
"""
import re

from antt import Data, Record, Unknown

WORDS = {"at", "by", "in", "end", "match", "as", "with", "using", "where", "exists", "for", "fun", "fix", "let", "mod", "return",
         "Set", "Type", "Prop", "forall", "then", "else", "if"}
TERMS = {"List": "list", "Option": "option", "Bool": "bool", "⊥": "False", "⊤": "True", "Unit": "True", "zero": "0"}
SIGNS = {"≡": "=", "≢": "≠", "==": "=?", "∷": "::", "%": "mod"}
LOGIC = ("→", "↔", "⊎", "×")
COMPARISONS = ("≡", "≢", "≤", "<", "<ℤ")
TO_RIGHT, TO_LEFT = ("→", "⊎", "×", "∷", "++"), ("+", "*", "+ℤ")
# How long a line may be, and where it is broken, the best places first.
WIDTH = 118
BREAKS = (r"[×→⊎] | (?=else )|(?<=\)) => |^  \| .*? => ", r"(?:\+\+|::|,) ", r"= ")


def bare(e):
    """An expression without its outermost brackets."""
    while e[0] == "paren":
        e = e[1]
    return e


def plain(e):
    """An expression without any brackets, so that a pattern and an expression can be compared."""
    if isinstance(e, tuple):
        return plain(e[1]) if e[:1] == ("paren",) else tuple(map(plain, e))
    return list(map(plain, e)) if isinstance(e, list) else e


def occurs(part, e):
    return e == part or isinstance(e, (tuple, list)) and any(occurs(part, inner) for inner in e)


def replaced(e, part, by):
    """An expression with another one in place of a part."""
    if plain(e) == part:
        return by
    if isinstance(e, tuple):
        return tuple(replaced(inner, part, by) for inner in e)
    return [replaced(inner, part, by) for inner in e] if isinstance(e, list) else e


def calls(e, names):
    """The calls of these functions in an expression, each with its arguments."""
    found = []
    if isinstance(e, tuple) and e[:1] == ("app",) and bare(e[1])[1] in names:
        found.append((bare(e[1])[1], e[2]))
    for inner in e if isinstance(e, (tuple, list)) else ():
        found += calls(inner, names)
    return found


def type_head(type_):
    """The name that a type begins with."""
    type_ = bare(type_)
    return type_head(type_[1]) if type_[0] == "app" else type_[1] if type_[0] == "id" else None


def is_number(pattern):
    pattern = bare(pattern)
    return pattern == ("id", "zero") or pattern[0] == "app" and bare(pattern[1]) == ("id", "suc")


def folded(line):
    """A line of at most WIDTH columns as far as it can be broken at a sign."""
    indent, lines = " " * (len(re.match(r"[ |]*", line)[0]) + 2), []
    while len(line) > WIDTH:
        for breaks in BREAKS:
            ends = [it.end() for it in re.finditer(breaks, line[:WIDTH]) if it.end() > WIDTH // 2]
            if ends:
                break
        else:
            break
        lines.append(line[:ends[-1]].rstrip())
        line = indent + line[ends[-1]:].lstrip()
    return "\n".join([*lines, line])


def comment(text):
    text = text.replace("(*", "( *").replace("*)", "* )")
    return f"(* {text} *)" if text else ""


class Library:
    """What all files together declare."""

    def __init__(self):
        # (the parts of each record with the heads of their types, the parts that some definition takes)
        self.records, self.taken = {}, set()
        # (the cases of types without parameters, by file: each name in the sources with its name in Coq)
        self.cases = {}
        self.owners = {}

    def add_case(self, file, owner, name):
        """The name of a case in Coq."""
        used = name if self.owners.setdefault(name, owner) == owner else f"{owner}_{name}"
        self.cases.setdefault(file, {})[name] = used
        return used


class Scope:
    """The names that variables have in Coq, and the heads of their types."""

    def __init__(self, writer, types=None, renamed=None):
        self.writer, self.types, self.renamed = writer, dict(types or {}), dict(renamed or {})

    def head(self, e):
        """The head of the type of a value, if it is known."""
        e = bare(e)
        if e[0] == "id":
            return self.types.get(e[1])
        return self.writer.library.records.get(self.head(e[1]), {}).get(e[2]) if e[0] == "field" else None

    def name(self, name):
        if name in self.renamed:
            return self.renamed[name]
        if name in self.writer.used:
            return self.writer.used[name]
        return f"{name}_" if name in WORDS or name in self.writer.hidden else TERMS.get(name, name)

    def bind(self, groups):
        """The scope inside of binders, and the binders as Coq text."""
        inner, texts = Scope(self.writer, self.types, self.renamed), []
        for names, type_, is_implicit in groups:
            for name in names:
                inner.renamed.pop(name, None)
                inner.types[name] = type_head(type_) if type_ else None
            text = " ".join(map(inner.name, names))
            if type_:
                text = ("{%s : %s}" if is_implicit else "(%s : %s)") % (text, inner.show(type_))
            texts.append(text)
        return inner, " ".join(texts)

    def show(self, e, inside=False):
        """An expression as Coq text, with brackets around it if it is inside of another one and needs them."""
        text, is_closed = getattr(self, f"show_{e[0]}")(*e[1:])
        return text if is_closed or not inside else f"({text})"

    # Each of these gives the text, and whether it needs no brackets.

    def show_paren(self, inner):
        if bare(inner)[0] in ("id", "number", "nil", "tuple", "field"):
            return self.show(inner), bare(inner)[0] != "field"
        return f"({self.show(inner).removeprefix('(').removesuffix(')') if inner[0] == 'fun' else self.show(inner)})", True

    def show_id(self, name):
        return self.name(name), True

    def show_number(self, digits):
        return digits, True

    def show_text(self, quoted):
        return f"{quoted}%string", True

    def show_nil(self):
        return "[]", True

    def show_tuple(self, parts):
        return f"({', '.join(map(self.show, parts))})", True

    def show_field(self, value, name):
        if name in "01":
            return f"{('fst', 'snd')[int(name)]} {self.show(value, True)}", False
        head = self.head(value)
        if name not in self.writer.library.records.get(head, {}):
            raise Unknown(f"the type of {value} for .{name}")
        return f"{head}_{name} {self.show(value, True)}", False

    def show_app(self, function, arguments):
        if bare(function) == ("id", "Type"):
            return "Set", True
        return " ".join(self.show(it, True) for it in (function, *arguments)), False

    def show_not(self, inner):
        return f"¬ {self.side(inner, '¬')}", False

    def show_op(self, sign, left, right):
        return f"{self.side(left, sign)} {SIGNS.get(sign, sign)} {self.side(right, sign, is_right=True)}", False

    def show_all(self, groups, body, sign="∀"):
        inner, text = self.bind(groups)
        return f"{sign} {text}, {inner.show(body)}", False

    def show_some(self, groups, body):
        return self.show_all(groups, body, "∃")

    def show_fun(self, groups, body):
        inner, text = self.bind(groups)
        return f"(fun {text} => {inner.show(body)})", True

    def show_let(self, name, value, body):
        inner = Scope(self.writer, {**self.types, name: None}, self.renamed)
        return f"let {inner.name(name)} := {self.show(value)} in {inner.show(body)}", False

    def show_if(self, condition, yes, no):
        return f"if {self.show(condition)} then {self.show(yes)} else {self.show(no)}", False

    def side(self, e, sign, is_right=False):
        """An operand of a sign, in brackets where Coq or a reader needs them."""
        kind = e[0]
        needs = kind in ("if", "not") and not (kind == "not" and sign in LOGIC)
        if kind in ("all", "some", "let"):
            needs = not (is_right and sign in LOGIC)
        if kind == "op":
            own = e[1]
            joins = own == sign and sign in (TO_RIGHT if is_right else TO_LEFT)
            looser = sign in LOGIC and own not in LOGIC or sign in COMPARISONS and own not in COMPARISONS + LOGIC
            needs = not (joins or looser)
        return f"({self.show(e)})" if needs else self.show(e)


class Writer:
    """Writes one file."""

    def __init__(self, library, name, file):
        self.library, self.name, self.file = library, name, file
        # (the cases that the file uses, and those that Coq knows there although the file doesn't use them)
        self.used, self.hidden = {}, set()
        for other, names in file.uses.items():
            cases = library.cases.get(other, {})
            self.used |= {it: cases[it] for it in names if it in cases}
            self.hidden |= {used for it, used in cases.items() if it not in names}
        self.hidden -= set(self.used)
        self.known = {"true", "false", "None", "Some"}

    def write(self):
        texts = []
        for comments, item in self.file.items:
            notes = [comment(it) for it in comments]
            texts.append("\n".join([*notes, *([] if item is None else [self.item(item)])]))
        return "\n\n".join(texts) + "\n"

    def item(self, item):
        if isinstance(item, Record):
            return self.record(item)
        if isinstance(item[0], Data):
            return "\n".join(self.data(it, "with" if at else "Inductive") for at, it in enumerate(item)) + "."
        return self.functions(item)

    # ---- types

    def parameters(self, groups):
        return f" {Scope(self).bind(groups)[1]}" if groups else ""

    def data(self, data, word):
        lines = [f"{word} {data.name}{self.parameters(data.parameters)} : Set :="]
        for name, type_, comments in data.cases:
            lines += [f"  {comment(it)}" for it in comments]
            if data.parameters:
                # (a function by cases names them without their type)
                shown = f"{data.name}_{name}"
                self.library.cases.setdefault(self.name, {})[name] = shown
                self.library.records[shown] = {"": sum(len(names) for names, _, _ in data.parameters)}
            else:
                shown = self.library.add_case(self.name, data.name, name)
            self.used[name] = shown
            lines.append(folded(f"  | {shown} : {Scope(self).show(type_)}"))
        return "\n".join(lines)

    def record(self, record):
        inner, lines = Scope(self).bind(record.parameters)[0], []
        parts = self.library.records[record.name] = {}
        for name, type_, comments in record.parts:
            lines += [f"  {comment(it)}" for it in comments]
            full = f"{record.name}_{name}"
            lines.append(folded(f"  {full} : {inner.show(type_)};"))
            parts[name] = inner.types[name] = type_head(type_)
            inner.renamed[name] = full
        head = f"Record {record.name}{self.parameters(record.parameters)} : Set := {record.name}_intro {{"
        text = "\n".join([head, *lines]).removesuffix(";") + "\n}."
        if record.parameters:
            names = " ".join(Scope(self).name(it) for names, _, _ in record.parameters for it in names)
            text += "".join(f"\nArguments {record.name}_{it} {{{names}}} _." for it in parts if it in self.library.taken)
        return text

    # ---- functions

    def functions(self, functions):
        names = {it.name for it in functions}
        is_recursive = any(occurs(("id", name), body) for it in functions for _, body in it.equations for name in names)
        if is_recursive and len(functions) == 1 and (column := counted(functions[0])) is not None:
            return self.by_count(functions[0], column)
        texts = []
        for function in functions:
            word = "with" if texts else "Fixpoint" if is_recursive else "Definition"
            texts += [comment(it) for it in function.comments] + [f"{word} {self.function(function, is_recursive)}"]
        return "\n".join(texts) + "."

    def function(self, function, is_recursive=False, column=None, name=None):
        """A function without the word before it. The column is that of a number that is a `nat` here."""
        columns, implicit, result = arguments(function)
        found = [name_of_column(function, at) for at in range(len(columns))]
        names = [it or f"x{at}" for at, it in enumerate(found, 1)]
        scope = Scope(self, {it: type_head(type_) for it, type_ in zip(names, columns)})
        shown = [scope.name(it) for it in names]
        types = ["nat" if at == column else Scope(self).show(it) for at, it in enumerate(columns)]
        head = [name or scope.name(function.name)]
        head += [f"{{{Scope(self).name(it)} : {Scope(self).show(type_)}}}" for it, type_ in implicit]
        head += [f"({it} : {type_})" for it, type_ in zip(shown, types)]
        text = folded(f"{' '.join(head)} : {Scope(self).show(result)} :=") + "\n"
        matched = [at for at, it in enumerate(found) if it is None]
        if not matched:
            if len(function.equations) != 1:
                raise Unknown(f"{function.name} has an equation after one that always fits")
            return text + folded(f"  {scope.show(function.equations[0][1])}")
        counts = [at for at in matched if at != column and any(is_number(ps[at]) for ps, _ in function.equations)]
        heads = ", ".join(f"as_number {shown[at]}" if at in counts else shown[at] for at in matched)
        lines = []
        for patterns, body in function.equations:
            places = [(patterns[at], names[at], columns[at], at in counts, at == column) for at in matched]
            lines.append(self.equation(scope, places, body, is_recursive))
        return "\n".join([f"{text}  match {heads} with", *lines, "  end"])

    def equation(self, scope, places, body, is_recursive):
        """One case of a match. A place is a pattern with the argument's name and type, whether it is a number, and whether that is a
        `nat` here. Parts of a pattern that the body has again get names, so that Coq sees them as parts."""
        aliases = []
        if is_recursive:
            for pattern, _, _, _, _ in places:
                named_parts(plain(pattern), body, aliases)
            for part, alias in aliases:
                body = replaced(body, part, ("id", alias))
        inner, shown = Scope(self, scope.types), []
        for pattern, name, type_, is_count, is_nat in places:
            variable = bare(pattern)
            if variable[0] == "id":
                inner.types[variable[1]] = type_head(type_)
                if is_count and variable[1] not in ("zero", "_"):
                    inner.renamed[variable[1]] = scope.name(name)
            shown.append(self.pattern(pattern, scope, aliases, is_nat))
        return folded(f"  | {', '.join(shown)} => {inner.show(body)}")

    def pattern(self, pattern, scope, aliases=(), is_nat=False):
        for part, name in aliases:
            if plain(pattern) == part:
                return f"({self.pattern(pattern, scope, (), is_nat)} as {name})"
        e = bare(pattern)

        def inner(it):
            return self.pattern(it, scope, aliases)

        if e == ("id", "zero"):
            return "O" if is_nat else "is_zero"
        if e[0] == "id":
            return e[1] if e[1] == "_" or e[1] in self.known else scope.name(e[1])
        if e[0] == "nil":
            return "[]"
        if e[0] == "tuple":
            return f"({', '.join(map(inner, e[1]))})"
        if e[0] == "op" and e[1] == "∷":
            return f"({inner(e[2])} :: {inner(e[3])})"
        if e[0] == "app":
            name = bare(e[1])[1]
            if name == "suc":
                return f"({'S' if is_nat else 'is_suc'} {' '.join(map(inner, e[2]))})"
            if name in self.known:
                return f"({name} {' '.join(map(inner, e[2]))})"
            if name in self.used:
                # (the parameters of the type come first)
                hidden = ["_"] * self.library.records.get(self.used[name], {}).get("", 0)
                return f"({' '.join([self.used[name], *hidden, *map(inner, e[2])])})"
        raise Unknown(f"the pattern {pattern}")

    def by_count(self, function, column):
        """A function that recurs on a number alone, over `nat`, and the function over ℕ by it."""
        types, implicit, result = arguments(function)
        name, by = function.name, f"{function.name}_by"
        for at, (patterns, body) in enumerate(function.equations):
            function.equations[at] = patterns, replaced(body, ("id", name), ("id", by))
        texts = [comment(it) for it in function.comments] + [f"Fixpoint {self.function(function, True, column, by)}."]
        scope = Scope(self)
        names = [name_of_column(function, at) or f"x{at + 1}" for at in range(len(types))]
        binders = " ".join(f"({scope.name(it)} : {scope.show(type_)})" for it, type_ in zip(names, types))
        given = " ".join(f"(N.to_nat {scope.name(it)})" if at == column else scope.name(it) for at, it in enumerate(names))
        texts.append(f"Definition {name} {binders} : {scope.show(result)} := {by} {given}.")
        return "\n".join(texts)


def name_of_column(function, at):
    """The name that all equations give an argument, or None if some look into it."""
    names = {bare(patterns[at])[1] if is_variable(bare(patterns[at])) else None for patterns, _ in function.equations}
    return names.pop() if len(names) == 1 else None


def is_variable(pattern):
    return pattern[0] == "id" and pattern[1] not in ("zero", "_", "true", "false", "None")


def arguments(function):
    """The types of the arguments that equations name, the implicit ones before them, and the type of the result."""
    count, types, implicit, rest = len(function.equations[0][0]), [], [], function.type
    if any(len(patterns) != count for patterns, _ in function.equations):
        raise Unknown(f"{function.name} has equations of different lengths")
    while len(types) < count:
        if rest[0] == "op" and rest[1] == "→":
            types.append(rest[2])
            rest = rest[3]
        elif rest[0] == "all":
            for names, type_, is_implicit in rest[1]:
                if is_implicit:
                    implicit += [(name, type_) for name in names]
                else:
                    types += [type_] * len(names)
            rest = rest[2]
        else:
            raise Unknown(f"{function.name} has more arguments than its type")
    return types, implicit, bare(rest)


def variables(pattern):
    """The names in a pattern."""
    pattern = bare(pattern)
    if pattern[0] == "id":
        return {pattern[1]}
    parts = {"app": pattern[2:3], "op": [pattern[2:]], "tuple": pattern[1:2]}.get(pattern[0], ())
    return set().union(*(variables(part) for inner in parts for part in inner))


def counted(function):
    """The argument by which a function recurs, if it is a number and no other one becomes smaller."""
    def smaller(at):
        """Whether each call is of a part of this argument."""
        for patterns, body in function.equations:
            for _, given in calls(body, {function.name}):
                parts = variables(patterns[at]) if bare(patterns[at])[0] in ("app", "op") else set()
                if at >= len(given) or bare(given[at])[0] != "id" or bare(given[at])[1] not in parts:
                    return False
        return True

    columns = range(len(function.equations[0][0]))
    numbers = [at for at in columns if any(is_number(patterns[at]) for patterns, _ in function.equations)]
    if any(smaller(at) for at in columns if at not in numbers):
        return None
    return next((at for at in numbers if smaller(at)), None)


def named_parts(pattern, body, found):
    """The parts of a pattern that the body has again as a whole, each with a name for it."""
    if is_number(pattern):
        return
    for part in pattern[2:] if pattern[0] == "op" else pattern[2] if pattern[0] == "app" else ():
        if part[0] not in ("op", "app") or part in (it for it, _ in found):
            continue
        if occurs(part, plain(body)):
            found.append((part, f"part{len(found) + 1}"))
        else:
            named_parts(part, body, found)


# ---- laws

def statements(law, writer):
    """The clauses of a law, each as a statement of the law's name and its own."""
    lines = [comment(it) for it in law.comments]
    for clause, statement in law.clauses:
        lines += [f"Definition {law.name}{clause and '_' + clause} : Set :=", folded(f"  {Scope(writer).show(statement)}") + "."]
    return "\n".join(lines)


# ---- the enums and structs of the code

def declared(text, library, file, source):
    """The enums and structs that the definitions speak of. Each number is one of ℕ."""
    text = re.sub(r"#!?\[[^\]]*\]\n", "", text)
    out = [f"(* The enums and structs of crates/{source} that the definitions speak of. Each number is one of ℕ. *)"]

    def number(type_):
        return "ℕ" if re.fullmatch(r"u(8|16|32|64)", type_.strip()) else type_.strip()

    for docs, kind, name, body in re.findall(r"((?:^///[^\n]*\n)*)^pub (enum|struct) (\w+) \{\n(.*?)^\}", text, re.M | re.S):
        lines = [comment(it[3:].strip()) for it in docs.strip().split("\n")]
        body = re.sub(r"^\s*///[^\n]*\n", "", body, flags=re.M)
        if kind == "struct":
            parts = re.findall(r"pub (\w+): ([^,]+),", body)
            library.records[name] = {part: number(type_) for part, type_ in parts}
            shown = ";\n".join(f"  {name}_{part} : {number(type_)}" for part, type_ in parts)
            lines += [f"Record {name} : Set := {name}_intro {{", shown, "}."]
        else:
            lines.append(f"Inductive {name} : Set :=")
            for case, single, parts in re.findall(r"(\w+)\s*(?:\(([^)]*)\)|\{([^}]*)\})?\s*,", body):
                types = single.split(",") if single else re.findall(r"\w+:\s*([^,\n]+)", parts)
                lines.append(f"  | {library.add_case(file, name, case)} : {' → '.join([*map(number, types), name])}")
            lines[-1] += "."
        out.append("\n".join(filter(None, lines)))
    return "\n\n".join(out) + "\n"
