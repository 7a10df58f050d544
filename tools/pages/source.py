"""Reads the definitions, contracts and worked examples of the crates, for the pages that are written from them.

A name is a triple: the crate, the file of its folder `specs` or `proofs`, and the name itself. Types of the code have
'declared' for their file. Names of libraries have their library for their crate.
"""
import re
from functools import cache
from pathlib import Path
from typing import NamedTuple

TOP = Path(__file__).resolve().parents[2]
CRATES = TOP / "crates"
# A name that is no part of a value, an import, and the names that a definition gives, at the margin and in a mutual one.
WORD = re.compile(r"(?<![\w.'])[A-Za-z_][\w']*(?:-[\w']+)*")
USE = re.compile(r"^\s*((?:ghost |pub )*)use (Rattle\.[\w.]+?)(?:\.\{([^}]*)\}| as (\w+));?$", re.M)
START = re.compile(r"^(?:abbrev |unfoldable )?(?:pub )?(?:abbrev |record |data )?([\w'-]+)(?= :| [({]|$)", re.M)
INNER = re.compile(r"^  (?:pub )?(?:abbrev |record |data )?([\w'-]+)(?= :| [({])", re.M)


class Chunk(NamedTuple):
    """One definition, or several that use each other: its text with comments, and the names that it gives."""
    text: str
    names: tuple

    def code(self):
        """Its lines without comments and empty ones."""
        return [line for line in self.text.split("\n") if line.strip() and not line.strip().startswith("--")]


def target(path, name):
    """What an imported name is: the one that is behind it, where a file passes it on."""
    parts = path.split(".")[1:]
    file = CRATES.joinpath(*parts).with_suffix(".antt")
    if file.is_file() and name in imports(file, passed_on=True):
        return imports(file, passed_on=True)[name]
    if len(parts) > 2 and "declared" in parts:
        types = [part for part in parts if part != "TheVariants"]
        return parts[0], "declared", types[-1]
    return parts[0], parts[-1], name


@cache
def imports(file, passed_on=False):
    """What the names that a file imports are, or only those that it passes on."""
    found, text = {}, file.read_text()
    lines = re.findall(r"^\s*(?:ghost |pub )*use Rattle\b.*$", text, re.M)
    if unread := [line for line in lines if not USE.match(line)]:
        raise LookupError(f"{file} has an import in another form: {unread[0]}")
    for marks, path, names, alias in USE.findall(text):
        if passed_on and "pub" not in marks:
            continue
        if alias:
            found[alias] = target(path, alias)
        for name in filter(None, re.split(r",\s*", names)):
            origin, _, new = name.strip().partition(" as ")
            found[new or origin] = target(path, origin)
    return found


@cache
def renamed(file):
    """The names that a file itself gives to what it imports."""
    uses = USE.findall(file.read_text())
    return {alias for *_, alias in uses if alias} | {new for *_, names, _ in uses for new in re.findall(r" as ([\w']+)", names)}


@cache
def chunks(file):
    """The definitions of a file of specs or proofs, in order."""
    lines = [line for line in file.read_text().split("\n") if not line.startswith("use ")]
    # (definitions of a module are at its margin)
    inside = False
    for i, line in enumerate(lines):
        if line and not line.startswith(" "):
            inside = line.startswith("module ")
            lines[i] = "" if inside else line
        elif inside:
            lines[i] = line[2:]
    found, now = [], []
    for before, line in zip(["", *lines], lines):
        if not before and line and not line.startswith(" "):
            found.append("\n".join(now).strip("\n"))
            now = []
        now.append(line)
    found.append("\n".join(now).strip("\n"))
    return [chunk for chunk in map(chunk_of, found) if chunk.names]


def chunk_of(text):
    """A definition with the names that it gives: its own, those of its parts if it is mutual, and constructors."""
    bare = re.sub(r"^\s*--.*$", "", text, flags=re.M)
    names = START.findall(bare)
    if "mutual" in names or re.search(r"^(?:abbrev )?mutual$", bare, re.M):
        names = INNER.findall(bare)
    # (constructors)
    for data in re.finditer(r"^( *)(?:pub )?data .*where$((?:\n\1  .*|\n)*)", bare, re.M):
        names += re.findall(rf"^{data[1]}  ([\w']+)(?= :)", data[2], re.M)
    return Chunk(text, tuple(dict.fromkeys(names)))


def spec(crate, name, folder="specs"):
    return CRATES / crate / folder / f"{name}.antt"


@cache
def chunk_with(file, name):
    """The definition of a name in a file."""
    for chunk in chunks(file):
        if name in chunk.names:
            return chunk
    raise LookupError(f"{file} doesn't define {name}")


def arguments(text, file):
    """The arguments of equations that are called like a function of their file."""
    if file.suffix != ".antt":
        return set()
    found = {name for chunk in chunks(file) if "abbrev" in chunk.text for name in chunk.names}
    lefts = re.findall(r"^ *[\w'-]+ ([^:=\n]*) =(?: |$)", text, re.M)
    return found & {word for left in lefts for word in WORD.findall(left)}


def code_of(text):
    """A text without comments."""
    return re.sub(r"--.*$|//.*$", "", text, flags=re.M)


def parted(text, file):
    """The imported names of a text that a part follows, each with the part, and the rest of the text."""
    found = []

    def take(match):
        if match[1] not in imports(file):
            return match[0]
        found.append((match[1], match[2]))
        return ""

    rest = re.sub(r"(?<![\w.'])([A-Za-z_][\w']*)\.([A-Za-z_][\w']*)", take, code_of(text))
    return found, rest


def named(text, file):
    """The words of a text of a file that cite a name, each with the triple of the name."""
    bare = code_of(text)
    known = imports(file)
    here = {name for chunk in chunks(file) for name in chunk.names} if file.suffix == ".antt" else ()
    bound = arguments(bare, file)
    for word in dict.fromkeys(WORD.findall(bare)):
        if word in bound:
            continue
        if word in known:
            yield word, known[word]
        elif word in here:
            yield word, (file.relative_to(CRATES).parts[0], file.stem, word)


def cited(text, file):
    """The names that a text of a file cites, as triples."""
    return [name for _, name in named(text, file)]


@cache
def library_names():
    """The names of libraries that some file of the crates imports."""
    files = [file for folder in ("specs", "src") for end in ("antt", "rt") for file in CRATES.glob(f"*/{folder}/**/*.{end}")]
    return {word for file in files for word, (crate, *_) in imports(file).items() if not crate.startswith("cap_")}


@cache
def rattle(crate):
    """The code of a crate."""
    return sorted((CRATES / crate / "src").rglob("*.rt"))


@cache
def declared(crate, name):
    """A type of the code, with its comments: its file and its text."""
    for file in rattle(crate):
        kinds = r"pub(?:\(crate\))? (?:enum|struct|trait)"
        found = re.search(rf"^(?:///.*\n|#\[.*\]\n)*^{kinds} {name}\b.*\{{\n(?:.*\n)*?}}$", file.read_text(), re.M)
        if found:
            return file, re.sub(r"^#\[.*\]\n", "", found[0], flags=re.M)
    raise LookupError(f"{crate} declares no {name}")


class Contract(NamedTuple):
    """A function: its file, name, the type that it is of, comment, signature, and clauses by name, in order."""
    file: Path
    name: str
    owner: str
    comment: str
    head: str
    clauses: dict


def clauses_of(lines):
    """The clauses of these lines, each with its name and its lines, without comments. One without a name is ''."""
    found, name = {}, None
    for line in lines:
        begun = re.match(r"\s*(requires|ensures)(?: (\w+))? \{", line)
        if begun:
            name = begun[2] or ("requires" if begun[1] == "requires" else "")
            found[name] = []
        if name is not None and line.strip() and not line.strip().startswith("//"):
            found[name].append(line)
    return {key: "\n".join(text) for key, text in found.items()}


# A function: its comment and attributes, indentation, signature with clauses, and name. Its body begins on a line of its own.
FUNCTION = re.compile(r"((?:^ *///.*\n|^ *#\[.*\]\n)*)^( *)((?:pub )?(?:extern \"C\" )?fn (\w+)\b.*(?<!\{)(?<!\{\})\n"
                      r"(?:(?!\2\}).*\n)*?)(?=\2\{\n|\2\{\}\n)", re.M)
# The type of an `impl`.
OWNER = re.compile(r"^impl(?:<[^{]*?>)? (?:[\w:]+(?:<[^{]*?>)? for )?&?(?:'\w+ )?(\w+)", re.M)


@cache
def functions(file):
    """The functions of a file that have contracts."""
    found, source = [], file.read_text()
    for match in FUNCTION.finditer(source):
        comment, indent, text, name = match.groups()
        lines = text.rstrip("\n").split("\n")
        first = next((i for i, line in enumerate(lines) if re.match(r"\s*(requires|ensures)\b", line)), len(lines))
        comment = [line.strip()[3:].strip() for line in comment.split("\n") if line.strip().startswith("///")]
        head = "\n".join([indent + lines[0], *lines[1:first]])
        owner = ["", *OWNER.findall(source[:match.start()])][-1] if indent else ""
        found.append(Contract(file, name, owner, "\n".join(comment), head, clauses_of(lines[first:])))
    return found


def contract(path, name):
    """The function of this name in a file below crates/."""
    for found in functions(CRATES / path):
        if found.name == name:
            return found
    raise LookupError(f"{path} has no function {name}")


def dedent(text):
    """A text without the spaces that all its lines begin with."""
    lines = text.split("\n")
    least = min((len(line) - len(line.lstrip()) for line in lines if line.strip()), default=0)
    return "\n".join(line[least:] for line in lines)


def statement(file, name):
    """A worked example without its proof: its comment and its statement."""
    text = file.read_text()
    found = re.search(rf"((?:^--.*\n)*)^{re.escape(name)} :((?:.*\n)*?)(?={re.escape(name)} )", text, re.M)
    if not found:
        raise LookupError(f"{file} doesn't state {name}")
    return found[1] + f"{name} :{found[2]}".rstrip("\n")


def public(crate):
    """The public functions of a crate that have clauses."""
    found = [function for file in rattle(crate) for function in functions(file)]
    return [function for function in found if re.match(r"\s*pub (?:extern \"C\" )?fn", function.head) and function.clauses]


def traits(crate):
    """The public traits of a crate, each with its file."""
    for file in rattle(crate):
        for name in re.findall(r"^pub trait (\w+)", file.read_text(), re.M):
            yield file, declared(crate, name)[1]


def summary(file):
    """The first sentence of the comment at the start of a file."""
    lines = []
    for line in file.read_text().split("\n"):
        if not line.startswith(("--", "//!")):
            break
        lines.append(line.lstrip("-/! "))
    return sentence(" ".join(lines))


def sentence(comment):
    """The first sentence of a comment, without references."""
    text = " ".join(comment.split("\n\n")[0].split())
    text = re.split(r"(?<=[.])\s+(?=[A-Z`])", text)[0]
    text = re.sub(r" \((?:encoding|standard|profile)\b[^)]*\)", "", text)
    return re.sub(r"\[(`[^`]*`)\](?:\([^)]*\))?", lambda link: link[1].replace("crate::", ""), text)
