"""The names of the page of definitions: each is defined on the page before its use, or explained by the first part."""
import re

from source import WORD, code_of, imports, library_names, named, parted, renamed

# A part of a value, and the parts and cases that a type, a record or a trait gives to its values.
PART = re.compile(r"(?<=[\w')⟧])\.([A-Za-z_]\w*)")
PARTS = re.compile(r"^ *(?:pub(?:\(crate\))? )?(?:ghost )?(\w+) ?: |[{,] (\w+): |^    ([A-Z]\w*)", re.M)
# Words of a proof that no file imports.
BUILT = {"Type", "Unit", "absurd", "tt", "data", "record", "abbrev", "mutual", "pub", "ghost", "if", "let"}


class Names:
    """What the page has so far: the words of its code, its types, and their parts. Its first part explains `notation`."""

    def __init__(self, notation):
        self.notation, self.errors, self.before = notation, [], None
        self.words, self.types, self.fields = set(), set(), set()
        # (all as triples, but the names that a file gives to its imports: the file and the name)
        self.known, self.cited, self.aliases = set(), set(), set()

    def go_on(self, before):
        """The page goes on from another one, whose names are known."""
        self.before = before
        self.types |= before.types
        self.fields |= before.fields
        self.known |= before.known
        self.cited |= before.cited

    def show(self, text):
        """A text is on the page from now on."""
        bare = code_of(text)
        self.words.update(WORD.findall(bare))
        self.types.update(re.findall(r"\b(?:enum|struct|trait) (\w+)", bare))
        self.fields |= fields(bare)

    def cite(self, what, text, file, own=()):
        """Each name, part and sign of a text is known by now, or belongs to a library and is explained. Returns the names."""
        found, (_, rest) = dict(named(text, file)), parted(text, file)
        for word, name in found.items():
            crate, part, origin = name
            if word in renamed(file) & set(WORD.findall(rest)) and (file, word) not in self.aliases:
                self.errors.append(f"{what} uses {word} for {origin} of {crate}, which the page doesn't explain")
            if not crate.startswith("cap_"):
                self.explain(what, word)
            elif name not in self.known and name not in own:
                self.errors.append(f"{what} cites {origin} of {crate}, {part}, which is not on the page before it")
        self.parts(what, text, file)
        self.signs(what, code_of(text), file)
        names = set(found.values()) - set(own)
        self.cited |= names
        return names

    def parts(self, what, text, file):
        """Each part of a value is one that a type on the page has, or is explained."""
        pairs, rest = parted(text, file)
        known = self.fields | fields(code_of(text))
        for name, part in [*pairs, *(("", part) for part in PART.findall(rest))]:
            if part not in known:
                self.explain(what, f"{name}.{part}")

    def signs(self, what, text, file):
        """Each operator, sign and built-in word of a text is explained."""
        operators = [name.strip("◌") for name in imports(file) if name.startswith("◌")]
        used = {f" {sign} " for sign in operators if re.search(rf"\s{re.escape(sign)}\s", text)}
        for sign in sorted(used | set(re.findall(r"[^\x00-\x7f]", text)) | BUILT & set(WORD.findall(text))):
            self.explain(what, sign)

    def rust(self, what, text, file, own=()):
        """Each type that code names is on the page by now or explained, apart from a parameter of one letter."""
        known = {*own, *self.types, *imports(file)}
        for word in dict.fromkeys(re.findall(r"(?<![\w.'])[A-Z]\w+", code_of(text))):
            if word not in known:
                self.explain(what, word)

    def explain(self, what, word):
        """The first part has this name or sign."""
        start, end = (r"(?<!\w)" if word[0].isalnum() else ""), (r"(?!\w)" if word[-1].isalnum() else "")
        explained = self.notation if self.before is None else f"{self.notation} {self.before.notation}"
        if not re.search(start + re.escape(word) + end, explained):
            self.errors.append(f"{what} uses {word.strip()}, which the notation doesn't explain")

    def unused(self):
        """Each name of a library that the first part explains is used."""
        for word in sorted(library_names() & set(WORD.findall(self.notation)) - self.words):
            self.errors.append(f"the notation explains {word}, which nothing uses")


def fields(text):
    """The parts and cases that a text gives to values."""
    return {name for found in PARTS.findall(text) for name in found if name}
