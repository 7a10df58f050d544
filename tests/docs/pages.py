#!/usr/bin/env python3
"""Runs the commands that the pages show with the built program, looks up what they quote, and checks their words.

    pages.py [PROGRAM]

A block of a page that has lines '$ COMMAND' is run line by line in a folder with the samples. Each command has to print
exactly what the page shows after it. A block of docs/proofs.md has to be in a file that the page names, or what the prover
reported when build/ was made. A block of shell there has to run at the top of the repository. Links lead to a file and to a heading that exist, and files that a page
names exist. The recipes of docs/guide.md are short, and their commands are run. The pages that tools/pages/write.py makes are what it would write. The pages, the manual pages, the header
and help have no word of tests/docs/words.md, no sentence of more than 40 words, and one tagline. The numbers of limits in pages,
examples and headers have names. No page has control characters, and the manual page has each exit status. The last line is
'N passed, M failed', and the status is 1 if a case failed.
"""
import os
import re
import shutil
import sys
import tempfile
from pathlib import Path

sys.path[1:1] = map(str, Path(__file__).resolve().parents[1].iterdir())

from harness import PROGRAM, TOP, compare, ended, file_of, run
from helps import HELPS
from needs import missing

PAGES = ("README.md", "SECURITY.md", "docs/guide.md", "docs/service.md", "docs/output.md", "docs/format.md")
MARKDOWN = ("README.md", "CHANGELOG.md", "CONTRIBUTING.md", "SECURITY.md", "mirror/coq/README.md",
            *(str(path.relative_to(TOP)) for path in sorted((*TOP.glob("docs/**/*.md"), *TOP.glob("crates/*/README.md")))))
TAGLINE = "untrusted Cap'n Proto messages without a schema"
TAGGED = ("README.md", "docs/capvet.1", "docs/capvet.3", "include/capvet.h", "capvet.pc.in", "crates/cap_commands/src/commands.rt",
          "rust/capvet/Cargo.toml", "rust/capvet/README.md", "bindings/go/capvet.go", "packaging/README-archive.md",
          "packaging/README-debian.md", "packaging/debian/capvet/control")
LONGEST = 40
BLOCK = re.compile(r"^```(\w*)\n(.*?)^```$", re.M | re.S)
# What docs/guide.md begins with, and the most words of each.
RECIPES = ("I run a service", "I sign messages", "I have an archive", "I got a refusal", "I review the proofs")
MOST_WORDS = 300
# The most words of docs/accepted.md.
MOST_TO_ACCEPT = 4000
# The programs of the recipes that other scripts run by what the guide has.
RUN_BY = {"capvet-guard": "guard.py", "make -C mirror/coq": "mirror.py"}
# The most words of README.md, without what only divides cells.
MOST_OF_README = 800
# What a script writes of the prover's report on a crate.
REPORT = re.compile(r"^<!-- report of \w+ -->\n```\n(.*?)^```$", re.M | re.S)
# Limits whose numbers have no names, in C and in C++: a reader can't distinguish them.
POSITIONAL = re.compile(r"\b(?:capvet_limits|Options)(?: \w+)?(?:\[\])? ?=? ?\{+ *\w|\blimits = \{ *\w")


def commands(block):
    """The commands of a block, each with its output."""
    return re.findall(r"^\$ (.*)\n((?:(?!\$ ).*\n)*)", block, re.M)


def shown(page):
    """Runs the commands of a page, one after the other in one folder."""
    environment = {**os.environ, "PATH": f"{PROGRAM.parent}:{os.environ['PATH']}", "LC_ALL": "C.UTF-8"}
    with tempfile.TemporaryDirectory() as folder:
        shutil.copytree(TOP / "examples", Path(folder) / "examples")
        count = 0
        for _, block in BLOCK.findall((TOP / page).read_text()):
            if "openssl pkey" in block and missing(f"commands of {page} with openssl", "openssl"):
                continue
            for command, expected in commands(block):
                compare(f"{page}: {command}", expected, run(["bash", "-c", command], cwd=folder, env=environment)[0])
                count += 1
        compare(f"{page} shows commands", True, count > 0)


def recipes():
    """The guide begins with its recipes, none of them long, and each of their commands is run: the lines '$ COMMAND' by `shown`, and
    of the blocks of shell those of tools/erase/ here. Other scripts run the others, by the text of the guide."""
    text = (TOP / "docs/guide.md").read_text()
    sections = dict(part.split("\n", 1) for part in text.split("\n## ")[1:])
    compare("the first sections of the guide", list(RECIPES), list(sections)[:len(RECIPES)])
    targets = re.findall(r"[\w-]+", re.search(r"^\.PHONY: (run .*)$", (TOP / "Makefile").read_text(), re.M)[1])
    for name in RECIPES:
        recipe = re.sub(r"<!--.*?-->", "", sections[name], flags=re.S)
        words = len(recipe.split())
        compare(f"words of {name!r}, {words}, are at most {MOST_WORDS}", True, words <= MOST_WORDS)
        blocks = BLOCK.findall(recipe)
        compare(f"{name!r} has commands", True, any(language in ("console", "sh") for language, _ in blocks))
        for line in "".join(block for language, block in blocks if language == "sh").splitlines():
            script = next((script for begin, script in RUN_BY.items() if line.startswith(begin)), None)
            if line.startswith("python3 tools/erase/"):
                compare(line, 0, run(line.split(), cwd=TOP)[1])
            elif script:
                compare(f"{script} runs {line!r} of the guide", True, "docs/guide.md" in file_of(script).read_text())
            else:
                # (these run this script, or the gate runs them)
                compare(f"{line!r} exists", True, (TOP / line.split()[1]).is_file() if line.startswith("python3 ") else line.split()[1] in targets)
    said = re.search(r"This page has the (\d+) lines of definitions", (TOP / "docs/accepted.md").read_text())[1]
    compare("the page on an accepted message is short", True, len((TOP / "docs/accepted.md").read_text().split()) <= MOST_TO_ACCEPT)
    compare("lines of definitions, by the guide", [said], re.findall(r"(\d+) lines\. A proof", sections[RECIPES[4]]))


def front():
    """README.md is short. Its lines of code are in a program of the page that each row links to, but for the names of variables: other
    scripts compile these programs. Its numbers of speed are those of docs/speed.md, and its times those of other pages."""
    text = (TOP / "README.md").read_text()
    count = len([word for word in text.split() if word.strip("|#-")])
    compare(f"words of README.md, {count}, are at most {MOST_OF_README}", True, count <= MOST_OF_README)
    rows = re.findall(r"^\| [\w+]+ \| `([^`]+)` \| \[.*?\]\((docs/\w+\.md)\)", text, re.M)
    compare("languages of README.md with a line", 6, len(rows))
    for line, page in rows:
        programs = "\n".join(block for _, block in BLOCK.findall((TOP / page).read_text()))
        call = re.search(r"[\w:.]*[vV]et(?:ted)?\(.*?\)(?=;|\?|$| ==| !=)(?:\?\.into_reader\(\))?", line)[0]
        compare(f"{page} has {call}", True, anonymous(call) in anonymous(programs))
    speed = (TOP / "docs/speed.md").read_text()
    compare("numbers of speed in README.md", re.findall(r"takes? (0\.\d to 0\.\d) of", speed), re.findall(r"(0\.\d to 0\.\d) of", text))
    everywhere = (TOP / "docs/internals/testing.md").read_text() + (TOP / "tools/all.py").read_text()
    compare("times of make prove", True, "takes 20 to 45 minutes on four cores" in everywhere and "20 to 45 minutes" in text)


def anonymous(code):
    """Code with one name for what a program may call its bytes."""
    return re.sub(r"\b(bytes|received|data)\b", "bytes", re.sub(r"kj::mv\((\w+)\)", r"\1", code))


def quoted(page):
    """A page's quotations are in files that it names, word for word, and its shell commands run."""
    text = (TOP / page).read_text()
    named = {name: (TOP / name).read_text() for name in re.findall(r"`(crates/[\w/.]+\.\w+)`", text)}
    blocks = BLOCK.findall(REPORT.sub("", text))
    for language, block in blocks:
        if language == "sh":
            output, status = run(["sh", "-ec", block], cwd=TOP)
            lines = output.splitlines()
            compare(f"{page} runs {block!r}", 0, status)
            # (one of a public function, one of a member of a trait, and nothing else)
            compare(f"{page} finds by {block!r}", True, all("requires" in line for line in lines)
                    and all(f"/{name}.rt:" in output for name in ("following", "segments")))
        else:
            compare(f"{page} quotes {block!r}", True, any(block in file for file in named.values()))
    compare(f"{page} quotes", True, len(blocks) > 1)


def reported(page):
    """A page explains each word of what the prover reports of the program and of the archive, and names the libraries that are
    taken as they are. (that the page quotes both is looked at with the pages that a script writes)"""
    text = (TOP / page).read_text()
    quotations = REPORT.findall(text)
    compare(f"{page} quotes two reports", [True, True], [it.count("\nlogic=proved ") == 1 for it in quotations])
    words = set(re.findall(r"(?<= )([\w-]+)=", "".join(re.findall(r"^logic=.*", "".join(quotations), re.M))))
    compare(f"{page} explains each word", set(), words - set(re.findall(r"(?<=[ |]`)([\w-]+)=", text)))
    reports = "".join(file.read_text() for file in (TOP / "build").glob("*.report"))
    taken = {name for name in re.findall(r"^statements (\w+):", reports, re.M) if not re.match(r"(core|io|os|libc|std(_\w+)?)$", name)}
    named = re.findall(r"`(\w+)`", re.search(r"and of the libraries (.*?)\. The code", text)[1])
    compare(f"{page} names the libraries", set(), taken - set(named))


def of_the_kit():
    """What the pages say of Rattle is what its program says. Without `rt` nothing is compared."""
    kit = Path(shutil.which("rt") or "/").resolve().parent
    if (kit / "rattle").exists():
        said = re.search(r'`rattle --help` says: "(.*?)"', (TOP / "docs/proofs.md").read_text())[1]
        compare("docs/proofs.md quotes rattle --help", True, said in run([kit / "rattle", "--help"])[0])


# What is taken from a page of definitions, what is there instead, and the first fault that the script then finds.
LACKS = (
    ("TagFits IsInside}", "IsInside}", "Following.IsInside cites TagFits of cap_spec, Following, which is not on the page before it"),
    ("IsTag Leads}", "Leads IsTag}", "Following.Leads cites IsTag of cap_spec, Following, which is not on the page before it"),
    ("{type cap_spec Lax}", "", "Strict.IsLaxAt cites Lax of cap_spec, declared, which is not on the page before it"),
    ("vet: ok message err accepts", "vet: ok message accepts", "vet has the clauses ok message err justified accepts refuses one"),
    (", `A ↔ B`", "", "new uses ↔, which the notation doesn't explain"),
    ("{alias cap_vet/specs/Spots.antt Where}", "This", "Spots.spot_of uses Where for Spot of cap_spec, which the page doesn't explain"),
    ("`{g : segments.Ghosts M}`, ", "", "Vettings.report_of uses segments.Ghosts, which the notation doesn't explain"),
    (" `a % b`,", "", "Words.field uses %, which the notation doesn't explain"),
    (", `v.items`", "", "canonical uses .items, which the notation doesn't explain"),
    (", `Global`", "", "canonical uses Global, which the notation doesn't explain"),
    ("Words: field", "Words: IsWord field", "nothing on the pages cites Words.IsWord"),
    ("`IsTrue b`, ", "`IsTrue b`, `IsFalse b`, ", "the notation explains IsFalse, which nothing uses"),
    ("up to {part Exclusive messages}", "up to {part Messages}", "the page has no part Messages"),
)


def written():
    """The pages that a script writes from the sources are up to date. It refuses pages of definitions that lack one, a theorem
    of a clause that isn't there, and a number of cases without a comment."""
    folder = TOP / "tools/pages"
    sys.path.insert(0, str(folder))
    import clauses
    import scripts
    from definition_pages import both
    from write import definitions, stale
    try:
        found = [file.name for file in stale()]
    except LookupError as fault:
        found = [fault.args[0]]
    compare("pages that are stale: run make pages", [], found)
    templates = definitions()
    for taken, left, expected in LACKS:
        (name,) = [name for name, template in templates.items() if template.count(taken) == 1] or [None]
        compare(f"a page of definitions has {taken}", True, name is not None)
        try:
            said = f"{len(both({**templates, name: templates[name].replace(taken, left)}))} pages"
        except LookupError as fault:
            said = fault.args[0].split("\n")[0]
        compare(f"the pages of definitions without {taken}", expected, said)
    try:
        said = clauses.Page("{twice}", clauses.HEADLINE.read_text().replace("Theorem vet_ok ", "Theorem vet_okay ")).write()
    except LookupError as fault:
        said = fault.args[0]
    compare("the page of clauses with a theorem of no clause", "cap_vet/src/vetting.rt has no clause okay of vet", said)
    for comment, expected in (("  # messages", "| `some.py` | messages | 1 | 2,000 |"), ("", "")):
        with tempfile.TemporaryDirectory() as place:
            for folder in ("tools", "tests/some"):
                (Path(place) / folder).mkdir(parents=True)
            (Path(place) / "tools/all.py").touch()
            (Path(place) / "tests/some/some.py").write_text(f"MANY = cases(1, full=2_000){comment}\n")
            try:
                said = scripts.Page("{cases}", Path(place)).write().split("\n")[-1]
            except LookupError as fault:
                said = "" if "some.py, line 1" in fault.args[0] else fault.args[0]
            compare(f"the number of cases with {comment!r}", expected, said)


def links(page):
    """Each file and each heading that a page links to exists."""
    text = (TOP / page).read_text()
    for target in re.findall(r"\]\(([^)]+)\)", BLOCK.sub("", text)):
        if target.startswith("https://"):
            continue
        file, _, heading = target.partition("#")
        path = (TOP / page).parent / file if file else TOP / page
        compare(f"{page} links to {target}", True, path.exists())
        if heading and path.suffix == ".md":
            titles = re.findall(r"^#+ (.*)$", path.read_text(), re.M)
            slugs = {re.sub(r"[^\w -]", "", title.lower()).replace(" ", "-") for title in titles}
            compare(f"{page} links to {target}", True, heading in slugs)


def named(page):
    """Each file of the repository that a page names exists."""
    for file in re.findall(r"`((?:bench|bindings|crates|examples|guard|include|packaging|rust|tests|tools)/[\w./-]+)`", (TOP / page).read_text()):
        compare(f"{page} names {file}", True, "/NAME/" in file or (TOP / file).exists())


def paragraphs(name, text):
    """The prose of a page, of the manual page, of a header or of help: paragraphs, items and cells, without code."""
    if name.endswith((".1", ".3")):
        text = re.sub(r"^\.EX$.*?^\.EE$", "", text, flags=re.M | re.S)
        text = re.sub(r"^\.(SH|TP|PP|RS).*$|^\.\w+.*$", lambda line: "" if line[1] else "x", text, flags=re.M)
        text = re.sub(r"^\$ .*\n(?:[^.$].*\n)*", "", text.replace("\\-", "-"), flags=re.M)
    elif name.endswith(".h"):
        text = "\n\n".join(re.findall(r"/\*(.*?)\*/", text, re.S))
        text = re.sub(r"^ +\* ?", "", text, flags=re.M)
    elif name.endswith(".md"):
        text = re.sub(r"^    .*$|^<!-- /?(?:sources -->|packages)$|^-->$", "\n", text, flags=re.M)
        text = re.sub(r"<!-- /?sources -->", "", text)
    else:
        text = re.sub(r"\n(?=  \S|      -)", "\n\n", text.partition("\nExample:\n")[0])
    # (a sentence may begin with a name of code)
    text = re.sub(r"`[^`\n]*`", "X", BLOCK.sub("", text))
    text = re.sub(r"\[([^\]]*)\]\([^)]*\)", r"\1", text).replace("*", "")
    text = re.sub(r"^\s*(?:[-+>#]+|\d+\.) ", "\n", text, flags=re.M)
    for part in re.split(r"\n\s*\n|\|", text):
        yield " ".join(part.split())


def limits_have_names():
    """Limits in the pages, the examples and the headers begin with CAPVET_LIMITS_INIT, and their fields are named."""
    for wrong in ("const capvet_limits limits = {4096, 4096, 64, 0, {0, 0}};", "static capvet_limits LIMITS = { WORDS, 1, 1 };",
                  "const capvet::Options options{{1 << 16, 1 << 16, 64, 0, {0, 0}}, 1};", "options.limits = {1 << 17, 2};"):
        compare(f"limits without names are found in {wrong}", True, POSITIONAL.search(wrong) is not None)
    files = [path for top in ("examples", "include", "docs") for path in (TOP / top).rglob("*.*")
             if path.suffix in (".c", ".cpp", ".h", ".md", ".3")]
    compare("files with limits", True, sum("CAPVET_LIMITS_INIT" in path.read_text() for path in files) > 5)
    for path in (*files, TOP / "README.md"):
        compare(f"limits without names in {path.relative_to(TOP)}", [], POSITIONAL.findall(path.read_text()))


def plain(name, text, banned):
    """A page has no word of the list, and no sentence that is too long."""
    found, long = [], []
    for part in paragraphs(name, text):
        found += [match[0] for match in banned.finditer(part)]
        long += [said for said in re.split(r"(?<=[.!?:;]) (?=[A-Z\"(])", part) if len(said.split()) > LONGEST]
    compare(f"{name}: words of tests/docs/words.md", [], found)
    compare(f"{name}: sentences of more than {LONGEST} words", [], long)


def printable(name, text):
    """A page has no control character but tabs: a manual page had a form feed in place of a change of fonts."""
    compare(f"{name}: control characters", [], re.findall(r"[\0-\x08\x0b-\x1f\x7f-\xa0]", text))


def statuses():
    """The manual page of the program has each exit status of the page on output."""
    rows = (TOP / "docs/output.md").read_text().partition("## Exit status\n")[2]
    manual = (TOP / "docs/capvet.1").read_text().partition(".SH EXIT STATUS\n")[2].partition(".SH ")[0]
    expected = re.findall(r"^\| (\d+) \|", rows, re.M)
    compare("exit statuses of docs/capvet.1", expected, re.findall(r"^\.B (\d+)$", manual, re.M))
    compare("docs/output.md has exit statuses", True, len(expected) > 3)


def changes():
    """The list of changes of the newest version begins with what touches security, which is something."""
    text = (TOP / "CHANGELOG.md").read_text()
    newest = text.partition("\n## ")[2].partition("\n## ")[0]
    compare("CHANGELOG.md begins with security", True, re.search(r"\A.*\n\n### Security\n\n- ", newest) is not None)


def list_of_words():
    """The words that the list refuses, as one pattern."""
    rows = re.findall(r"^\| (`.*?) \|", (TOP / "tests/docs/words.md").read_text(), re.M)
    words = [word for row in rows for word in re.findall(r"`([^`]+)`", row)]
    compare("the list has words", True, len(words) > 20)
    return re.compile(r"\b(?:" + "|".join(map(re.escape, sorted(words, key=len, reverse=True))) + r")\b", re.I)


for name in PAGES:
    shown(name)
recipes()
front()
quoted("docs/proofs.md")
reported("docs/proofs.md")
of_the_kit()
written()
for name in MARKDOWN:
    links(name)
    named(name)
limits_have_names()
statuses()
changes()
BANNED = list_of_words()
for name in (*MARKDOWN, "packaging/README-archive.md", "packaging/README-debian.md", "docs/capvet.1", "docs/capvet-guard.1", "docs/capvet.3",
             "include/capvet.h"):
    text = (TOP / name).read_text()
    plain(name, text, BANNED)
    printable(name, text)
for asked, text in HELPS:
    plain(f"capvet {asked[0]}", text, BANNED)
for name in TAGGED:
    compare(f"{name} has the tagline", True, TAGLINE in (TOP / name).read_text())
sys.exit(ended())
