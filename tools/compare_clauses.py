#!/usr/bin/env python3
"""Compares the contracts of the calls that users make, and the laws, at two revisions, token by token.

    compare_clauses.py OLD [NEW] [WORD=WORD..]

These are the calls of CALLS, the public functions of cap_calls, cap_run and cap_trace, the exports of capvet_c, and the laws of cap_laws
and cap_json_laws. Equal clauses needn't be equal promises: a definition that they name may say something else. `git diff` shows those.
Without NEW it is the working tree. Each signature or clause that changed, came or went is printed, and each name of CALLS that is found
nowhere. The status is 1 if there is one. WORD=WORD names a word that was renamed. A call may have moved to another crate.
"""
import re
import subprocess
import sys
import tarfile
from pathlib import Path

TOP, WHOLE = Path(__file__).resolve().parent.parent, {"cap_calls", "cap_run", "cap_trace", "capvet_c", "cap_laws", "cap_json_laws"}
CALLS = """bits signed_offset word_of bytes_of ByteIn::read ByteOut::write SliceIn::new VecOut::new VecOut::bytes FromRead::new FromRead::into_inner
FromWrite::new FromWrite::into_inner WordSource::next WordSource::position WordSink::put WordSink::finish PlainWords::new PlainWords::into_inner
PlainSink::new PlainSink::into_inner Unpacker::new Unpacker::into_inner Packer::new Packer::into_inner Segments::count Segments::len Segments::word
WordMessage::new OneSegment::new SizeLimit::new read_message write_message read_byte_message ByteMessage::view ByteView::bytes Pointer::of
Pointer::word follow Limits::new vet Vetted::report Vetted::message Vetted::root Vetted::get Node::view Node::child View::kind View::place
View::data_word View::byte View::bit View::scalar View::count View::bytes Budget::new Budget::left get_charged vet_exclusive Exclusive::into_vetted
canonical_len canonical canonical_bytes is_canonical read_job run_job parse_path dump""".split()
TOKEN = re.compile(r"//[^\n]*|[\w']+|[^\w\s]")
FUNCTION = re.compile(r'^( *)(pub )?(?:const )?(?:extern "C" )?fn (\w+)', re.M)
OWNER = re.compile(r"^(?:pub )?(?:trait (\w+)|impl(?:<[^{]*?>)? (?:[\w:]+(?:<[^{]*?>)? for )?&?(?:'\w+ )?(\w+))", re.M)


def sources(revision):
    """The code of the crates at a revision, or in the working tree: the text of each file with its crate."""
    if not revision:
        return [(file.relative_to(TOP).parts[1], file.read_text()) for file in TOP.glob("crates/*/src/**/*.rt")]
    with subprocess.Popen(["git", "archive", revision, "crates"], cwd=TOP, stdout=subprocess.PIPE) as git, tarfile.open(fileobj=git.stdout, mode="r|") as files:
        return [(it.name.split("/")[1], files.extractfile(it).read().decode()) for it in files if re.search(r"/src/.*\.rt$", it.name)]


def contract(text):
    """The signature and the clauses of the function that a text begins with: the tokens of each, by its name."""
    parts, name, depth = {"signature": []}, "signature", 0
    for token in (it for it in TOKEN.findall(text) if not it.startswith("//")):
        if depth == 0 and (token == ";" or token == "{" and parts.get(name)):
            break
        if depth == 0 and token in ("requires", "ensures"):
            name = token
        elif depth == 0 and name in ("requires", "ensures") and token != "{" and not parts.get(name):
            name = f"{name} {token}"
        else:
            parts.setdefault(name, []).append(token)
        depth += (token in "([{") - (token in ")]}")
    return parts


def contracts(revision, renamed):
    """What the calls and the laws say at a revision: the texts of each signature and clause, by its name."""
    found = {}
    for crate, text in sources(revision):
        for at in FUNCTION.finditer(text):
            owner = ["", *(it[0] or it[1] for it in OWNER.findall(text[:at.start()]))][-1] if at[1] else ""
            name = f"{owner}::{at[3]}".lstrip(":")
            is_public = at[2] or owner and re.search(rf"^pub trait {owner}\b", text, re.M)
            if is_public and (crate in WHOLE or name in CALLS and not crate.startswith("test_")):
                for part, tokens in contract(text[at.start(3) - 3:]).items():
                    key = f"{crate if crate in WHOLE else 'crates'}: {name}: {part}"
                    found.setdefault(key, set()).add(" ".join(renamed.get(it, it) for it in tokens))
    return found


def main(words):
    renamed, revisions = dict(it.split("=") for it in words if "=" in it), [it for it in words if "=" not in it]
    before, after = contracts(revisions[0], renamed), contracts("".join(revisions[1:2]), {})
    bad = [f"crates: {name}: not found" for name in CALLS if f"crates: {name}: signature" not in before | after]
    for name in (it for it in sorted(before | after) if before.get(it) != after.get(it)):
        bad += [name, *(f"  {sign} {text}" for sign, texts in (("-", before), ("+", after)) for text in sorted(texts.get(name, ())))]
    print("\n".join([*bad, f"{len(before)} signatures and clauses before, {len(after)} after: {'different' if bad else 'the same'}"]))
    return len(bad) > 0


sys.exit(main(sys.argv[1:]))
