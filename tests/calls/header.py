#!/usr/bin/env python3
"""Compares the answers, the kinds of node, the reasons of differences and the constants of include/capvet.h, their numbers and the names
of answers and reasons, with those of the code and of the definitions.

Each answer, kind, reason and constant is a case. The last line is 'N passed, 0 failed', or says which one differs.
"""

import pathlib
import re
import sys

# the header's names of the kinds
KINDS = dict(Cap="CAPABILITY", Struct="STRUCT", Scalars="VALUES", Pointers="POINTERS", Structs="STRUCTS")
ROOT = pathlib.Path(__file__).resolve().parents[2]
LIMITS, DEMANDS, FLAGS = "crates/cap_walk/src/limits.rt", "crates/cap_walk/src/demands.rt", "crates/cap_calls/specs/CallFlags.antt"
# Constants of the header, and the one place of each in the code or in a definition.
CONSTANTS = (
    ("MAX_MESSAGE_WORDS", "crates/cap_frame/src/fault.rt", r"^pub const MOST_WORDS: u64 = (\d+);"),
    ("MAX_CHARGE", "crates/cap_frame/src/fault.rt", r"^pub const MOST_WORDS: u64 = (\d+);"),
    ("MAX_DEPTH", LIMITS, r"^const MOST_DEPTH: u32 = (\d+);"),
    ("MAX_SEGMENTS", "crates/cap_spec/specs/Messages.antt", r"length m ≤ (\d+)"),
    ("SLACK", DEMANDS, r"^const SLACK: u64 = (\d+);"),
    ("EXPLANATION_BOUND", "crates/cap_calls/specs/CallBounds.antt", r"^explanation_bound = (\d+)$"),
    ("OVERLAP_BOUND", "crates/cap_calls/specs/CallBounds.antt", r"^overlap_bound = (\d+)$"),
    # (the lowest bit is divided by nothing)
    ("ALLOW_NONSTRICT", FLAGS, r"^allows_nonstrict l = l\.flags(?: / (\d+))? % 2 == 1$"),
    ("ALLOW_AMPLIFIED", FLAGS, r"^allows_amplified l = l\.flags(?: / (\d+))? % 2 == 1$"),
    ("FORM_WHOLE", FLAGS, r"^      form = (\d+);$"),
    ("FORM_PREFIX", FLAGS, r"^allows_trailing l = l\.form == (\d+)$"),
    ("FORM_WORDS", FLAGS, r"^has_no_table l = l\.form == (\d+)$"),
    ("STEP_POINTER", "crates/cap_calls/src/step.rt", r"^        if self\.kind == (\d+) \{$"),
    ("STEP_ELEMENT", "crates/cap_calls/src/calls/get_range.rt", r"^        if steps\[at\]\.kind > (\d+) \{$"),
)
# An answer of the enum in code.
CODE = r"^    ([A-Z]\w+) = (\d+),"


def answers(path, pattern):
    """The names and numbers that a file has, each name once."""
    pairs = re.findall(pattern, (ROOT / path).read_text(), re.MULTILINE)
    reported = {name: int(number) for name, number in pairs}
    if len(reported) != len(pairs) or not reported:
        sys.exit(f"header: {path} says {len(pairs)} answers, {len(reported)} of them by names of their own")
    return reported


def number(path, pattern):
    """The number that a file has for a constant, once."""
    found = re.findall(pattern, (ROOT / path).read_text(), re.MULTILINE)
    return int(found[0] or "1", 0) if len(found) == 1 else None


def constant(name):
    """A name as the header writes it."""
    return "OK" if name == "Good" else re.sub(r"(?<!^)(?=[A-Z])", "_", name).upper()


def names():
    """The name of each answer by its number, from the enum in code."""
    code = answers("crates/cap_calls/src/answer.rt", CODE)
    return {number: "Ok" if name == "Good" else name for name, number in code.items()}


def calls():
    """The calls of the header that a library exports."""
    text = re.sub(r"/\*.*?\*/", "", (ROOT / "include/capvet.h").read_text(), flags=re.DOTALL)
    return re.findall(r"^(?!CAPVET_INLINE)\w+ (capvet_\w+)\([^)]*\) CAPVET_NOEXCEPT;", text, re.MULTILINE)


def main():
    header = answers("include/capvet.h", r"^\s*CAPVET_(?!KIND_|DIFFERENCE_)([A-Z_]+) = (\d+)")
    code = answers("crates/cap_calls/src/answer.rt", CODE)
    specs = answers("crates/cap_calls/specs/AnswerNumbers.antt", r"^answer_number ([A-Z]\w+) = (\d+)")
    for path, reported in (("answer.rt", code), ("AnswerNumbers.antt", specs)):
        there = {constant(name): number for name, number in reported.items()}
        for name in sorted(header.keys() | there.keys()):
            if header.get(name) != there.get(name):
                sys.exit(f"header: CAPVET_{name} is {header.get(name)}, and in {path} {there.get(name)}")
    for name, path, pattern in CONSTANTS:
        reported = number("include/capvet.h", rf"^#define CAPVET_{name} (?:UINT64_C\()?(\w+?)u?\)?(?: |$)")
        there = number(path, pattern)
        if there is None or reported != there:
            sys.exit(f"header: CAPVET_{name} is {reported}, and in {path} {there}")
    reported = re.findall(r'^    case CAPVET_(?!DIFFERENCE_)([A-Z_]+): return "(\w+)";', (ROOT / "include/capvet.h").read_text(), re.MULTILINE)
    if [name for name, _ in reported] != list(header) or {header[name]: text for name, text in reported} != names():
        sys.exit(f"header: capvet_answer_name has {reported}")
    version = answers("include/capvet.h", r"^#define CAPVET_VERSION_([A-Z]+) (\d+)$")
    text = re.findall(r'^#define CAPVET_VERSION_STRING "(.*)"$', (ROOT / "include/capvet.h").read_text(), re.MULTILINE)
    there = number("crates/cap_calls/src/calls/version.rt", r"^    (\d+)$")
    if text != [".".join(map(str, version.values()))] or there != sum(a * b for a, b in zip(version.values(), (65536, 256, 1))):
        sys.exit(f"header: the version is {version} and {text}, and in version.rt {there}")
    kinds = answers("include/capvet.h", r"^\s*CAPVET_KIND_([A-Z_]+) = (\d+)")
    code = answers("crates/cap_calls/src/node.rt", r"Kind(?:::|\.)(\w+)(?:[^=]*=> | [^}]*\}\s*\{\s*)CallNode \{\s*kind: (\d+)")
    specs = answers("crates/cap_calls/specs/CallNodes.antt", r"^kind_node \(?(\w+)[^=]*=\s*record none_node \{\s*kind = (\d+)")
    for path, reported in (("node.rt", code), ("CallNodes.antt", specs)):
        there = {"NULL": 0} | {KINDS[name]: number for name, number in reported.items()}
        if there != kinds:
            sys.exit(f"header: the kinds of node are {kinds}, and in {path} {there}")
    differences = answers("include/capvet.h", r"^\s*CAPVET_DIFFERENCE_([A-Z_]+) = (\d+)")
    code = answers("crates/cap_calls/src/difference_number.rt", r"^        DifferenceReason::(\w+) => (\d+),")
    specs = answers("crates/cap_calls/specs/DifferenceNumbers.antt", r"^reason_number ([A-Z]\w+) = (\d+)")
    for path, reported in (("difference_number.rt", code), ("DifferenceNumbers.antt", specs)):
        there = {constant(name): number for name, number in reported.items()}
        if there != differences:
            sys.exit(f"header: the reasons of differences are {differences}, and in {path} {there}")
    names_there = re.findall(r'^    case CAPVET_DIFFERENCE_([A-Z_]+): return "(\w+)";', (ROOT / "include/capvet.h").read_text(), re.MULTILINE)
    if {differences[name]: text for name, text in names_there} != {number: name for name, number in code.items()}:
        sys.exit(f"header: capvet_difference_name has {names_there}")
    print(f"{len(header) + len(CONSTANTS) + len(kinds) + len(differences)} passed, 0 failed")


if __name__ == "__main__":
    main()
