"""What the plain program writes in other words than the proved one: the second line of `--version`, and the texts of clap 4.0.32.

Debian 12 has this clap. clap 4.5.23 and 4.6.7 have the texts of the proved program. Others weren't compared. clap finds words similar
by the crate strsim. With strsim 0.11.1, which unstable has, these are the words of the proved program. Debian 12 and 13 have 0.10.0,
which counts letters in another order otherwise. A plain build also has a larger file, so it has more memory resident.
"""
import re
from typing import NamedTuple

from harness import outputs

BUILD = b"plain Rust: tested, not proved\n"
# Texts of clap 4.0.32 on standard error, as patterns, and what the proved program has in their places.
ERRORS = (
    (rb"\nFor more information try '--help'\n\Z", rb"\nFor more information, try '--help'.\n"),
    (rb"\Aerror: Found argument '(.*?)' which wasn't expected, or isn't valid in this context\n", rb"error: unexpected argument '\1' found\n"),
    (rb"\Aerror: The subcommand '(.*?)' wasn't recognized\n", rb"error: unrecognized subcommand '\1'\n"),
    (rb"\Aerror: The argument '(.*?)' requires a value but none was supplied\n", rb"error: a value is required for '\1' but none was supplied\n"),
    (rb"\Aerror: The argument '(.*?)' was provided more than once, but cannot be used multiple times\n",
     rb"error: the argument '\1' cannot be used multiple times\n"),
    (rb"\Aerror: The value '(.*?)' was provided to '(.*?)' but it wasn't expecting any more values\n",
     rb"error: unexpected value '\1' for '\2' found; no more were expected\n"),
    (rb"\Aerror: The (argument|following)", rb"error: the \1"),
    (rb"\Aerror: Invalid value", rb"error: invalid value"),
    (rb"\n  If you tried to supply '(.*?)' as a value rather than a flag, use '-- (.*?)'\n", rb"\n  tip: to pass '\1' as a value, use '-- \2'\n"),
    (rb"\n  Did you mean '(--.*?)'\?\n", rb"\n  tip: a similar argument exists: '\1'\n"),
)
# The same on standard output.
HELPS = ((rb"(\n  -h, --help +Print help) information\n", rb"\1\n"), (rb"(\n  -V, --version +Print version) information\n", rb"\1\n"))
# What names a similar word. Where clap finds other words similar, it then has another usage line too.
SUGGESTION = rb"\n  (tip: a similar|tip: some similar|Did you mean)"
# A command line with a word that strsim 0.10.0 finds similar to one of clap's, and 0.11.1 doesn't.
SIMILAR = ("hash", "--allew-amplified")


def rewritten(text, table):
    """A text by a table."""
    for pattern, to in table:
        text = re.sub(pattern, to, text, flags=re.S)
    return text


def spare(program):
    """How many MiB a program has resident beside its messages. (Which pages of its files and of the C library these are depends on
    what the system has read ahead, so a few tens of KiB come and go)"""
    return 5 if BUILD in outputs([program, "--version"])[0] else 3


class Clap(NamedTuple):
    """How the texts of a program's clap differ from those of the proved program."""
    # Whether they are those of clap 4.0.32.
    is_older: bool
    # Whether it finds other words similar.
    guesses: bool


def clap_of(*command):
    """The same of the program that a command runs."""
    is_older = b"Print help information" in outputs([*command, "--help"])[0]
    return Clap(is_older, is_older or re.search(SUGGESTION, outputs([*command, *SIMILAR])[1]) is not None)


def as_proved(out, err, status, is_older):
    """What the plain program wrote, in the words of the proved one. `is_older` says whether its clap is 4.0.32."""
    if out.endswith(b"\n" + BUILD) and out.count(b"\n") == 2:
        out = out[:-len(BUILD)]
    if is_older:
        return rewritten(out, HELPS), rewritten(err, ERRORS) if err.startswith(b"error: ") else err, status
    return out, err, status


def without_suggestion(out, err, status):
    """The same without what is between the first line of an error and its last one."""
    lines = err.splitlines(keepends=True)
    return out, b"".join(lines[:1] + lines[-1:]), status


def alike(expected, got, clap):
    """What the proved program has to write, and what one of both wrote, in words that are equal where the program is right."""
    got = as_proved(*got, clap.is_older)
    if clap.guesses and any(re.search(SUGGESTION, err) for _, err, _ in (expected, got)):
        return without_suggestion(*expected), without_suggestion(*got)
    return expected, got
