#!/usr/bin/env python3
"""Changes definitions, and shows that Coq refuses each change, or that the comparison with the program sees it.

    mirror_faults.py [PROGRAM [--part N/M]]

Each change is of one place in the specs of crates/cap_spec and crates/cap_difference. generate.py makes the changed definitions, Coq
checks all proofs, and where they still hold, the reference vetter over the changed definition is compared with PROGRAM. A change that
neither sees has to be one that keeps the meaning: a law is missing otherwise. With --part only each M-th change is tried, from number N
on. The last line is 'N passed, M failed', and the status is 1 where a case failed.
"""
import os
import re
import shutil
import sys
import tempfile
from pathlib import Path
from typing import NamedTuple

sys.path[1:1] = map(str, Path(__file__).resolve().parents[1].iterdir())

import harness
import mirror
from harness import TOP, compare, ended, expect, run
from needs import missing

# What sees a change: a file of proofs, the comparison, or nothing, since it means the same.
COMPARED, SAME = "the comparison", "nothing"


class Change(NamedTuple):
    """A file of specs, the text that is there once, the text in its place, and what sees it if that isn't a proof."""
    file: str
    old: str
    new: str
    seen_by: str = ""


CHANGES = (
    Change("Words", "if nat_lt (field x 2 30) (2 ^ 29)", "if nat_lt (field x 2 30) (2 ^ 30)"),
    Change("Pointers", "pad p = field p 3 29", "pad p = field p 2 30"),
    Change("Pointers", "(element_bits c * size + 63) / 64", "(element_bits c * size + 64) / 64"),
    Change("Pointers", "then 1 + list_size q else", "then list_size q else"),
    Change("Pointers", "IsReserved p = (kind p ≡ 3) × (middle p ≢ 0)", "IsReserved p = (kind p ≡ 3) × (middle p ≡ 0)"),
    Change("Following", "start ≡ pos (w + 1) +ℤ", "start ≡ pos w +ℤ"),
    Change("Following", "HasWord m (far_segment p) (pad p) q → kind q ≢ 2 →", "HasWord m (far_segment p) (pad p) q →"),
    Change("Following", "IsTag q = (kind q < 2) × (middle q ≡ 0)", "IsTag q = (kind q < 2)"),
    Change("Following", "pub inside : b + extent q ≤ length", "pub inside : b ≤ length"),
    Change("Following", "middle tag * (data_size tag + pointer_size tag) ≤ size", "middle tag ≤ size"),
    Change("Following", "(if code q == 0 then list_size q else", "(if code q == 1 then list_size q else"),
    Change("Following", "Condition m s w DepthLimit = ⊥", "Condition m s w DepthLimit = Unit {0}"),
    Change("Following", "rank SegmentMissing = 3\nrank PadOutside = 4", "rank SegmentMissing = 4\nrank PadOutside = 3", SAME),
    Change("Following", "× (2 ≤ kind q)", "× (1 ≤ kind q)"),
    Change("ObjectShapes", "kind q ≡ 1 → code q < 6 →", "kind q ≡ 1 → code q < 7 →"),
    Change("Denoting", "× AreElements m t (b + ds + ps) ds ps", "× AreElements m t (b + ds) ds ps"),
    Change("Denoting", "AreElements m t (b + 1) ds ps n es", "AreElements m t b ds ps n es"),
    Change("Denoting", "element_levels (suc n) = 1", "element_levels (suc n) = 0"),
    Change("Denoting", "Denotes m s w null charge depth = Leads m s w charge to_null",
           "Denotes m s w null charge depth = ⊥ × Leads m s w charge to_null"),
    Change("Accepting", "pub few_words : charge ≤ words", "pub few_words : charge < words"),
    Change("Paths", "PathLeads m mid path n' b × (n ≡ level_of mid + n')", "PathLeads m mid path n' b × (n ≡ 1 + n')"),
    Change("Paths", "Before (x ∷ xs) (y ∷ ys) = (number_of x < number_of y)", "Before (x ∷ xs) (y ∷ ys) = (number_of y < number_of x)"),
    Change("Verdicts", "pub past : limit < before + one", "pub past : limit ≤ before + one"),
    Change("Verdicts", "pub distinct : AreDistinct (last ∷ paths)", "pub distinct : AreDistinct paths"),
    Change("Faults", "pub few : refusal.pointers ≤ words + 1", "pub few : refusal.pointers ≤ words"),
    Change("Faults", "IsFirst (λ p. (r : Refusal) × IsFaultAt m words depth p r) path",
           "IsFirst (λ p. IsFaultAt m words depth p refusal) path"),
    Change("Canonical", "trim (pointers ts) = pointers (trim_all ts)",
           "trim (pointers ts) = pointers (take_trees (children_needed (trim_all ts)) (trim_all ts))"),
    Change("Canonical", "(tree_count ts + after) ∷ pointer_offsets (after + size t) ts",
           "(tree_count ts + after) ∷ pointer_offsets after ts"),
    Change("Canonical", "data_of (more (struct words ts) es) = max (data_needed words) (data_of es)",
           "data_of (more (struct words ts) es) = data_needed words"),
    Change("Frames", "pub few : length sizes ≤ 512", "pub few : length sizes ≤ 511"),
    Change("Frames", "length padding ≡ (1 + length sizes) % 2", "length padding ≡ length sizes % 2"),
    Change("Unpacking", "(n : ℕ) → n < 256 → bytes ≡ 0", "(n : ℕ) → n ≤ 256 → bytes ≡ 0"),
    Change("Unpacking", "spread (suc n) tag (b ∷ present) = if tag % 2 == 0", "spread (suc n) tag (b ∷ present) = if tag % 2 == 1"),
    Change("Unpacking", "if nat_lt (length bytes) 9 then [] else", "if nat_lt (length bytes) 8 then [] else"),
    Change("Packing", "(1 + min 255 (full_run ws))", "(1 + min 256 (full_run ws))"),
    Change("Packing", "nat_le (zero_bytes x) 1", "nat_le (zero_bytes x) 0"),
    Change("Strict", "IsLaxAt m s w NullPad = Leads m s w 1 to_null", "IsLaxAt m s w NullPad = Leads m s w 0 to_null"),
    Change("Strict", "pub few_segments : length m ≤ 511", "pub few_segments : length m ≤ 512"),
    Change("Occupying", "used ≡ pads_of p ++ places t b (extent q)", "used ≡ places t b (extent q)"),
    Change("Occupying", "pub root : (path : List Step) → ¬ Uses m path (0, 0)", "pub root : (path : List Step) → ¬ Uses m path (0, 1)"),
    Change("Unamplified", "slack = 4096", "slack = 4095"),
    Change("Arriving", "own_at m (Struct d p) t b = own_struct (words_from m t b d) p",
           "own_at m (Struct d p) t b = own_struct (words_from m t b p) p"),
    Change("Texts", "then 48 + n else 87 + n", "then 48 + n else 55 + n"),
    Change("Reasons", "difference_rank Place = 4\ndifference_rank Bits = 5", "difference_rank Place = 5\ndifference_rank Bits = 4"),
    Change("Reasons", "last_bits c n = (element_bits c * n) % 64", "last_bits c n = (element_bits c * n) % 8"),
    Change("Reasons", "pub set : last / 2 ^ last_bits c n ≢ 0", "pub set : last ≢ 0"),
    Change("Reasons", "HasWord m t (b + k * (ds + ps) + (ds - 1)) 0", "HasWord m t (b + k * (ds + ps) + ds) 0"),
    Change("Reasons", "pub some : 0 < ps", "pub some : 0 ≤ ps"),
    Change("Reasons", "ds + ps ≡ 0 → p ≢ 2 ^ 32 - 4 →", "ds + ps ≡ 0 → p ≢ 2 ^ 32 →"),
    Change("Reasons", "struct_place : reason ≡ Place → ds + ps ≢ 0 → b ≢ end →", "struct_place : reason ≡ Place → b ≢ end →"),
    Change("Reasons", "structs_zero : reason ≡ DataZero → n ≢ 0 →", "structs_zero : reason ≡ DataZero →"),
    Change("Reasons", "is_far : reason ≡ Far → (p : ℕ) → HasWord m s w p → IsFar p →",
           "is_far : reason ≡ Far → (p : ℕ) → HasWord m s w p →"),
    Change("Differences", "words_of_lead (to_object t b q) = extent q", "words_of_lead (to_object t b q) = extent q + 1"),
    Change("Differences", "pub is_tour : IsTour m path (before ++ path ∷ [])", "pub is_tour : IsTour m path before"),
    Change("Differences", "pub have : HaveWords m before words\n  pub ends : end ≡ 1 + words",
           "pub have : HaveWords m before words\n  pub ends : end ≡ words"),
    Change("Differences", "pub after : end < length (segment_of m 0)", "pub after : end ≤ length (segment_of m 0)"),
    Change("Differences", "pub many : number ≡ pointer_count tree", "pub many : number ≡ 1 + pointer_count tree"),
    Change("Differences", "pub many : length m ≢ 1", "pub many : 1 ≤ length m"),
)


def refused(folder):
    """The first file of proofs that Coq refuses, or nothing if all of them hold."""
    said, status = run(["make", f"-j{mirror.CORES}", "proofs"], cwd=folder)
    found = re.search(r"(\w+)\.vo\] Error", said)
    return (found[1] if found else said[-200:]) if status else ""


def sees(folder, scratch):
    """Whether the comparison with the program finds a difference."""
    said, status = run(["make"], cwd=folder)
    expect("OCaml builds the vetter of the changed definitions", status == 0, said)
    before, quiet = harness.failed, harness.passed
    comparison = mirror.Comparison(folder / "program/vetter", scratch, [mirror.PROGRAM])
    with open(os.devnull, "w") as nothing:
        shown, sys.stdout = sys.stdout, nothing
        try:
            comparison.under("messages about limits", list(mirror.edges()), 8388608, 64, mirror.COMMANDS)
            comparison.under("the samples", mirror.SAMPLES, 8388608, 64, mirror.COMMANDS)
            for number in range(20):
                comparison.made(number)
        finally:
            sys.stdout = shown
    found = harness.failed > before
    harness.passed, harness.failed = quiet, before
    return found


def tried(change, built, scratch):
    """What sees a change: the file of a proof, the comparison, or nothing."""
    crates, folder = scratch / "crates", scratch / "coq"
    for place in (crates, folder):
        shutil.rmtree(place, ignore_errors=True)
    for crate in mirror.CRATES:
        shutil.copytree(TOP / "crates" / crate, crates / crate, ignore=shutil.ignore_patterns("out"))
    run(["cp", "-a", built, folder])
    file = next(crates.glob(f"*/specs/{change.file}.antt"))
    text = file.read_text()
    compare(f"{change.file} has {change.old!r} once", 1, text.count(change.old))
    file.write_text(text.replace(change.old, change.new, 1))
    said, status = run([sys.executable, folder / "generate.py", "--crates", crates])
    expect(f"generate.py makes {change.new!r}", status == 0, said)
    return refused(folder) or (COMPARED if sees(folder, scratch) else SAME)


def chosen():
    """The changes that the command line asks for."""
    words = sys.argv[1:]
    if "--part" not in words:
        return CHANGES
    first, every = map(int, words[words.index("--part") + 1].split("/"))
    return CHANGES[first::every]


def main():
    if missing("changes of definitions", "coqc", "ocamlopt"):
        return ended()
    said = re.search(r"in (\d+) places\. A proof here refuses (\d+) of", (mirror.HERE / "README.md").read_text())
    compare("changes, and those that proofs refuse, by mirror/coq/README.md", said and (int(said[1]), int(said[2])),
            (len(CHANGES), sum(not it.seen_by for it in CHANGES)))
    with tempfile.TemporaryDirectory() as folder:
        scratch = Path(folder)
        built = scratch / "built"
        # (with what is compiled there, if anything is)
        run(["cp", "-a", mirror.HERE, built])
        compare("what Coq refuses of the definitions as they are", "", refused(built))
        for change in chosen():
            seen = tried(change, built, scratch)
            print(f"{change.file}: {change.new.splitlines()[0]}: {seen}", flush=True)
            if change.seen_by:
                compare(f"what sees {change.new!r}", change.seen_by, seen)
            else:
                expect(f"a proof refuses {change.new!r}", seen not in (COMPARED, SAME), seen)
    return ended()


if __name__ == "__main__":
    sys.exit(main())
