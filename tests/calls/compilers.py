#!/usr/bin/env python3
"""Compiles include/capvet.h by itself for many machines, and by the rules of other compilers.

    compilers.py

- clang compiles it for TARGETS, in C and in C++, with all warnings as errors. There each struct has the size, and each field the
  place, that it has on x86-64 Linux: those of LAYOUT. Only the struct with a pointer and a length is smaller with 32 bits.
- A program that ignores an answer gets a warning by gcc and clang, and where the compiler has MSVC's macros alone.
- In C++11 and later an answer is no truth value: `if (capvet_vet(..))` doesn't compile. In C it does, without a warning. A comparison
  and a switch compile in both, and each answer has its name there.
- The names of answers link from two units of a program that inlines nothing, in each language.
- The look at the processor by MSVC's intrinsic says what the one by gcc says.
- Each call, struct, field, enumerator and macro has a documentation comment, and clang finds nothing wrong in one.

The last line is 'N passed, M failed', and the status is 1 if a case failed.
"""
import re
import sys
import tempfile
from pathlib import Path

sys.path[1:1] = map(str, Path(__file__).resolve().parents[1].iterdir())

from harness import TOP, compare, ended, run
from needs import missing

HEADER = TOP / "include/capvet.h"
TARGETS = ("x86_64-linux-gnu", "i686-linux-gnu", "aarch64-linux-gnu", "armv7-linux-gnueabihf", "powerpc64-linux-gnu", "riscv32-unknown-elf",
           "s390x-linux-gnu", "wasm32-unknown-unknown", "arm64-apple-macos11", "x86_64-pc-windows-msvc", "i686-pc-windows-msvc",
           "x86_64-w64-mingw32")
LANGUAGES = ("c99", "c11", "c++11", "c++17", "c++20")
WARNINGS = ("-Wall", "-Wextra", "-Wpedantic", "-Wconversion", "-Wshadow", "-Wdocumentation", "-Werror")
# The size of each struct, and the place of each field, in bytes.
LAYOUT = {
    "capvet_limits": (80, dict(message_words=0, charge=8, depth=16, flags=20, form=24, padding=28, reserved=32)),
    "capvet_report": (120, dict(length=0, input_required=8, detail=16, charge=24, pointers=32, capabilities=40, depth=48, segments=52,
                               segment=56, word=60, words=64, reserved=72)),
    "capvet_node": (56, dict(kind=0, element=4, count=8, data_words=12, pointers=16, capability=20, offset=24, length=32, reserved=40)),
    "capvet_step": (8, dict(kind=0, number=4)),
    "capvet_extent": (16, dict(offset=0, length=8)),
    "capvet_unpacking": (32, dict(written=0, zero_words=8, literal_words=12, reserved=16)),
}
OF_POINTERS = "capvet_segment"
IGNORES = """#include <capvet.h>
void ignores(const uint8_t *bytes, size_t length, const capvet_limits *limits, capvet_report *report);
void ignores(const uint8_t *bytes, size_t length, const capvet_limits *limits, capvet_report *report) {
  capvet_vet(bytes, length, limits, report);
}
"""
# Uses of an answer: those of the first list compile in each language. Those of the second compile in C and C++98, without a warning, and in
# no later C++.
USES = """#include <capvet.h>
int uses(const uint8_t *bytes, size_t length, const capvet_limits *limits, capvet_report *report);
int uses(const uint8_t *bytes, size_t length, const capvet_limits *limits, capvet_report *report) {{
  const capvet_answer answer = capvet_vet(bytes, length, limits, report);
  (void)answer;
  {use}
  return 0;
}}
"""
RIGHT = ("if (answer != CAPVET_OK) return 1;", "if (answer < CAPVET_NOT_CANONICAL) return capvet_answer_name(answer)[0];", "return (int)answer;",
         "switch (answer) { case CAPVET_OK: return 2; case CAPVET_OVERLAP: return 3; default: return 4; }")
TRUTHS = ("if (capvet_check_canonical(bytes, length, limits, report)) return 1;", "if (!answer) return 1;", "return answer ? 1 : 2;",
          "while (answer) return 1;", "if (answer && length) return 1;", "return capvet_vet(bytes, length, limits, report);")
NAMES = """#include <capvet.h>
#include <stdio.h>
{other}
int {name}(void) {{ return puts(capvet_answer_name(CAPVET_OVERLAP)) < 0 || !capvet_cpu_supported(){call}; }}
"""
# What MSVC has, for gcc without its own macro.
INTRIN = """#include <cpuid.h>
static inline void cpuid_of(int *registers, int leaf) {
  unsigned int *all = (unsigned int *)registers;
  __get_cpuid((unsigned int)leaf, all, all + 1, all + 2, all + 3);
}
#undef __cpuid
#define __cpuid(registers, leaf) cpuid_of(registers, leaf)
"""
SUPPORTED = "#include <capvet.h>\nint main(void) { return capvet_cpu_supported(); }\n"


def layouts():
    """A program that compiles if each struct is as LAYOUT has it."""
    checks = [(f"sizeof({name})", size) for name, (size, _) in LAYOUT.items()]
    checks += [(f"offsetof({name}, {field})", at) for name, (_, fields) in LAYOUT.items() for field, at in fields.items()]
    checks += [(f"sizeof({OF_POINTERS})", "2 * sizeof(void *)"), (f"offsetof({OF_POINTERS}, length)", "sizeof(void *)")]
    lines = [f"typedef char check_{number}[{left} == {right} ? 1 : -1];\n" for number, (left, right) in enumerate(checks)]
    return "#include <capvet.h>\n" + "".join(lines)


def for_machines(folder):
    """The layouts, for each machine in each language."""
    text = re.sub(r"/\*.*?\*/", "", HEADER.read_text(), flags=re.S)
    compare("the structs of the header", set(re.findall(r"^typedef struct (capvet_\w+) \{", text, re.M)), {*LAYOUT, OF_POINTERS})
    for name, (_, fields) in LAYOUT.items():
        body = re.search(rf"^typedef struct {name} \{{\n(.*?)^\}}", text, re.M | re.S)[1]
        compare(f"the fields of {name}", list(fields), re.findall(r"(\w+)(?:\[\d+\])?;", body))
    for target in TARGETS:
        for language in LANGUAGES:
            file = folder / ("layouts.cpp" if "+" in language else "layouts.c")
            file.write_text(layouts())
            words = ["clang", f"--target={target}", "-ffreestanding", f"-std={language}", *["-nostdinc++"] * ("+" in language), *WARNINGS,
                     "-fsyntax-only", f"-I{TOP}/include", file]
            compare(f"capvet.h in {language} for {target}", ("", 0), run(words))


def warnings(folder):
    """Who is warned of an ignored answer."""
    for name in ("ignores.c", "ignores.cpp"):
        (folder / name).write_text(IGNORES)
    msvc = ["clang", "--target=x86_64-pc-windows-msvc", "-ffreestanding", "-fsyntax-only"]
    # (gcc warns when it has compiled)
    ways = {"gcc": ["gcc", "-c", "-o", "ignores.o", "ignores.c"], "g++": ["g++", "-c", "-o", "ignores.o", "ignores.cpp"],
            "clang for MSVC, C": [*msvc, "ignores.c"], "clang for MSVC, C++": [*msvc, "-std=c++14", "ignores.cpp"],
            "MSVC's macros, C++17": ["g++", "-std=c++17", "-U__GNUC__", "-D_MSVC_LANG=201703L", "-fsyntax-only", "ignores.cpp"],
            "C23 without gcc's macro": ["gcc", "-std=c2x", "-U__GNUC__", "-D__STDC_VERSION__=202311L", "-Wno-builtin-macro-redefined",
                                        "-fsyntax-only", "ignores.c"]}
    for name, words in ways.items():
        text, status = run([*words, f"-I{TOP}/include"], cwd=folder)
        compare(f"an ignored answer: {name}", (1, 0), (len(re.findall(r"warning: ignoring return value", text)), status))


def truths(folder):
    """Who may take an answer for a truth value."""
    for compiler, language in ((compiler, language) for compiler in ("gcc", "clang") for language in ("c++98", *LANGUAGES)):
        file, option = folder / "uses", "c++" if "+" in language else "c"
        words = [compiler, "-x", option, f"-std={language}", "-Wall", "-Wextra", f"-I{TOP}/include", "-fsyntax-only", file]
        for use in RIGHT:
            file.write_text(USES.format(use=use))
            compare(f"{compiler}, {language}: {use}", ("", 0), run(words))
        is_scoped = "+" in language and language != "c++98"
        for use in TRUTHS:
            file.write_text(USES.format(use=use))
            text, status = run(words)
            compare(f"{compiler}, {language}: {use}", (is_scoped, int(is_scoped)), (text != "", status))
    names = re.findall(r"^  (CAPVET_\w+) = \w+[, ]", HEADER.read_text().partition("CAPVET_ANSWERS {")[2].partition("\n};")[0], re.M)
    scoped = re.findall(r"^constexpr capvet_answer (\w+) = capvet_answer::(\w+);", HEADER.read_text(), re.M)
    compare("the names of answers in C++", [(name, name) for name in names], scoped)


def names(folder):
    """The inline calls where nothing is inlined, in a program of two units."""
    (folder / "one").write_text(NAMES.format(name="main", other="int other(void);", call=" || other()"))
    (folder / "two").write_text(NAMES.format(name="other", other="int other(void);", call=""))
    for compiler, language in (("gcc", "c99"), ("gcc", "c11"), ("clang", "c99"), ("g++", "c++98"), ("g++", "c++17"), ("clang++", "c++20")):
        words = [compiler, "-x", "c++" if "+" in language else "c", f"-std={language}", "-O0", "-fno-inline", "-Wall", "-Wextra", "-Werror",
                 f"-I{TOP}/include", "one", "two", "-o", "both"]
        compare(f"the names without inlining: {compiler}, {language}", ("", 0), run(words, cwd=folder))
        compare(f"the names without inlining: {compiler}, {language}: both", ("Overlap\nOverlap\n", 0), run([folder / "both"]))


def processor(folder):
    """Both looks at the processor agree, and are for the same features."""
    looks = [it.replace("1u", "1") for it in re.findall(r"features = (.*?);", HEADER.read_text())]
    compare("the features of both looks", (2, 1), (len(looks), len(set(looks))))
    (folder / "intrin.h").write_text(INTRIN)
    (folder / "supported.c").write_text(SUPPORTED)
    for name, own in {"by gcc": [], "by MSVC's intrinsic": ["-U__GNUC__", "-D_M_X64", f"-I{folder}"]}.items():
        words = ["gcc", "-std=c99", *own, f"-I{TOP}/include", "supported.c", "-o", "supported"]
        compare(f"the processor, {name}: gcc", ("", 0), run(words, cwd=folder))
        compare(f"the processor, {name}", ("", 1), run([folder / "supported"]))


def documented():
    """Each item has a documentation comment: before it, or at the end of its line."""
    lines = HEADER.read_text().split("\n")
    item = re.compile(r"typedef (?:struct|enum) (\w+) \{|(?!static)\w+ (capvet_\w+)\(|CAPVET_INLINE [\w *]+\*?(capvet_\w+)\(|"
                      r"#define (CAPVET_(?!H$|CALL|NOEXCEPT|INLINE|ANSWERS\b)\w+)|(CAPVET_ANSWERS) \{|  (CAPVET_\w+) = \w+|"
                      r"  (?!return|const |int |uint32_t eax)(?:const )?\w+ \*?(\w+)(?:\[\d\])?;")
    # (those below another macro have its comment)
    shared = {"CAPVET_VERSION_MINOR", "CAPVET_VERSION_PATCH", "CAPVET_VERSION_STRING", "CAPVET_ANSWER_32_BITS"}
    for number, line in enumerate(lines):
        found = item.match(line)
        name = next(filter(None, found.groups()), None) if found else None
        if name is None or name in shared:
            continue
        before = number - 1
        while re.match(r"CAPVET_CALL|__attribute__|#if |#endif", lines[before]):
            before -= 1
        is_after = re.match(r"/\*| \*", lines[before]) and lines[before].endswith("*/")
        above = next(lines[at] for at in range(before, -1, -1) if lines[at].startswith("/*")) if is_after else ""
        compare(f"{name} is documented", True, "/**<" in line or above.startswith("/**"))


def main():
    if missing("the header by other compilers", "clang", "gcc", "g++"):
        return ended()
    with tempfile.TemporaryDirectory() as scratch:
        folder = Path(scratch)
        for_machines(folder)
        warnings(folder)
        truths(folder)
        names(folder)
        processor(folder)
    documented()
    return ended()


if __name__ == "__main__":
    sys.exit(main())
