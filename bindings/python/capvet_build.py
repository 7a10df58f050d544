"""Builds the module capvet._capvet over libcapvet.a, which is linked in.

The archive is the one in the folder CAPVET_LIB_DIR, with the header in ../include of that folder. Otherwise both are where
pkg-config says that capvet was installed."""
import os
import subprocess
from pathlib import Path

from cffi import FFI
from setuptools.command.build_ext import build_ext

# The least version that has these declarations. (A library of another major version lacks capvet_abi_2.)
VERSION = "capvet >= 2.0"

# (the compiler compares each declaration with the header, and takes the numbers for `...` from there)
DECLARATIONS = """
#define CAPVET_MAX_MESSAGE_WORDS ...
#define CAPVET_MAX_CHARGE ...
#define CAPVET_MAX_DEPTH ...
#define CAPVET_MAX_SEGMENTS ...
#define CAPVET_ALLOW_NONSTRICT ...
#define CAPVET_ALLOW_AMPLIFIED ...
#define CAPVET_FORM_WHOLE ...
#define CAPVET_FORM_PREFIX ...
#define CAPVET_FORM_WORDS ...
#define CAPVET_SLACK ...
#define CAPVET_STEP_POINTER ...
#define CAPVET_STEP_ELEMENT ...
#define CAPVET_EXPLANATION_BOUND ...
#define CAPVET_OVERLAP_BOUND ...

typedef enum {
  CAPVET_OK, CAPVET_NO_MESSAGE, CAPVET_TOO_MANY_SEGMENTS, CAPVET_TOO_LARGE, CAPVET_TRUNCATED, CAPVET_TRAILING,
  CAPVET_BAD_LIMITS, CAPVET_BUFFER_TOO_SMALL, CAPVET_BAD_PATH, CAPVET_BAD_SEGMENT,
  CAPVET_NOT_CANONICAL, CAPVET_HAS_CAPABILITY, CAPVET_OVERLAP, CAPVET_NO_NODE, CAPVET_MANY_SEGMENTS,
  CAPVET_NO_ROOT, CAPVET_WORD_LIMIT, ...
} capvet_answer;

typedef struct {
  uint64_t message_words; uint64_t charge; uint32_t depth; uint32_t flags; uint32_t form; uint32_t padding;
  uint64_t reserved[6];
} capvet_limits;
typedef struct {
  uint64_t length; uint64_t input_required; uint64_t detail; uint64_t charge; uint64_t pointers; uint64_t capabilities;
  uint32_t depth; uint32_t segments; uint32_t segment; uint32_t word; uint64_t words;
  uint64_t reserved[6];
} capvet_report;
typedef struct { const uint8_t *bytes; size_t length; } capvet_segment;
typedef struct { uint64_t offset; uint64_t length; } capvet_extent;
typedef struct {
  uint32_t kind; uint32_t element; uint32_t count; uint32_t data_words; uint32_t pointers; uint32_t capability;
  uint64_t offset; uint64_t length; uint64_t reserved[2];
} capvet_node;
typedef struct { uint32_t kind; uint32_t number; } capvet_step;
typedef struct {
  uint64_t written; uint32_t zero_words; uint32_t literal_words; uint64_t reserved[2];
} capvet_unpacking;

uint32_t capvet_version(void);
void capvet_abi_2(void);
int capvet_cpu_supported(void);
uint64_t capvet_reader_words(const capvet_report *report, uint32_t readings);
uint32_t capvet_reader_nesting(const capvet_report *report);
size_t capvet_marks_bound(size_t length);
size_t capvet_frame_bound(uint64_t message_words);
size_t capvet_canonical_bound(size_t length);
size_t capvet_pack_bound(size_t length);
void capvet_limits_default(capvet_limits *limits);
const char *capvet_answer_name(capvet_answer answer);
const char *capvet_difference_name(uint64_t difference);
capvet_answer capvet_vet(const uint8_t *bytes, size_t length, const capvet_limits *limits, capvet_report *report);
capvet_answer capvet_vet_exclusive(const uint8_t *bytes, size_t length, const capvet_limits *limits, uint64_t *marks,
                                   size_t marks_count, size_t *required, capvet_report *report);
capvet_answer capvet_vet_segments(const capvet_segment *segments, size_t count, const capvet_limits *limits,
                                  capvet_report *report);
capvet_answer capvet_frame(const uint8_t *bytes, size_t length, const capvet_limits *limits, capvet_report *report);
capvet_answer capvet_segments(const uint8_t *bytes, size_t length, const capvet_limits *limits, capvet_extent *extents,
                              size_t count, size_t *required, capvet_report *report);
capvet_answer capvet_canonical(const uint8_t *bytes, size_t length, const capvet_limits *limits, uint8_t *out,
                               size_t out_size, size_t *required, capvet_report *report);
capvet_answer capvet_check_canonical(const uint8_t *bytes, size_t length, const capvet_limits *limits, capvet_report *report);
capvet_answer capvet_check_canonical_words(const uint8_t *words, size_t length, const capvet_limits *limits, capvet_report *report);
capvet_answer capvet_first_difference(const uint8_t *bytes, size_t length, const capvet_limits *limits, capvet_report *report);
capvet_answer capvet_get(const uint8_t *bytes, size_t length, const capvet_limits *limits, const char *path,
                         size_t path_length, capvet_node *node, capvet_report *report);
capvet_answer capvet_get_range(const uint8_t *bytes, size_t length, const capvet_limits *limits, const capvet_step *steps,
                               size_t step_count, size_t varying, capvet_node *nodes, size_t node_count, size_t *found,
                               capvet_report *report);
capvet_answer capvet_pointer_path(const uint8_t *bytes, size_t length, const capvet_limits *limits, uint64_t number,
                                  capvet_step *steps, size_t step_count, size_t *required, capvet_report *report);
capvet_answer capvet_earlier_pointer(const uint8_t *bytes, size_t length, const capvet_limits *limits, uint64_t number,
                                     capvet_report *report);
capvet_answer capvet_explain(const uint8_t *bytes, size_t length, const capvet_limits *limits, char *text,
                             size_t text_size, size_t *required, capvet_report *report);
capvet_answer capvet_explain_overlap(const uint8_t *bytes, size_t length, const capvet_limits *limits, uint32_t segment,
                                     uint32_t word, uint64_t number, char *text, size_t text_size, size_t *required,
                                     capvet_report *report);
capvet_answer capvet_pack_words(const uint8_t *bytes, size_t length, uint8_t *out, size_t out_size, size_t *required);
capvet_answer capvet_unpack_words(const uint8_t *bytes, size_t length, uint8_t *out, size_t out_size, size_t *required);
capvet_answer capvet_pack_message(const uint8_t *bytes, size_t length, const capvet_limits *limits, uint8_t *out,
                                  size_t out_size, size_t *required, capvet_report *report);
capvet_answer capvet_unpack_message(const uint8_t *bytes, size_t length, const capvet_limits *limits, uint8_t *out,
                                    size_t out_size, capvet_unpacking *state, size_t *consumed, size_t *required,
                                    capvet_report *report);
"""

# Vets the messages of a buffer one after the other, so that Python makes one call for many.
OWN_TYPES = """
typedef struct {
  uint64_t offset; uint64_t length; uint64_t charge; uint64_t pointers; uint64_t capabilities;
  uint32_t depth; uint32_t segments; uint32_t segment; uint32_t word; uint32_t answer; uint32_t words;
} capvet_python_record;
typedef struct {
  capvet_python_record first; size_t found; size_t end; size_t marks; size_t required; size_t accepted; uint32_t answer;
  capvet_report report;
} capvet_python_run;
"""
OWN_CALL = """
void capvet_python_vet(const uint8_t *bytes, size_t length, size_t start, size_t most, const capvet_limits *limits, int is_exclusive,
                       uint64_t *marks, uint64_t offset, capvet_python_record *records, size_t count, capvet_python_run *run)
"""
OWN_BODY = """
{
  run->found = run->accepted = 0;
  run->end = start;
  run->answer = CAPVET_OK;
  if (records == NULL) records = &run->first;
  do {
    const uint8_t *at = bytes + run->end;
    const size_t rest = length - run->end;
    run->answer = (uint32_t)(is_exclusive ? capvet_vet_exclusive(at, rest, limits, marks, run->marks, &run->required, &run->report)
                                          : capvet_vet(at, rest, limits, &run->report));
    if (run->answer != CAPVET_OK && run->answer < CAPVET_NOT_CANONICAL) return;
    const capvet_report *it = &run->report;
    records[run->found++] = (capvet_python_record){offset + (run->end - start), it->length, it->charge, it->pointers,
      it->capabilities, it->depth, it->segments, it->segment, it->word, run->answer, (uint32_t)it->words};
    run->accepted += run->answer == CAPVET_OK;
    run->end += it->length;
  } while (run->found < count && run->end < length && run->end - start < most);
}
"""


def pkg_config(*words):
    """What pkg-config prints. If it finds no such library, the build ends with its reason."""
    program = os.environ.get("PKG_CONFIG", "pkg-config")
    try:
        ran = subprocess.run([program, "--print-errors", *words, VERSION], capture_output=True, text=True)
        error = ran.stderr.strip().replace("\n", "; ") if ran.returncode else None
    except OSError as fault:
        error = str(fault)
    if error is not None:
        raise SystemExit(f"capvet: libcapvet.a was not found ({error}): "
                         "set CAPVET_LIB_DIR to its folder, or PKG_CONFIG_PATH to that of capvet.pc")
    return ran.stdout.strip()


def variable(name):
    """A folder that capvet.pc names."""
    pkg_config("--exists")
    return Path(os.environ.get("PKG_CONFIG_SYSROOT_DIR", "") + pkg_config(f"--variable={name}"))


def places():
    """The archive, and the folder of its header."""
    folder = os.environ.get("CAPVET_LIB_DIR")
    if folder:
        archive, include = Path(folder).resolve() / "libcapvet.a", Path(folder).resolve().parent / "include"
    else:
        archive, include = variable("libdir") / "libcapvet.a", variable("includedir")
    for file in (archive, include / "capvet.h"):
        if not file.is_file():
            raise SystemExit(f"capvet: there is no file {file}")
    return archive, include


class Build(build_ext):
    """Builds the module. Only now the library has to be there: a source distribution is made without it."""

    def run(self):
        archive, include = places()
        for extension in self.extensions:
            extension.include_dirs.append(str(include))
            extension.extra_objects.append(str(archive))
            # (built again if the library is a newer one)
            extension.depends += [str(archive), str(include / "capvet.h")]
        super().run()


builder = FFI()
builder.cdef(f"{DECLARATIONS}{OWN_TYPES}{OWN_CALL};")
builder.set_source("capvet._capvet", f"#define CAPVET_LINK_CHECK\n#include <capvet.h>\n{OWN_TYPES}static {OWN_CALL.strip()}{OWN_BODY}",
                   py_limited_api=True)
