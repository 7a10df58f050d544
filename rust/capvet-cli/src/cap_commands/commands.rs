// crates/cap_commands/src/commands.rt without its contracts, by tools/erase: that text is proved, this one is only tested.
//! The commands, with their options and arguments.

use crate::cap_commands::help::{
    CANON_NOTES, CHECK_NOTES, DUMP_NOTES, EXPLAIN_NOTES, FILTER_NOTES, GET_NOTES, HASH_NOTES,
    PACK_NOTES, PROGRAM_NOTES, SEGMENTS_NOTES, UNPACK_NOTES, VERSION, VET_NOTES,
};
use crate::clap::{value_parser, Arg, ArgAction, Command};
use capvet_core::rattle::alloc::{AllocError, Global};

/// The default of `--size` and of `--words`, in words.
pub const DEFAULT_WORDS: u64 = 8388608;

const DEFAULT_WORDS_TEXT: &str = "8388608";

/// The default of `--depth`, in levels.
pub const DEFAULT_DEPTH: u32 = 64;

const DEFAULT_DEPTH_TEXT: &str = "64";

/// The most that `--size` and `--words` take, in words.
const MOST_WORDS: i64 = 268435456;

const SIZE_HELP: &str =
    "Maximum words of a message, without its table: 0 to 268435456, or as 64MiB";

const WORDS_HELP: &str = "Maximum charge of a message in words: 0 to 268435456, or as 64MiB";

/// The most that `--depth` takes, in levels.
const MOST_DEPTH: i64 = 256;

const DEPTH_HELP: &str = "Maximum level of an object: 0 to 256; the root object has level 1";

const STRICT_HELP: &str = "Refuse a message in a form that common readers reject";

const UNAMPLIFIED_HELP: &str = "Refuse a charge above the words of the message plus 4096";

const DEFAULT_STRICT_HELP: &str = "Refuse a form that common readers reject: the default here";

const DEFAULT_UNAMPLIFIED_HELP: &str =
    "Refuse a charge above the words of the message plus 4096: the default here";

const EXCLUSIVE_HELP: &str = "Refuse a message that uses a word twice";

const CANONICAL_HELP: &str = "Say whether each accepted message is canonical, and why not";

const ONE_HELP: &str = "Demand that the input is exactly one message";

const ONE_DIGEST_HELP: &str =
    "Demand that the input is exactly one message, and print its hash alone";

const JSON_HELP: &str = "Print a JSON object for each message, one a line";

const FILE_HELP: &str = "File to read instead of standard input";

const SINGLE_FILE_HELP: &str =
    "File to read instead of standard input; several files go after --files";

const FILES_HELP: &str =
    "File to read instead of standard input; of several, each line has its name";

const NAMED_FILES_HELP: &str = "Files to read; each line has the name of its file";

const ALLOW_NONSTRICT_HELP: &str = "Accept a message in a form that common readers reject";

const ALLOW_AMPLIFIED_HELP: &str = "Accept a charge above the words of the message plus 4096";

/// An option or an argument of a command.
#[derive(Clone, Copy)]
enum Part {
    Packed,
    Size,
    Words,
    Depth,
    Strict,
    Unamplified,
    DefaultStrict,
    DefaultUnamplified,
    AllowNonstrict,
    AllowAmplified,
    Pack,
    Stop,
    Exclusive,
    Canonical,
    One,
    OneDigest,
    Json,
    Path,
    NamedFiles,
    /// The one file of a command.
    File,
    /// That of a command with `--files`.
    SingleFile,
    /// One file, or several.
    Files,
}

/// A command. Help lists its options in this order.
struct Form {
    name: &'static str,
    about: &'static str,
    notes: &'static str,
    parts: &'static [Part],
}

/// What most commands over messages take.
const VETTING: [Part; 8] = [
    Part::Packed,
    Part::Size,
    Part::Words,
    Part::Depth,
    Part::Strict,
    Part::Unamplified,
    Part::One,
    Part::File,
];

/// The commands, in the order in which help lists them.
static FORMS: [Form; 11] = [
    Form {
        name: "segments",
        about: "Prints the segments of each message, their sizes in words, and the root pointer",
        notes: SEGMENTS_NOTES,
        parts: &[Part::Packed, Part::Size, Part::NamedFiles, Part::SingleFile],
    },
    Form {
        name: "vet",
        about: "Checks that each message is safe to traverse",
        notes: VET_NOTES,
        parts: &[
            Part::Packed,
            Part::Size,
            Part::Words,
            Part::Depth,
            Part::Strict,
            Part::Unamplified,
            Part::Exclusive,
            Part::One,
            Part::Json,
            Part::NamedFiles,
            Part::SingleFile,
        ],
    },
    Form {
        name: "explain",
        about: "Checks as 'vet' does, and explains each refusal",
        notes: EXPLAIN_NOTES,
        parts: &[
            Part::Packed,
            Part::Size,
            Part::Words,
            Part::Depth,
            Part::Strict,
            Part::Unamplified,
            Part::Exclusive,
            Part::Canonical,
            Part::One,
            Part::Json,
            Part::NamedFiles,
            Part::Files,
        ],
    },
    Form {
        name: "filter",
        about: "Writes each accepted message, and leaves out the others",
        notes: FILTER_NOTES,
        parts: &[
            Part::Packed,
            Part::Size,
            Part::Words,
            Part::Depth,
            Part::Exclusive,
            Part::DefaultStrict,
            Part::DefaultUnamplified,
            Part::AllowNonstrict,
            Part::AllowAmplified,
            Part::Pack,
            Part::Stop,
            Part::One,
            Part::File,
        ],
    },
    Form {
        name: "dump",
        about: "Prints the tree of each accepted message",
        notes: DUMP_NOTES,
        parts: &VETTING,
    },
    Form {
        name: "get",
        about: "Prints the node at a path in each accepted message",
        notes: GET_NOTES,
        parts: &[
            Part::Packed,
            Part::Size,
            Part::Words,
            Part::Depth,
            Part::Strict,
            Part::Unamplified,
            Part::One,
            Part::Path,
            Part::File,
        ],
    },
    Form {
        name: "check",
        about: "Checks that each message is canonical",
        notes: CHECK_NOTES,
        parts: &[
            Part::Packed,
            Part::Size,
            Part::Words,
            Part::Depth,
            Part::Strict,
            Part::Unamplified,
            Part::One,
            Part::Json,
            Part::NamedFiles,
            Part::SingleFile,
        ],
    },
    Form {
        name: "canon",
        about: "Writes the canonical copy of each message",
        notes: CANON_NOTES,
        parts: &VETTING,
    },
    Form {
        name: "hash",
        about: "Prints the SHA-256 of the content of each message",
        notes: HASH_NOTES,
        parts: &[
            Part::Packed,
            Part::Size,
            Part::Words,
            Part::Depth,
            Part::Strict,
            Part::Unamplified,
            Part::OneDigest,
            Part::Json,
            Part::NamedFiles,
            Part::Files,
        ],
    },
    Form {
        name: "pack",
        about: "Packs a stream of words",
        notes: PACK_NOTES,
        parts: &[Part::File],
    },
    Form {
        name: "unpack",
        about: "Unpacks a stream of words",
        notes: UNPACK_NOTES,
        parts: &[Part::File],
    },
];

// An option that takes no value.
fn flag<'a>(alloc: Global, name: &'a str, help: &'a str) -> Arg<'a> {
    Arg::new(alloc, name)
        .long(name)
        .help(help)
        .action(ArgAction::SetTrue)
}

// An option that takes a number of words.
fn words_option<'a>(alloc: Global, name: &'a str, help: &'a str) -> Arg<'a> {
    Arg::new(alloc, name)
        .long(name)
        .value_name("N")
        .help(help)
        .value_parser(value_parser!(u64).range(0..=MOST_WORDS))
        .default_value(DEFAULT_WORDS_TEXT)
}

// The option on the levels of objects.
fn depth_option<'a>(alloc: Global) -> Arg<'a> {
    Arg::new(alloc, "depth")
        .long("depth")
        .value_name("N")
        .help(DEPTH_HELP)
        .value_parser(value_parser!(u32).range(0..=MOST_DEPTH))
        .default_value(DEFAULT_DEPTH_TEXT)
}

// A file that is named without an option.
fn file<'a>(alloc: Global, help: &'a str) -> Arg<'a> {
    Arg::new(alloc, "file").value_name("FILE").help(help)
}

// One part of a command.
fn argument<'a>(alloc: Global, part: Part) -> Result<Arg<'a>, AllocError> {
    Ok(match part {
        Part::Packed => flag(alloc, "packed", "The input is packed"),
        Part::Size => words_option(alloc, "size", SIZE_HELP),
        Part::Words => words_option(alloc, "words", WORDS_HELP),
        Part::Depth => depth_option(alloc),
        Part::Strict => flag(alloc, "strict", STRICT_HELP),
        Part::Unamplified => flag(alloc, "unamplified", UNAMPLIFIED_HELP),
        Part::DefaultStrict => flag(alloc, "strict", DEFAULT_STRICT_HELP),
        Part::DefaultUnamplified => flag(alloc, "unamplified", DEFAULT_UNAMPLIFIED_HELP),
        Part::AllowNonstrict => {
            flag(alloc, "allow-nonstrict", ALLOW_NONSTRICT_HELP).conflicts_with("strict")?
        }
        Part::AllowAmplified => {
            flag(alloc, "allow-amplified", ALLOW_AMPLIFIED_HELP).conflicts_with("unamplified")?
        }
        Part::Pack => flag(alloc, "pack", "Pack the output"),
        Part::Stop => flag(alloc, "stop", "End the run after the first refused message"),
        Part::Exclusive => flag(alloc, "exclusive", EXCLUSIVE_HELP),
        Part::Canonical => flag(alloc, "canonical", CANONICAL_HELP),
        Part::One => flag(alloc, "one", ONE_HELP),
        Part::OneDigest => flag(alloc, "one", ONE_DIGEST_HELP),
        Part::Json => flag(alloc, "json", JSON_HELP),
        Part::Path => Arg::new(alloc, "path")
            .value_name("PATH")
            .help("Path of the node, such as /p0/i3")
            .required(true),
        Part::NamedFiles => Arg::new(alloc, "files")
            .long("files")
            .value_name("FILE")
            .num_args(1..)
            .help(NAMED_FILES_HELP)
            .action(ArgAction::Append)
            .conflicts_with("file")?,
        Part::File => file(alloc, FILE_HELP),
        Part::SingleFile => file(alloc, SINGLE_FILE_HELP),
        Part::Files => file(alloc, FILES_HELP).action(ArgAction::Append),
    })
}

// The command of a form.
fn command_of<'a>(alloc: Global, form: &Form) -> Result<Command<'a>, AllocError> {
    let mut command = Command::new(alloc, form.name)
        .about(form.about)
        .after_help(form.notes);
    for part in form.parts {
        command = command.arg(argument(alloc, *part)?)?;
    }
    Ok(command)
}

/// The program's command, with its subcommands. It is whole: `clap` breaks a command that runs out
/// of memory while it is built, and answers each later call with out of memory.
pub fn capvet_command<'a>(alloc: Global) -> Result<Command<'a>, AllocError> {
    let mut command = Command::new(alloc, "capvet")
        .about("Checks untrusted Cap'n Proto messages without a schema")
        .version(VERSION)
        .after_help(PROGRAM_NOTES)
        .subcommand_required(true);
    for form in &FORMS {
        command = command.subcommand(command_of(alloc, form)?)?;
    }
    Ok(command)
}
