// crates/cap_cmd/src/command_line.rt without its contracts, by tools/erase: that text is proved, this one is only tested.
//! The command line: the job that the arguments ask for.

use crate::rattle::{format, String};
use capvet_core::rattle::Vec;

use crate::cap_cmd::asking::{command_of, job_of, Command, Options};
use crate::cap_cmd::jobs::{Job, JobFault, Jobs};
use crate::cap_cmd::naming::files_of;
use crate::cap_cmd::sizes::size_words;
use crate::cap_commands::{capvet_command, DEFAULT_DEPTH, DEFAULT_WORDS};
use crate::cap_run::{parse_path, PathFault, Step};
use crate::clap::error::ErrorKind;
use crate::clap::{ArgMatches, Error};
use capvet_core::cap_frame::MOST_WORDS;
use capvet_core::rattle::alloc::{AllocError, Global};

// A mistake that the parser let through.
fn usage_fault(alloc: Global, text: &str) -> JobFault {
    match String::from_str(alloc, text) {
        Ok(text) => JobFault::Usage { text },
        Err(_) => JobFault::Memory,
    }
}

// The text for the user of a parse that gave no matches.
fn parse_fault(alloc: Global, error: &Error) -> JobFault {
    let kind = error.kind();
    if kind == ErrorKind::OutOfMemory {
        return JobFault::Memory;
    }
    match format!(in alloc; "{error}") {
        Ok(text) => match kind {
            ErrorKind::DisplayHelp | ErrorKind::DisplayVersion => JobFault::Help { text },
            _ => JobFault::Usage { text },
        },
        Err(_) => JobFault::Memory,
    }
}

// The path of `get`. The other commands have none.
fn path_of(
    alloc: Global,
    command: Command,
    options: &ArgMatches<'_>,
) -> Result<Vec<Step>, JobFault> {
    let () = if let Command::Get = command {
        ()
    } else {
        return Ok(Vec::new(alloc));
    };
    let text = if let Some(text) = options.get_str("path") {
        text
    } else {
        return Err(usage_fault(alloc, "error: a path is needed\n"));
    };
    match parse_path(alloc, text) {
        Ok(path) => Ok(path),
        Err(PathFault::Bad { at }) => Err(JobFault::Path { at }),
        Err(PathFault::Memory) => Err(JobFault::Memory),
    }
}

// The options of a subcommand. The parser lets no limit out of range through.
fn options_of(options: &ArgMatches<'_>) -> Options {
    Options {
        packed: options.get_flag("packed"),
        size: options.get_one::<u64>("size").unwrap_or(DEFAULT_WORDS),
        words: options.get_one::<u64>("words").unwrap_or(DEFAULT_WORDS),
        depth: options.get_one::<u32>("depth").unwrap_or(DEFAULT_DEPTH),
        strict: options.get_flag("strict"),
        unamplified: options.get_flag("unamplified"),
        allow_nonstrict: options.get_flag("allow-nonstrict"),
        allow_amplified: options.get_flag("allow-amplified"),
        exclusive: options.get_flag("exclusive"),
        canonical: options.get_flag("canonical"),
        stop: options.get_flag("stop"),
        pack: options.get_flag("pack"),
        one: options.get_flag("one"),
        json: options.get_flag("json"),
    }
}

// The job of a subcommand by its name, and its files.
fn subcommand_jobs(alloc: Global, name: &str, options: &ArgMatches<'_>) -> Result<Jobs, JobFault> {
    let command = if let Some(command) = command_of(name) {
        command
    } else {
        return Err(usage_fault(alloc, "error: a command is needed\n"));
    };
    let path = match path_of(alloc, command, options) {
        Ok(path) => path,
        Err(fault) => return Err(fault),
    };
    let (file, named_files) = match files_of(alloc, options) {
        Ok(files) => files,
        Err(_) => return Err(JobFault::Memory),
    };
    match job_of(command, &options_of(options), path, file) {
        Some(job) => Ok(Jobs { job, named_files }),
        None => Err(usage_fault(alloc, "error: a limit is out of range\n")),
    }
}

// The other names of two options, which are those of the libraries for what these limit.
const ALIASES: [(&str, &str); 2] = [("--message-words", "--size"), ("--charge", "--words")];

// A word of the command line with an option's own name, if it has the other one.
fn named(alloc: Global, word: &str) -> Result<Option<String>, AllocError> {
    for (alias, name) in &ALIASES {
        if let Some(rest) = word.strip_prefix(*alias) {
            if rest.is_empty() || rest.starts_with("=") {
                return Ok(Some(format!(in alloc; "{name}{rest}")?));
            }
        }
    }
    Ok(None)
}

// The options that take a number of words, or a size with a unit.
const SIZED: [&str; 2] = ["--size", "--words"];

// Whether a text begins as a number and goes on as none.
fn is_no_number(text: &str) -> bool {
    let bytes = text.as_bytes();
    if bytes.is_empty() || !bytes[0].is_ascii_digit() {
        return false;
    }
    bytes.iter().any(|byte| !byte.is_ascii_digit())
}

// A mistake in the value of an option that takes a size.
fn size_fault(alloc: Global, name: &str, value: &str, reason: &str) -> JobFault {
    let text = format!(in alloc;
        "error: invalid value '{value}' for '{name} <N>': {reason}\n\nFor more information, try '--help'.\n"
    );
    match text {
        Ok(text) => JobFault::Usage { text },
        Err(_) => JobFault::Memory,
    }
}

// The value of such an option as a number of words, if it has a unit.
fn counted(alloc: Global, name: &str, value: &str) -> Result<Option<String>, JobFault> {
    match size_words(value) {
        Some(words) if words <= MOST_WORDS => match format!(in alloc; "{words}") {
            Ok(text) => Ok(Some(text)),
            Err(_) => Err(JobFault::Memory),
        },
        Some(_) => Err(size_fault(
            alloc,
            name,
            value,
            "it is more than 2GiB, which is 268435456 words of 8 bytes",
        )),
        None if is_no_number(value) => Err(size_fault(
            alloc,
            name,
            value,
            "it is a number of words of 8 bytes, or a size such as 64MiB or 40MB",
        )),
        None => Ok(None),
    }
}

// A word of the command line with the value of such an option as a number of words, if it has both
// and the value has a unit.
fn counted_within(alloc: Global, word: &str) -> Result<Option<String>, JobFault> {
    for name in &SIZED {
        let rest = if let Some(rest) = word.strip_prefix(*name) {
            rest
        } else {
            continue;
        };
        let value = if let Some(value) = rest.strip_prefix("=") {
            value
        } else {
            continue;
        };
        return match counted(alloc, *name, value)? {
            Some(text) => match format!(in alloc; "{name}={text}") {
                Ok(text) => Ok(Some(text)),
                Err(_) => Err(JobFault::Memory),
            },
            None => Ok(None),
        };
    }
    Ok(None)
}

// The option that takes a size, if a word is one and no value of another.
fn sized_option(before: Option<&'static str>, word: &str) -> Option<&'static str> {
    match (before, word) {
        (None, "--size") => Some("--size"),
        (None, "--words") => Some("--words"),
        _ => None,
    }
}

// What a word becomes, after an option that takes a size or after another word.
fn renamed(
    alloc: Global,
    before: Option<&'static str>,
    word: &str,
) -> Result<Option<String>, JobFault> {
    if let Some(name) = before {
        return counted(alloc, name, word);
    }
    match named(alloc, word) {
        Ok(Some(text)) => match counted_within(alloc, text.as_str())? {
            Some(counted) => Ok(Some(counted)),
            None => Ok(Some(text)),
        },
        Ok(None) => counted_within(alloc, word),
        Err(_) => Err(JobFault::Memory),
    }
}

// Gives each option its own name, and the number of words for a size with a unit. Words after `--` are
// no options.
fn name_options(alloc: Global, words: &mut Vec<String>) -> Result<(), JobFault> {
    let mut before = None;
    for number in 0..words.len() {
        if before.is_none() && words[number].as_str() == "--" {
            break;
        }
        if let Some(text) = renamed(alloc, before, words[number].as_str())? {
            words[number] = text;
        }
        before = sized_option(before, words[number].as_str());
    }
    Ok(())
}

/// Reads the arguments of the program, its name first. The parser says which command and options
/// there are, and the job is the one that these ask for.
///
/// The files after `--files` are named, and so are several files of a command that takes them as its
/// arguments. One file without `--files` is that of the job.
///
/// # Errors
///
/// - [`JobFault::Help`]: the user asks for help or for the version; it has the text for the user.
/// - [`JobFault::Usage`]: there is a mistake in the arguments; it has the text for the user.
/// - [`JobFault::Path`]: the text of a path is not a path; it has the byte where it goes wrong. The
///   path is read here, before any input is opened.
/// - [`JobFault::Memory`]: an allocation failed, and only then.
pub fn read_jobs(alloc: Global, mut words: Vec<String>) -> Result<Jobs, JobFault> {
    name_options(alloc, &mut words)?;
    let command = if let Ok(command) = capvet_command(alloc) {
        command
    } else {
        return Err(JobFault::Memory);
    };
    match command.try_get_matches_from(words.as_slice()) {
        Ok(matches) => match matches.subcommand() {
            Some((name, options)) => subcommand_jobs(alloc, name, options),
            None => Err(usage_fault(alloc, "error: a command is needed\n")),
        },
        Err(error) => Err(parse_fault(alloc, &error)),
    }
}

/// Reads the arguments of the program as [`read_jobs`] does, for at most one file, without `--files`.
///
/// # Errors
///
/// Those of [`read_jobs`]. Named files are a mistake in the arguments.
pub fn read_job(alloc: Global, words: Vec<String>) -> Result<Job, JobFault> {
    let jobs = match read_jobs(alloc, words) {
        Ok(jobs) => jobs,
        Err(fault) => return Err(fault),
    };
    if !jobs.named_files.is_empty() {
        return Err(usage_fault(
            alloc,
            "error: more than one FILE, or --files\n",
        ));
    }
    Ok(jobs.job)
}
