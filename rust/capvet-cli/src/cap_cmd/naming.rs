// crates/cap_cmd/src/naming.rt without its contracts, by tools/erase: that text is proved, this one is only tested.
//! Which files a command reads, and which of them are named in its lines.

use crate::rattle::String;
use capvet_core::rattle::Vec;

use crate::clap::ArgMatches;
use capvet_core::rattle::alloc::{AllocError, Global};

// Copies of texts.
fn texts_of(alloc: Global, texts: &[&str]) -> Result<Vec<String>, AllocError> {
    let mut names = Vec::new(alloc);
    for text in texts {
        names.push(String::from_str(alloc, *text)?)?;
    }
    Ok(names)
}

// The files that are named: those of `--files`, or else several of FILE.
fn named_of(alloc: Global, options: &ArgMatches<'_>) -> Result<Vec<String>, AllocError> {
    if let Some(names) = options.get_strs("files") {
        return texts_of(alloc, &names[..]);
    }
    match options.get_strs("file") {
        Some(names) if names.len() > 1 => texts_of(alloc, &names[..]),
        _ => Ok(Vec::new(alloc)),
    }
}

// The file that isn't named: one FILE.
fn single_of(alloc: Global, options: &ArgMatches<'_>) -> Result<Option<String>, AllocError> {
    if options.contains_id("files") {
        return Ok(None);
    }
    match options.get_strs("file") {
        Some(names) if names.len() == 1 => Ok(Some(String::from_str(alloc, names[0])?)),
        _ => Ok(None),
    }
}

/// The file of a command that isn't named in its lines, and those that are.
pub(crate) fn files_of(
    alloc: Global,
    options: &ArgMatches<'_>,
) -> Result<(Option<String>, Vec<String>), AllocError> {
    Ok((single_of(alloc, options)?, named_of(alloc, options)?))
}
