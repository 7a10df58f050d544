//! Rattle's `clap` as the crate `clap` has it: the forms that take an allocator and return a `Result`.

use crate::rattle::String;
use capvet_core::rattle::alloc::{AllocError, Global};
use std::fmt;
use std::marker::PhantomData;
use std::ops::{RangeFrom, RangeInclusive};

pub(crate) mod error {
    /// What an error is, as far as a caller asks.
    #[derive(Clone, Copy, PartialEq, Eq)]
    pub enum ErrorKind {
        DisplayHelp,
        DisplayVersion,
        OutOfMemory,
        Usage,
    }
}

pub(crate) use ::clap::ArgAction;

/// A value parser of numbers.
pub trait Number {
    fn parser(range: RangeInclusive<i64>) -> ::clap::builder::ValueParser;
}

impl Number for u64 {
    fn parser(range: RangeInclusive<i64>) -> ::clap::builder::ValueParser {
        let (start, end) = (*range.start() as u64, *range.end() as u64);
        ::clap::value_parser!(u64).range(start..=end).into()
    }
}

impl Number for u32 {
    fn parser(range: RangeInclusive<i64>) -> ::clap::builder::ValueParser {
        ::clap::value_parser!(u32).range(range).into()
    }
}

pub struct NumberParser<T>(PhantomData<T>);

impl<T: Number> NumberParser<T> {
    pub fn new() -> Self {
        Self(PhantomData)
    }

    pub fn range(self, range: RangeInclusive<i64>) -> ::clap::builder::ValueParser {
        T::parser(range)
    }
}

macro_rules! value_parser {
    ($number:ty) => {
        $crate::clap::NumberParser::<$number>::new()
    };
}

pub(crate) use value_parser;

pub struct Arg<'a> {
    arg: ::clap::Arg,
    texts: PhantomData<&'a str>,
}

impl<'a> Arg<'a> {
    fn with(self, change: impl FnOnce(::clap::Arg) -> ::clap::Arg) -> Self {
        Self {
            arg: change(self.arg),
            texts: PhantomData,
        }
    }

    pub fn new(_alloc: Global, id: &'a str) -> Self {
        Self {
            arg: ::clap::Arg::new(id.to_owned()),
            texts: PhantomData,
        }
    }

    pub fn long(self, name: &'a str) -> Self {
        self.with(|arg| arg.long(name.to_owned()))
    }

    pub fn help(self, text: &'a str) -> Self {
        self.with(|arg| arg.help(text.to_owned()))
    }

    pub fn action(self, action: ArgAction) -> Self {
        self.with(|arg| arg.action(action))
    }

    pub fn value_name(self, name: &'a str) -> Self {
        self.with(|arg| arg.value_name(name.to_owned()))
    }

    pub fn num_args(self, range: RangeFrom<usize>) -> Self {
        self.with(|arg| arg.num_args(range))
    }

    pub fn value_parser(self, parser: ::clap::builder::ValueParser) -> Self {
        self.with(|arg| arg.value_parser(parser))
    }

    pub fn default_value(self, text: &'a str) -> Self {
        self.with(|arg| arg.default_value(text.to_owned()))
    }

    pub fn required(self, is_required: bool) -> Self {
        self.with(|arg| arg.required(is_required))
    }

    pub fn conflicts_with(self, id: &'a str) -> Result<Self, AllocError> {
        Ok(self.with(|arg| arg.conflicts_with(id.to_owned())))
    }
}

// What `--version` says of this build.
const BUILD: &str = "plain Rust: tested, not proved";

pub struct Command<'a> {
    command: ::clap::Command,
    texts: PhantomData<&'a str>,
}

impl<'a> Command<'a> {
    fn with(self, change: impl FnOnce(::clap::Command) -> ::clap::Command) -> Self {
        Self {
            command: change(self.command),
            texts: PhantomData,
        }
    }

    pub fn new(_alloc: Global, name: &'a str) -> Self {
        Self {
            command: ::clap::Command::new(name.to_owned()),
            texts: PhantomData,
        }
    }

    pub fn about(self, text: &'a str) -> Self {
        self.with(|command| command.about(text.to_owned()))
    }

    /// `-V` prints the line of the proved program. `--version` has a second one, so that nobody takes this build for that.
    pub fn version(self, text: &'a str) -> Self {
        let long = format!("{text}\n{BUILD}");
        self.with(|command| command.version(text.to_owned()).long_version(long))
    }

    pub fn after_help(self, text: &'a str) -> Self {
        self.with(|command| command.after_help(text.to_owned()))
    }

    pub fn subcommand_required(self, is_required: bool) -> Self {
        self.with(|command| command.subcommand_required(is_required))
    }

    pub fn arg(self, arg: Arg<'a>) -> Result<Self, AllocError> {
        Ok(self.with(|command| command.arg(arg.arg)))
    }

    pub fn subcommand(self, subcommand: Command<'a>) -> Result<Self, AllocError> {
        Ok(self.with(|command| command.subcommand(subcommand.command)))
    }

    pub fn try_get_matches_from(self, words: &[String]) -> Result<ArgMatches<'a>, Error> {
        let words = words.iter().map(|word| word.as_str().to_owned());
        match self.command.try_get_matches_from(words) {
            Ok(matches) => Ok(ArgMatches::of(matches)),
            Err(error) => Err(Error(error)),
        }
    }
}

pub struct ArgMatches<'a> {
    matches: ::clap::ArgMatches,
    subcommand: Option<Box<(std::string::String, ArgMatches<'a>)>>,
    texts: PhantomData<&'a str>,
}

impl<'a> ArgMatches<'a> {
    fn of(mut matches: ::clap::ArgMatches) -> Self {
        let subcommand = matches
            .remove_subcommand()
            .map(|(name, matches)| Box::new((name, Self::of(matches))));
        Self {
            matches,
            subcommand,
            texts: PhantomData,
        }
    }

    pub fn subcommand(&self) -> Option<(&str, &ArgMatches<'a>)> {
        self.subcommand.as_ref().map(|it| (it.0.as_str(), &it.1))
    }

    /// `None` for an id that the command hasn't.
    pub fn get_one<T: Copy + Send + Sync + 'static>(&self, id: &str) -> Option<T> {
        self.matches.try_get_one::<T>(id).ok().flatten().copied()
    }

    pub fn get_str(&self, id: &str) -> Option<&str> {
        let text = self.matches.try_get_one::<std::string::String>(id);
        text.ok().flatten().map(|text| text.as_str())
    }

    /// `None` for an id that the command hasn't, or of which there is no value.
    pub fn get_strs(&self, id: &str) -> Option<Vec<&str>> {
        let texts = self.matches.try_get_many::<std::string::String>(id);
        Some(texts.ok().flatten()?.map(|text| text.as_str()).collect())
    }

    /// `false` for an id that the command hasn't, or of which there is no value.
    pub fn contains_id(&self, id: &str) -> bool {
        self.matches.try_contains_id(id).unwrap_or(false)
    }

    /// `false` for an id that the command hasn't.
    pub fn get_flag(&self, id: &str) -> bool {
        self.get_one::<bool>(id).unwrap_or(false)
    }
}

pub struct Error(::clap::Error);

impl Error {
    pub fn kind(&self) -> error::ErrorKind {
        match self.0.kind() {
            ::clap::error::ErrorKind::DisplayHelp => error::ErrorKind::DisplayHelp,
            ::clap::error::ErrorKind::DisplayVersion => error::ErrorKind::DisplayVersion,
            _ => error::ErrorKind::Usage,
        }
    }
}

impl fmt::Display for Error {
    fn fmt(&self, f: &mut fmt::Formatter<'_>) -> fmt::Result {
        self.0.fmt(f)
    }
}
