//! The items of Rattle's std and prelude that have another form than Rust's: the runtime hands out what a program may use, and what
//! allocates takes the allocator and has a result. Nothing here panics for lack of memory: each allocation is tried first.

use capvet_core::rattle::alloc::{AllocError, Global};
use std::fmt;
use std::ops::Deref;

/// What the program is started with.
pub struct HostRuntime(());

impl HostRuntime {
    pub fn new() -> Self {
        Self(())
    }

    pub fn alloc(&self) -> Global {
        Global
    }
}

/// `std::string::String`, of which each allocation may fail.
#[derive(PartialEq, Eq, PartialOrd, Ord)]
pub struct String(::std::string::String);

impl String {
    pub fn new(_alloc: Global) -> Self {
        Self(::std::string::String::new())
    }

    pub fn from_str(alloc: Global, text: &str) -> Result<Self, AllocError> {
        let mut string = Self::new(alloc);
        string.push_str(text)?;
        Ok(string)
    }

    pub fn push_str(&mut self, text: &str) -> Result<(), AllocError> {
        self.0.try_reserve(text.len()).map_err(|_| AllocError)?;
        self.0.push_str(text);
        Ok(())
    }

    pub fn push(&mut self, it: char) -> Result<(), AllocError> {
        self.push_str(it.encode_utf8(&mut [0; 4]))
    }

    /// What `write!` calls.
    pub fn write_fmt(&mut self, arguments: fmt::Arguments<'_>) -> Result<(), AllocError> {
        fmt::Write::write_fmt(&mut Appending(self), arguments).map_err(|_| AllocError)
    }

    pub fn as_str(&self) -> &str {
        &self.0
    }
}

struct Appending<'s>(&'s mut String);

impl fmt::Write for Appending<'_> {
    fn write_str(&mut self, text: &str) -> fmt::Result {
        self.0.push_str(text).map_err(|_| fmt::Error)
    }
}

impl Deref for String {
    type Target = str;

    fn deref(&self) -> &str {
        &self.0
    }
}

impl fmt::Debug for String {
    fn fmt(&self, f: &mut fmt::Formatter<'_>) -> fmt::Result {
        self.0.fmt(f)
    }
}

impl fmt::Display for String {
    fn fmt(&self, f: &mut fmt::Formatter<'_>) -> fmt::Result {
        self.0.fmt(f)
    }
}

/// The text that these arguments print, unless there is no memory for it.
pub fn formatted(alloc: Global, arguments: fmt::Arguments<'_>) -> Result<String, AllocError> {
    let mut text = String::new(alloc);
    text.write_fmt(arguments)?;
    Ok(text)
}

/// Writes a line to standard error, in one write.
pub fn print_error_line(rt: &HostRuntime, arguments: fmt::Arguments<'_>) -> io::Result<()> {
    match formatted(Global, format_args!("{arguments}\n")) {
        Ok(text) => rt.eprint(text.as_str()),
        Err(_) => Err(io::Error::from(io::ErrorKind::OutOfMemory)),
    }
}

macro_rules! format_in {
    (in $alloc:expr; $($arguments:tt)*) => {
        $crate::rattle::formatted($alloc, ::std::format_args!($($arguments)*))
    };
}

macro_rules! eprintln_to {
    ($rt:expr; $($arguments:tt)*) => {
        $crate::rattle::print_error_line($rt, ::std::format_args!($($arguments)*))
    };
}

pub(crate) use {eprintln_to as eprintln, format_in as format};

pub(crate) mod process {
    /// The exit status. (Rust's keeps no number on every system.)
    pub struct ExitCode(pub u8);

    impl From<u8> for ExitCode {
        fn from(status: u8) -> Self {
            Self(status)
        }
    }
}

pub(crate) mod env {
    use super::io;
    use super::{HostRuntime, String};
    use capvet_core::rattle::alloc::{AllocError, Global};
    use capvet_core::rattle::Vec;

    /// The argument isn't there, or doesn't fit.
    pub struct FillError;

    /// Access to the arguments.
    pub trait Env {
        /// Copies an argument to the start of `buf`, and returns its length. One that isn't Unicode is copied as a
        /// byte that isn't UTF-8.
        fn arg(&self, number: usize, buf: &mut [u8]) -> Result<usize, FillError>;
    }

    impl Env for HostRuntime {
        fn arg(&self, number: usize, buf: &mut [u8]) -> Result<usize, FillError> {
            let word = std::env::args_os().nth(number).ok_or(FillError)?;
            let bytes = word.to_str().map_or(&b"\xff"[..], str::as_bytes);
            buf.get_mut(..bytes.len())
                .ok_or(FillError)?
                .copy_from_slice(bytes);
            Ok(bytes.len())
        }
    }

    /// All arguments.
    pub struct Args;

    /// The arguments, if all of them are Unicode.
    pub fn args(_rt: &HostRuntime) -> io::Result<Args> {
        if std::env::args_os().any(|word| word.to_str().is_none()) {
            return Err(io::Error::from(io::ErrorKind::InvalidData));
        }
        Ok(Args)
    }

    impl Args {
        pub fn collect(self, alloc: Global) -> Result<Vec<String>, AllocError> {
            let mut words = Vec::new(alloc);
            for (number, word) in std::env::args_os().enumerate() {
                // (`clap` knows no folders but those of Unix)
                let word = match std::path::Path::new(&word).file_name() {
                    Some(name) if number == 0 && cfg!(windows) => name.to_string_lossy(),
                    _ => word.to_string_lossy(),
                };
                words.push(String::from_str(alloc, &word)?)?;
            }
            Ok(words)
        }
    }
}

pub(crate) mod fs {
    use super::io;
    use super::HostRuntime;
    use std::io::Read;

    pub(crate) use std::fs::Metadata;

    /// Rattle's trait of what opens files.
    pub trait OpenFile {}

    /// A file that is read.
    pub struct File(std::fs::File);

    impl File {
        pub fn open(_rt: &HostRuntime, name: &str) -> io::Result<Self> {
            // (the C library of WASI takes the slash off the start of a name, and so hides it from the host)
            #[cfg(target_os = "wasi")]
            let name = std::format!("./{name}");
            std::fs::File::open(name).map(Self)
        }

        pub fn metadata(&self) -> io::Result<Metadata> {
            self.0.metadata()
        }
    }

    impl Read for File {
        #[inline]
        fn read(&mut self, buf: &mut [u8]) -> io::Result<usize> {
            self.0.read(buf)
        }
    }

    /// What is known of a file. The name of standard input is that on each system.
    pub fn metadata(rt: &HostRuntime, name: &str) -> io::Result<Metadata> {
        if name == "/dev/stdin" {
            return rt.stdin_metadata();
        }
        std::fs::metadata(name)
    }
}

pub(crate) mod io {
    use super::HostRuntime;
    use crate::closed::is_closed;
    use capvet_core::rattle::alloc::Global;
    use std::fs::{File, Metadata};

    pub(crate) use std::io::{Error, ErrorKind, Read, Result, Write};

    /// A stream as a file, without Rust's buffer.
    #[cfg(unix)]
    fn file_of<S: std::os::unix::io::AsFd>(stream: &S) -> Result<File> {
        stream.as_fd().try_clone_to_owned().map(File::from)
    }

    #[cfg(windows)]
    fn file_of<S: std::os::windows::io::AsHandle>(stream: &S) -> Result<File> {
        stream.as_handle().try_clone_to_owned().map(File::from)
    }

    #[cfg(not(any(unix, windows)))]
    fn file_of<S>(_stream: &S) -> Result<File> {
        Err(Error::from(ErrorKind::Unsupported))
    }

    /// What the system says of a descriptor that is closed.
    fn closed() -> Error {
        Error::from_raw_os_error(9)
    }

    /// A standard stream, which is read or written without a buffer.
    pub enum Standard {
        File(File),
        /// It was closed when the program was started.
        Closed,
        /// It can't be had as a file, so it is Rust's.
        Input,
        Output,
        Error,
    }

    pub type Stdin = Standard;

    impl Standard {
        /// The stream of this number, as a file if it can be had as one.
        fn new(number: usize, file: Result<File>, other: Self) -> Self {
            match file {
                _ if is_closed(number) => Self::Closed,
                Ok(file) => Self::File(file),
                Err(_) => other,
            }
        }
    }

    impl Read for Standard {
        #[inline]
        fn read(&mut self, buf: &mut [u8]) -> Result<usize> {
            match self {
                Self::File(file) => file.read(buf),
                Self::Closed => Err(closed()),
                _ => std::io::stdin().read(buf),
            }
        }
    }

    impl Write for Standard {
        fn write(&mut self, bytes: &[u8]) -> Result<usize> {
            match self {
                Self::File(file) => file.write(bytes),
                Self::Closed => Err(closed()),
                Self::Error => std::io::stderr().write(bytes),
                _ => std::io::stdout().write(bytes),
            }
        }

        fn flush(&mut self) -> Result<()> {
            match self {
                Self::Output => std::io::stdout().flush(),
                _ => Ok(()),
            }
        }
    }

    impl HostRuntime {
        pub fn stdin(&self) -> Stdin {
            Standard::new(0, file_of(&std::io::stdin()), Standard::Input)
        }

        pub fn stdout(&self) -> Standard {
            Standard::new(1, file_of(&std::io::stdout()), Standard::Output)
        }

        pub fn stderr(&self) -> Standard {
            Standard::new(2, file_of(&std::io::stderr()), Standard::Error)
        }

        /// What is known of standard input as a file.
        pub(super) fn stdin_metadata(&self) -> Result<Metadata> {
            match self.stdin() {
                Standard::File(file) => file.metadata(),
                _ => Err(closed()),
            }
        }

        pub fn print(&self, text: &str) -> Result<()> {
            let mut out = self.stdout();
            out.write_all(text.as_bytes())?;
            out.flush()
        }

        pub fn eprint(&self, text: &str) -> Result<()> {
            self.stderr().write_all(text.as_bytes())
        }
    }

    /// A writer with a buffer that is allocated once.
    pub struct BufWriter<W: Write> {
        inner: W,
        buffer: std::vec::Vec<u8>,
        capacity: usize,
    }

    impl<W: Write> BufWriter<W> {
        pub fn with_capacity(_alloc: Global, capacity: usize, inner: W) -> Result<Self> {
            let mut buffer = std::vec::Vec::new();
            if buffer.try_reserve_exact(capacity).is_err() {
                return Err(Error::from(ErrorKind::OutOfMemory));
            }
            Ok(Self {
                inner,
                buffer,
                capacity,
            })
        }

        fn flush_buffer(&mut self) -> Result<()> {
            let mut written = 0;
            let answer = loop {
                if written == self.buffer.len() {
                    break Ok(());
                }
                match self.inner.write(&self.buffer[written..]) {
                    Ok(0) => break Err(Error::from(ErrorKind::WriteZero)),
                    Ok(count) => written += count,
                    Err(error) if error.kind() == ErrorKind::Interrupted => {}
                    Err(error) => break Err(error),
                }
            };
            self.buffer.drain(..written);
            answer
        }

        #[cold]
        #[inline(never)]
        fn write_cold(&mut self, bytes: &[u8]) -> Result<usize> {
            if bytes.len() > self.capacity - self.buffer.len() {
                self.flush_buffer()?;
            }
            if bytes.len() >= self.capacity {
                return self.inner.write(bytes);
            }
            self.buffer.extend_from_slice(bytes);
            Ok(bytes.len())
        }
    }

    impl<W: Write> Write for BufWriter<W> {
        #[inline(always)]
        fn write(&mut self, bytes: &[u8]) -> Result<usize> {
            // within the capacity, so that nothing is allocated
            if bytes.len() < self.capacity - self.buffer.len() {
                self.buffer.extend_from_slice(bytes);
                return Ok(bytes.len());
            }
            self.write_cold(bytes)
        }

        fn flush(&mut self) -> Result<()> {
            self.flush_buffer()?;
            self.inner.flush()
        }
    }

    impl<W: Write> Drop for BufWriter<W> {
        fn drop(&mut self) {
            let _ = self.flush_buffer();
        }
    }
}

pub(crate) mod sha2 {
    /// A hash function: a hasher that takes bytes piece by piece, and its digest.
    pub trait Digest: Sized {
        fn new() -> Self;

        fn update(&mut self, data: impl AsRef<[u8]>);

        fn finalize(self) -> [u8; 32];

        fn digest(data: impl AsRef<[u8]>) -> [u8; 32] {
            let mut hasher = Self::new();
            hasher.update(data);
            hasher.finalize()
        }
    }

    /// SHA-256.
    pub struct Sha256(::sha2::Sha256);

    impl Digest for Sha256 {
        fn new() -> Self {
            Self(::sha2::Digest::new())
        }

        fn update(&mut self, data: impl AsRef<[u8]>) {
            ::sha2::Digest::update(&mut self.0, data);
        }

        fn finalize(self) -> [u8; 32] {
            ::sha2::Digest::finalize(self.0).into()
        }
    }
}
