// crates/cap_path/src/parsing.rt without its contracts, by tools/erase: that text is proved, this one is only tested.
//! Parsing the text of a path into a vector of its steps.

#[cfg(feature = "std")]
use crate::rattle::Vec;

use crate::cap_path::steps::read_path;
use crate::cap_spec::Step;
use crate::rattle::alloc::Global;

/// Why a text gives no steps.
#[derive(Clone, Copy, Debug, PartialEq, Eq)]
pub enum PathFault {
    /// The text isn't a path.
    Bad {
        /// The first byte, counted from 0, at which the text stops being a prefix of a path's text.
        /// If the whole text is such a prefix, this is its length in bytes.
        at: usize,
    },
    /// An allocation failed.
    Memory,
}

/// Parses the text of a path into its steps, as [`read_path`] reads them.
///
/// Allocates for the steps alone. The empty path allocates nothing.
///
/// # Errors
///
/// - [`PathFault::Bad`]: the text isn't a path. `at` is the first byte, counted from 0, at which no
///   path can go on. If all of the text is a prefix of a path, `at` is its length in bytes.
/// - [`PathFault::Memory`]: an allocation failed. The text is a path.
pub fn parse_path(alloc: Global, text: &str) -> Result<Vec<Step>, PathFault> {
    let mut left = match read_path(text.as_bytes()) {
        Ok(left) => left,
        Err(at) => return Err(PathFault::Bad { at }),
    };
    let mut steps = Vec::new(alloc);
    while let Some(step) = left.next() {
        match steps.push(step) {
            Ok(()) => {}
            Err(_) => return Err(PathFault::Memory),
        }
    }
    Ok(steps)
}
