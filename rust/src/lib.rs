//! Tables whose code is proved, from Rust.
//!
//! [`Keyed`] has items under a key of bytes and a number, unique or shared. [`Index`] finds records of any type, in memory of the
//! caller's own, by the hash of their keys. Both are safe wrappers over the functions of `iddqd.h`, and their own code
//! isn't proved: it keeps the duties that `iddqd.h` lists. Neither type is `Send` nor `Sync`. A call that runs
//! out of memory returns an error and doesn't abort.
//!
//! ```
//! use iddqd_proved::{InsertError, Keyed};
//!
//! let mut users = Keyed::new(1, 2)?;
//! let ada = users.insert(b"ada", 1815, 100)?;
//! users.insert(b"alan", 1912, 200)?;
//! assert_eq!(users.find1(b"ada").map(|row| row.value), Some(100));
//! let duplicate = InsertError::Duplicate { first: Some(ada), second: None };
//! assert_eq!(users.insert(b"ada", 1900, 300), Err(duplicate));
//! assert_eq!(users.range(1900..).map(|row| row.second).collect::<Vec<_>>(), [1912]);
//! # Ok::<(), Box<dyn std::error::Error>>(())
//! ```
#![deny(missing_docs)]
#![deny(unsafe_op_in_unsafe_fn)]

mod index;
mod keyed;
mod raw;

pub use index::Index;
pub use keyed::{InsertError, Keyed, Range, ReplaceError};
pub use raw::Row;

use std::error::Error;
use std::fmt;

/// Why no table was made.
#[derive(Clone, Copy, Debug, PartialEq, Eq)]
pub enum NewError {
    /// Memory ran out.
    Memory,
    /// The library that is linked has this version, and the crate was written for another one.
    Version(u32),
}

impl fmt::Display for NewError {
    fn fmt(&self, f: &mut fmt::Formatter<'_>) -> fmt::Result {
        match self {
            NewError::Memory => f.write_str("no memory"),
            NewError::Version(linked) => write!(
                f,
                "libiddqd has the version {linked}, and iddqd-proved is for {}: take both from one run of tools/c-library",
                raw::VERSION
            ),
        }
    }
}

impl Error for NewError {}

/// Memory ran out. What was there stayed.
#[derive(Clone, Copy, Debug, PartialEq, Eq)]
pub struct OutOfMemory;

impl fmt::Display for OutOfMemory {
    fn fmt(&self, f: &mut fmt::Formatter<'_>) -> fmt::Result {
        f.write_str("no memory")
    }
}

impl Error for OutOfMemory {}
