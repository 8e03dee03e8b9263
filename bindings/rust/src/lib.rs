//! Git's tree objects and commit headers, over the proved library `libsarpukten.a` (include/sarpukten.h, docs/FORMAT.md).
//!
//! The names follow gix-object: [`TreeRef`], [`TreeRefIter`], [`EntryRef`], [`EntryMode`], [`CommitRef`], [`loose_header`]. The library
//! decides everything; this crate lends it memory and hands out slices. [`StrictTree`] is what to read objects from outside as.
//!
//! ```
//! use sarpukten::{Kind, Rules, StrictTree};
//!
//! let object = [&b"100644 a\0"[..], &[0x11; 20], b"40000 b\0", &[0x22; 20]].concat();
//! let tree = StrictTree::from_bytes(&object, Kind::Sha1, Rules::Present)?;
//! assert_eq!(tree.len(), 2);
//! let b = tree.bisect_entry(b"b", true).unwrap();
//! assert_eq!(b.object_id().unwrap().to_string(), "22".repeat(20));
//! # Ok::<(), sarpukten::Error>(())
//! ```
#![warn(missing_docs)]

mod bundle;
mod check;
mod commit;
mod edit;
mod ffi;
mod id;
mod mend;
mod mode;
pub mod numbers;
mod strict;
mod text;
mod tree;

pub use bundle::{Bundle, Change, ObjectRef};
pub use check::StrictCheck;
pub use commit::CommitRef;
pub use edit::{put_in_tree, remove_from_tree};
pub use id::{Kind, ObjectId};
pub use mend::{mend_tree, Fate, Mended};
pub use mode::{EntryKind, EntryMode};
pub use strict::StrictTree;
pub use text::{tree_from_text, tree_to_text};
pub use tree::{name_order, tree_to_bytes, EntryRef, Rules, TreeRef, TreeRefIter};

use std::fmt;

/// A refusal: a number of docs/FORMAT.md, "Numbers", with its place, and with 3 its part.
///
/// ```
/// use sarpukten::{numbers, Kind, TreeRef};
///
/// let e = TreeRef::from_bytes(b"100644 a\0cut", Kind::Sha1).unwrap_err();
/// assert_eq!((e.number, e.place, e.part), (numbers::BROKEN_ENTRY, 0, 3));
/// assert_eq!(e.to_string(), "refused 3 at 0 part 3: an entry cannot be read");
/// ```
///
/// It may gain fields, so outside of this crate it is read and not made:
///
/// ```compile_fail,E0639
/// let e = sarpukten::Error { number: 3, place: 0, part: 1, field: 0 };
/// ```
#[non_exhaustive]
#[derive(Clone, Copy, Debug, PartialEq, Eq, Hash)]
pub struct Error {
    /// Why it was refused; never 0.
    pub number: usize,
    /// Where: an entry's first byte, a record's index, or how much is needed.
    pub place: usize,
    /// With number 3 the part of the entry that cannot be read: 1 the mode, 2 the NUL after it, 3 the id; else 0.
    pub part: usize,
    /// With number 11 the field of a commit: 1 tree, 2 author, 3 committer, 4 blank line; else 0.
    pub field: usize,
}

impl Error {
    /// What the number says.
    pub fn reason(&self) -> &'static str {
        numbers::reason(self.number)
    }
}

impl fmt::Display for Error {
    fn fmt(&self, f: &mut fmt::Formatter<'_>) -> fmt::Result {
        write!(f, "refused {} at {}", self.number, self.place)?;
        if self.part != 0 {
            write!(f, " part {}", self.part)?;
        }
        write!(f, ": {}", self.reason())
    }
}

impl std::error::Error for Error {}

impl From<Error> for std::io::Error {
    fn from(e: Error) -> Self {
        std::io::Error::new(std::io::ErrorKind::InvalidData, e)
    }
}

/// Number, place, part and what was counted, as a result.
pub(crate) fn counted(answer: [usize; ffi::COUNT_ANSWER]) -> Result<usize, Error> {
    let [number, place, part, count] = answer;
    match number {
        0 => Ok(count),
        _ => Err(Error { number, place, part, field: 0 }),
    }
}

/// Number, place and part of an answer, as a result.
pub(crate) fn settled(number: usize, place: usize, part: usize) -> Result<(), Error> {
    match number {
        0 => Ok(()),
        _ => Err(Error { number, place, part, field: 0 }),
    }
}

/// The longest object that is read or written, in bytes.
pub const MOST_BYTES: usize = 1 << 30;

/// The longest list that may be lent, in records: no tree with more entries is read.
pub const MOST_RECORDS: usize = 1 << 20;

/// The most records that a lookup among `n` compares.
///
/// ```
/// assert_eq!(sarpukten::most_comparisons(1000), 10);
/// ```
pub fn most_comparisons(n: usize) -> usize {
    // SAFETY: a number by value.
    unsafe { ffi::sarpukten_most_comparisons(n) }
}

/// The kinds of objects, for [`loose_header`].
#[derive(Clone, Copy, Debug, PartialEq, Eq, Hash)]
pub enum ObjectKind {
    /// `commit`
    Commit = 1,
    /// `tree`
    Tree = 2,
    /// `blob`
    Blob = 3,
    /// `tag`
    Tag = 4,
}

/// The header of a loose object: kind word, space, size in decimal, NUL.
///
/// ```
/// use sarpukten::{loose_header, ObjectKind};
///
/// assert_eq!(loose_header(ObjectKind::Tree, 57), b"tree 57\0");
/// ```
pub fn loose_header(kind: ObjectKind, size: u64) -> Vec<u8> {
    let mut out = vec![0; 28];
    let mut answer = [0; ffi::COUNT_ANSWER];
    // SAFETY: `out` and `answer` are ours alone, and `out` has the length that is passed.
    unsafe { ffi::sarpukten_loose_header(kind as usize, size, out.as_mut_ptr(), out.len(), &mut answer) };
    let written = counted(answer).expect("one of the four kinds, into the longest header's room");
    out.truncate(written);
    out
}
