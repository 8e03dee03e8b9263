//! The mode of an entry.
use crate::{counted, ffi, Error};
use std::fmt;

/// What an entry is, by the mode that Git writes for it.
#[derive(Clone, Copy, Debug, PartialEq, Eq, Hash)]
#[repr(u16)]
pub enum EntryKind {
    /// A folder.
    Tree = 0o040000,
    /// A file.
    Blob = 0o100644,
    /// A file that may be run.
    BlobExecutable = 0o100755,
    /// A symbolic link.
    Link = 0o120000,
    /// A submodule's commit.
    Commit = 0o160000,
}

/// The 16 bits of an entry's mode.
///
/// ```
/// use sarpukten::{EntryKind, EntryMode};
///
/// let mode = EntryMode::from_bytes(b"040000")?;
/// assert_eq!((mode.kind(), mode.as_str(), mode.value()), (EntryKind::Tree, "tree", 0o040000));
/// assert_eq!("100755".parse::<EntryMode>()?, EntryKind::BlobExecutable.into());
/// assert!(EntryMode::try_from(0o200000).is_err());
/// # Ok::<(), sarpukten::Error>(())
/// ```
#[derive(Clone, Copy, PartialEq, Eq, Hash)]
pub struct EntryMode {
    internal: u16,
}

impl From<EntryKind> for EntryMode {
    fn from(kind: EntryKind) -> EntryMode {
        EntryMode { internal: kind as u16 }
    }
}

impl TryFrom<u32> for EntryMode {
    type Error = Error;

    fn try_from(n: u32) -> Result<EntryMode, Error> {
        let mut answer = [0; ffi::MODE_ANSWER];
        // SAFETY: `answer` is ours alone.
        unsafe { ffi::sarpukten_mode_from_number(n, &mut answer) };
        counted(answer).map(EntryMode::of_record)
    }
}

/// The mode that an octal text says.
impl std::str::FromStr for EntryMode {
    type Err = Error;

    fn from_str(text: &str) -> Result<EntryMode, Error> {
        EntryMode::from_bytes(text.as_bytes())
    }
}

impl EntryMode {
    /// The mode that an octal text says.
    pub fn from_bytes(text: &[u8]) -> Result<EntryMode, Error> {
        let mut answer = [0; ffi::MODE_ANSWER];
        // SAFETY: `text` lives through the call, and `answer` is ours alone.
        unsafe { ffi::sarpukten_mode_read(text.as_ptr(), text.len(), &mut answer) };
        counted(answer).map(EntryMode::of_record)
    }

    /// The mode of a record that the library made: it has 16 bits.
    pub(crate) fn of_record(mode: usize) -> EntryMode {
        EntryMode { internal: mode as u16 }
    }

    /// The 16 bits as a record has them: a tree's text `040000` is told from `40000`.
    pub(crate) fn in_record(self) -> usize {
        self.internal.into()
    }

    /// The number that the mode stands for.
    pub fn value(self) -> u16 {
        // SAFETY: a number by value.
        unsafe { ffi::sarpukten_mode_value(self.internal) }
    }

    /// What an entry of this mode is.
    pub fn kind(self) -> EntryKind {
        // SAFETY: a number by value.
        match unsafe { ffi::sarpukten_mode_kind(self.internal) } {
            0o040000 => EntryKind::Tree,
            0o100644 => EntryKind::Blob,
            0o100755 => EntryKind::BlobExecutable,
            0o120000 => EntryKind::Link,
            _ => EntryKind::Commit,
        }
    }

    fn ask(self, question: usize) -> bool {
        let mut answer = [0; ffi::QUESTIONS];
        // SAFETY: `answer` is ours alone.
        unsafe { ffi::sarpukten_mode_ask(self.internal, &mut answer) };
        answer[question] == 1
    }

    /// A folder.
    pub fn is_tree(self) -> bool {
        self.ask(0)
    }

    /// Anything but a folder.
    pub fn is_no_tree(self) -> bool {
        self.ask(1)
    }

    /// A file, executable or not.
    pub fn is_blob(self) -> bool {
        self.ask(2)
    }

    /// A file that may be run.
    pub fn is_executable(self) -> bool {
        self.ask(3)
    }

    /// A file or a link.
    pub fn is_blob_or_symlink(self) -> bool {
        self.ask(4)
    }

    /// A symbolic link.
    pub fn is_link(self) -> bool {
        self.ask(5)
    }

    /// A submodule's commit; mode 0 is none, though it is of that kind.
    pub fn is_commit(self) -> bool {
        self.ask(6)
    }

    /// The word of the mode's kind: tree, blob, exe, link or commit.
    pub fn as_str(self) -> &'static str {
        let mut word = [0; ffi::WORD];
        // SAFETY: `word` is ours alone.
        let len = unsafe { ffi::sarpukten_mode_word(self.internal, &mut word) };
        ["tree", "blob", "exe", "link", "commit"].into_iter().find(|w| w.as_bytes() == &word[..len]).expect("one of the five words")
    }

    /// The octal text that stands for the mode in a tree, laid into `backing`.
    pub fn as_bytes(self, backing: &mut [u8; 6]) -> &[u8] {
        // SAFETY: `backing` is lent to us alone.
        let len = unsafe { ffi::sarpukten_mode_text(self.internal, backing) };
        &backing[..len]
    }
}

impl fmt::Debug for EntryMode {
    fn fmt(&self, f: &mut fmt::Formatter<'_>) -> fmt::Result {
        write!(f, "EntryMode(0o{:o})", self.internal)
    }
}
