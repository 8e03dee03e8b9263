//! Stand-in: the two conversions of trees that the original mentions.
use crate::{Tree, TreeRef, tree};

impl From<tree::EntryRef<'_>> for tree::Entry {
    fn from(other: tree::EntryRef<'_>) -> tree::Entry {
        tree::Entry { mode: other.mode, filename: other.filename.to_owned(), oid: other.oid.to_owned() }
    }
}
impl From<TreeRef<'_>> for Tree {
    fn from(other: TreeRef<'_>) -> Tree {
        Tree { entries: other.entries.into_iter().map(Into::into).collect() }
    }
}
