//! A tree that was read strictly, as a type of its own.
use crate::{Error, Kind, Rules, TreeRef};
use std::ops::Deref;

/// A tree object that was read strictly: every mode text is the rule set's, every name is permitted, none stands twice, and they are in order.
/// A function that takes one cannot be handed a tree that was not: there is no other way to make it. All that a [`TreeRef`] can do it can do
/// too, and lookups in it find a name exactly where it is there.
///
/// ```
/// use sarpukten::{Kind, Rules, StrictTree};
///
/// fn guest(tree: &StrictTree<'_>, name: &[u8]) -> Option<String> {
///     Some(tree.bisect_entry(name, true)?.object_id()?.to_string())
/// }
///
/// let object = [&b"40000 guest\0"[..], &[0x11; 20]].concat();
/// let tree = StrictTree::from_bytes(&object, Kind::Sha1, Rules::Present)?;
/// assert_eq!(guest(&tree, b"guest").unwrap(), "11".repeat(20));
/// assert_eq!(guest(&tree, b"other"), None);
///
/// // The names in the order of their bytes: folder `a` counts as `a/`, so `a.b` belongs ahead of it.
/// let sorted = [&b"40000 a\0"[..], &[0x11; 20], b"100644 a.b\0", &[0x22; 20]].concat();
/// let refused = StrictTree::from_bytes(&sorted, Kind::Sha1, Rules::Present).unwrap_err();
/// assert_eq!(refused.to_string(), "refused 7 at 28: the entry does not stand after the one before");
/// # Ok::<(), sarpukten::Error>(())
/// ```
#[derive(Clone, Debug)]
pub struct StrictTree<'a> {
    tree: TreeRef<'a>,
    data: &'a [u8],
    rules: Rules,
}

impl<'a> StrictTree<'a> {
    /// Reads an object by a rule set, or refuses it.
    pub fn from_bytes(data: &'a [u8], kind: Kind, rules: Rules) -> Result<StrictTree<'a>, Error> {
        Ok(StrictTree { tree: TreeRef::from_bytes_strict(data, kind, rules)?, data, rules })
    }

    /// The rule set that it was read by.
    pub fn rules(&self) -> Rules {
        self.rules
    }

    /// The tree as any other.
    pub fn as_tree(&self) -> &TreeRef<'a> {
        &self.tree
    }
}

impl<'a> Deref for StrictTree<'a> {
    type Target = TreeRef<'a>;

    fn deref(&self) -> &TreeRef<'a> {
        &self.tree
    }
}

/// The object's bytes, which are the one way to write its entries.
impl AsRef<[u8]> for StrictTree<'_> {
    fn as_ref(&self) -> &[u8] {
        self.data
    }
}

/// Two are equal when their bytes are, which is when their entries are.
impl PartialEq for StrictTree<'_> {
    fn eq(&self, other: &Self) -> bool {
        self.data == other.data
    }
}

impl Eq for StrictTree<'_> {}
