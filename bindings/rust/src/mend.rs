//! A tree object mended.
use crate::{ffi, settled, Error, Kind, MOST_BYTES, MOST_RECORDS};

/// What was done to an entry of the object.
#[derive(Clone, Copy, Debug, PartialEq, Eq, Hash)]
pub enum Fate {
    /// Kept as it stood.
    Kept,
    /// Kept, with the text of its kind's own mode.
    Changed,
    /// Dropped: its name is not permitted.
    BadName,
    /// Dropped: its mode is no file's, link's, tree's or submodule's.
    BadMode,
    /// Dropped: an entry before it that was kept has its name.
    KeptBefore,
}

impl Fate {
    fn of(number: usize) -> Fate {
        match number {
            0 => Fate::Kept,
            1 => Fate::Changed,
            2 => Fate::BadName,
            3 => Fate::BadMode,
            _ => Fate::KeptBefore,
        }
    }

    /// Whether the entry is in the new object.
    pub fn is_kept(self) -> bool {
        matches!(self, Fate::Kept | Fate::Changed)
    }
}

/// A tree object mended: the new object, and what was done to each entry of the old one, in its order.
#[derive(Clone, Debug, PartialEq, Eq)]
pub struct Mended {
    /// What strict reading accepts by the present rules; never longer than the old object.
    pub data: Vec<u8>,
    /// What was done to each entry.
    pub fates: Vec<Fate>,
}

/// Mends an object that can be read: kept entries get their kind's own mode and stand in Git's order. Refuses 2, 3. With more than 1,024
/// entries it takes 4 MiB of the stack: more than a thread of Rust's own has by itself.
///
/// ```
/// use sarpukten::{mend_tree, Fate, Kind, Rules, StrictTree, TreeRef};
///
/// // sorted as plain bytes, and a padded mode: a lookup by order misses the folder
/// let object = [&b"040000 guest\0"[..], &[1; 20], b"100644 guest-a\0", &[2; 20], b"100644 guest.cfg\0", &[3; 20]].concat();
/// assert!(TreeRef::from_bytes(&object, Kind::Sha1)?.bisect_entry(b"guest", true).is_none());
/// let mended = mend_tree(&object, Kind::Sha1)?;
/// assert_eq!(mended.fates, [Fate::Changed, Fate::Kept, Fate::Kept]);
/// let tree = StrictTree::from_bytes(&mended.data, Kind::Sha1, Rules::Present)?;
/// assert_eq!(tree.bisect_entry(b"guest", true).unwrap().oid, [1; 20]);
/// # Ok::<(), sarpukten::Error>(())
/// ```
pub fn mend_tree(data: &[u8], kind: Kind) -> Result<Mended, Error> {
    // An entry has a space, a NUL and its id at least.
    let mut fates = vec![0; (data.len() / (kind.len_in_bytes() + 2)).min(MOST_RECORDS)];
    let mut out = vec![0; data.len().min(MOST_BYTES)];
    let mut answer = [0; ffi::MEND_ANSWER];
    // SAFETY: `data` lives through the call, the list, `out` and `answer` are ours alone, and the lengths are theirs.
    unsafe {
        ffi::sarpukten_mend_tree(
            data.as_ptr(),
            data.len(),
            kind.len_in_bytes(),
            fates.as_mut_ptr(),
            fates.len(),
            out.as_mut_ptr(),
            out.len(),
            &mut answer,
        )
    };
    let [number, place, part, count, entries] = answer;
    settled(number, place, part)?;
    out.truncate(count);
    fates.truncate(entries);
    Ok(Mended { data: out, fates: fates.into_iter().map(Fate::of).collect() })
}
