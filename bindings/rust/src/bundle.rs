//! Bundles: many objects in one buffer, and paths through their trees.
use crate::{counted, ffi, numbers, settled, EntryMode, Error, Kind, ObjectId, ObjectKind, Rules, MOST_BYTES};

/// A bundle that was checked: well framed, and no id stands twice.
///
/// ```
/// use sarpukten::{numbers, Bundle, EntryKind, Kind, ObjectId, ObjectKind};
///
/// // one tree, of id 11.., with the file `logo`
/// let tree = [&b"100644 logo\0"[..], &[0x22; 20]].concat();
/// let head = [&b"GOB"[..], &1u16.to_le_bytes(), &[20], &1u32.to_le_bytes()].concat();
/// let bytes = [&head[..], &[0x11; 20], &[2], &(tree.len() as u32).to_le_bytes(), &tree].concat();
///
/// let bundle = Bundle::new(&bytes)?;
/// assert_eq!((bundle.kind(), bundle.len()), (Kind::Sha1, 1));
/// let root = ObjectId::from_bytes(&[0x11; 20]).unwrap();
/// assert_eq!(bundle.object(&root).unwrap().kind, ObjectKind::Tree);
/// let (mode, id) = bundle.follow(&root, b"logo")?.unwrap();
/// assert_eq!((mode.kind(), id.as_slice()), (EntryKind::Blob, &[0x22; 20][..]));
/// assert_eq!(bundle.follow(&root, b"none")?, None);
/// assert_eq!(Bundle::new(&bytes[1..]).unwrap_err().number, numbers::NOT_FRAMED);
/// # Ok::<(), sarpukten::Error>(())
/// ```
#[derive(Clone, Copy, Debug)]
pub struct Bundle<'a> {
    bytes: &'a [u8],
    kind: Kind,
    rules: Rules,
    objects: usize,
}

/// An object of a bundle.
#[derive(Clone, Copy, Debug, PartialEq, Eq)]
pub struct ObjectRef<'a> {
    /// What it is, as the bundle says.
    pub kind: ObjectKind,
    /// Its bytes.
    pub data: &'a [u8],
}

/// What differs between two trees at a path: a side is `None` where nothing is.
#[derive(Clone, Debug, PartialEq, Eq)]
pub struct Change {
    /// The path from the roots, its components with slashes between them.
    pub path: Vec<u8>,
    /// What the left tree has there.
    pub left: Option<(EntryMode, ObjectId)>,
    /// What the right tree has there.
    pub right: Option<(EntryMode, ObjectId)>,
}

impl<'a> Bundle<'a> {
    /// Checks the bundle; refuses 2, 24, 25. Where its ids do not ascend they are sorted on the stack, which takes 4 MiB with more than
    /// 1,024 objects: more than a thread of Rust's own has by itself. The same holds for [`Bundle::follow`].
    pub fn new(bytes: &'a [u8]) -> Result<Bundle<'a>, Error> {
        let mut answer = [0; ffi::BUNDLE_ANSWER];
        // SAFETY: `bytes` lives through the call and has the length that is passed; `answer` is ours alone.
        unsafe { ffi::sarpukten_check_bundle(bytes.as_ptr(), bytes.len(), &mut answer) };
        let [number, place, part, h, rules, objects] = answer;
        settled(number, place, part)?;
        let kind = Kind::of_len(h).expect("20 or 32");
        let rules = if rules == 1 { Rules::Early } else { Rules::Present };
        Ok(Bundle { bytes, kind, rules, objects })
    }

    /// The hash of its ids.
    pub fn kind(&self) -> Kind {
        self.kind
    }

    /// Its rule set: version 1 means the present one.
    pub fn rules(&self) -> Rules {
        self.rules
    }

    /// How many objects it has.
    pub fn len(&self) -> usize {
        self.objects
    }

    /// Whether it has none.
    pub fn is_empty(&self) -> bool {
        self.objects == 0
    }

    /// The object of an id, if it is there.
    pub fn object(&self, id: &ObjectId) -> Option<ObjectRef<'a>> {
        let id = id.as_slice();
        let mut answer = [0; ffi::OBJECT_ANSWER];
        // SAFETY: both slices live through the call and have the lengths that are passed; `answer` is ours alone.
        unsafe { ffi::sarpukten_bundle_object(self.bytes.as_ptr(), self.bytes.len(), id.as_ptr(), id.len(), &mut answer) };
        let [number, _, _, kind, start, end] = answer;
        let kind = match (number, kind) {
            (0, 1) => ObjectKind::Commit,
            (0, 2) => ObjectKind::Tree,
            (0, 3) => ObjectKind::Blob,
            (0, 4) => ObjectKind::Tag,
            _ => return None,
        };
        Some(ObjectRef { kind, data: &self.bytes[start..end] })
    }

    /// The mode and the id that a path leads to from a root tree, `None` where there is none; refuses 2, 24 (a root id of the other
    /// length), 26 (an empty component, or more than 64).
    pub fn follow(&self, root: &ObjectId, path: &[u8]) -> Result<Option<(EntryMode, ObjectId)>, Error> {
        let root = root.as_slice();
        let mut answer = [0; ffi::PATH_ANSWER];
        let mut id = [0; ffi::ID];
        // SAFETY: the three slices live through the call and have the lengths that are passed; `answer` and `id` are ours alone.
        unsafe {
            ffi::sarpukten_follow_path(
                self.bytes.as_ptr(),
                self.bytes.len(),
                root.as_ptr(),
                root.len(),
                path.as_ptr(),
                path.len(),
                &mut answer,
                &mut id,
            )
        };
        let [number, place, part, mode, size] = answer;
        if number == 15 {
            return Ok(None);
        }
        settled(number, place, part)?;
        let id = ObjectId::from_bytes(&id[..size]).expect("20 or 32");
        Ok(Some((EntryMode::of_record(mode), id)))
    }

    /// What differs between two trees by their ids, in Git's order at each level: every entry that is only left, only right, or in both with
    /// another mode or id. A folder that differs comes before what differs inside it, and one that is on one side only comes with all that is
    /// below it; a file against a folder of its name is two changes. Refuses 24 (a root id of the other length), 27, 28, what strict reading
    /// of a tree refuses, 2 (more changes than [`MOST_RECORDS`](crate::MOST_RECORDS)), 8 (paths of more than [`MOST_BYTES`] in all). With more
    /// than 1,024 objects it takes 4 MiB of the stack: more than a thread of Rust's own has by itself.
    ///
    /// ```
    /// use sarpukten::{numbers, Bundle, ObjectId};
    ///
    /// // two trees, of ids 11.. and 22..: `logo` has another id, `skin` is only in the second
    /// let old = [&b"100644 logo\0"[..], &[0x33; 20]].concat();
    /// let new = [&b"100644 logo\0"[..], &[0x44; 20], b"100644 skin\0", &[0x55; 20]].concat();
    /// let mut bytes = [&b"GOB"[..], &1u16.to_le_bytes(), &[20], &2u32.to_le_bytes()].concat();
    /// for (id, tree) in [(0x11, &old), (0x22, &new)] {
    ///     bytes.extend([&[id; 20][..], &[2], &(tree.len() as u32).to_le_bytes(), tree].concat());
    /// }
    ///
    /// let bundle = Bundle::new(&bytes)?;
    /// let id = |byte| ObjectId::from_bytes(&[byte; 20]).unwrap();
    /// let changes = bundle.compare(&id(0x11), &id(0x22))?;
    /// assert_eq!(changes.iter().map(|c| &c.path[..]).collect::<Vec<_>>(), [b"logo", b"skin"]);
    /// assert_eq!(changes[0].left.unwrap().1, id(0x33));
    /// assert_eq!(changes[0].right.unwrap().1, id(0x44));
    /// assert_eq!(changes[1].left, None);
    /// assert!(bundle.compare(&id(0x11), &id(0x11))?.is_empty());
    /// assert_eq!(bundle.compare(&id(0x11), &id(0x99)).unwrap_err().number, numbers::NO_TREE);
    /// # Ok::<(), sarpukten::Error>(())
    /// ```
    pub fn compare(&self, left: &ObjectId, right: &ObjectId) -> Result<Vec<Change>, Error> {
        let (left, right) = (left.as_slice(), right.as_slice());
        let mut items = vec![0; 64 * ffi::ITEM];
        let mut paths = vec![0; 4096];
        let mut answer = [0; ffi::COUNT_ANSWER];
        // What is too short is lent again as long as it has to be: the list first, then the bytes.
        let count = loop {
            // SAFETY: the three slices live through the call, the list, the bytes and `answer` are ours alone, and the lengths are theirs.
            unsafe {
                ffi::sarpukten_compare_trees(
                    self.bytes.as_ptr(),
                    self.bytes.len(),
                    left.as_ptr(),
                    left.len(),
                    right.as_ptr(),
                    right.len(),
                    items.as_mut_ptr(),
                    items.len(),
                    paths.as_mut_ptr(),
                    paths.len(),
                    &mut answer,
                )
            };
            match counted(answer) {
                Err(e) if e.number == numbers::FEW_RECORDS => items = vec![0; e.place * ffi::ITEM],
                Err(e) if e.number == numbers::SHORT_OUTPUT && e.place <= MOST_BYTES => paths = vec![0; e.place],
                other => break other?,
            }
        };
        // The mode of an entry that strict reading accepts is not 0.
        let side = |mode, at| match mode {
            0 => None,
            _ => Some((EntryMode::of_record(mode), ObjectId::from_bytes(&self.bytes[at..at + left.len()]).expect("20 or 32"))),
        };
        let change =
            |item: &[usize]| Change { path: paths[item[0]..item[1]].to_vec(), left: side(item[2], item[4]), right: side(item[3], item[5]) };
        Ok(items.chunks_exact(ffi::ITEM).take(count).map(change).collect())
    }
}
