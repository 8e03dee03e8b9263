//! Tree objects.
use crate::{counted, ffi, EntryMode, Error, Kind, ObjectId, MOST_RECORDS};
use std::cmp::Ordering;
use std::io;

/// The numbers of an entry's record: mode, name start, name end, id start, mode text start.
const WIDTH: usize = ffi::ENTRY;

/// How many numbers to lend at first for an object of so many bytes: enough for every object that can be read strictly.
fn guess(bytes: usize, kind: Kind) -> usize {
    WIDTH * (bytes / (kind.len_in_bytes() + 8)).min(MOST_RECORDS)
}

/// Git's comparison of two names, each of a folder or not.
///
/// ```
/// use std::cmp::Ordering;
///
/// // folder `a` counts as `a/`, which stands after `a.b` and before `a0`
/// assert_eq!(sarpukten::name_order(b"a", true, b"a.b", false), Ordering::Greater);
/// assert_eq!(sarpukten::name_order(b"a", true, b"a0", false), Ordering::Less);
/// ```
pub fn name_order(a: &[u8], a_is_tree: bool, b: &[u8], b_is_tree: bool) -> Ordering {
    // SAFETY: both names live through the call.
    unsafe { ffi::sarpukten_name_order(a.as_ptr(), a.len(), a_is_tree, b.as_ptr(), b.len(), b_is_tree) }.cmp(&0)
}

/// An entry, its name and id borrowed from the object. Two are equal when mode, name and id are. They are ordered as Git orders them in a
/// tree, so that entries which were sorted can be written.
///
/// ```
/// use sarpukten::{tree_to_bytes, EntryKind, EntryRef, Kind, Rules, StrictTree};
///
/// let mut entries = [
///     EntryRef::new(EntryKind::Tree.into(), b"a", &[0x11; 20]),
///     EntryRef::new(EntryKind::Blob.into(), b"a.b", &[0x22; 20]),
/// ];
/// entries.sort();
/// assert_eq!(entries[0].filename, b"a.b");
/// let object = tree_to_bytes(&entries, Kind::Sha1)?;
/// assert!(StrictTree::from_bytes(&object, Kind::Sha1, Rules::Present).is_ok());
/// # Ok::<(), sarpukten::Error>(())
/// ```
#[derive(Clone, Copy, Debug)]
pub struct EntryRef<'a> {
    /// What it is.
    pub mode: EntryMode,
    /// Its name.
    pub filename: &'a [u8],
    /// Its id.
    pub oid: &'a [u8],
    text: Option<&'a [u8]>,
}

impl PartialEq for EntryRef<'_> {
    fn eq(&self, other: &Self) -> bool {
        (self.mode, self.filename, self.oid) == (other.mode, other.filename, other.oid)
    }
}

impl Eq for EntryRef<'_> {}

/// Git's order by name and sort; where that says equal (one name twice, or a slash in a name) by name, mode and id.
impl Ord for EntryRef<'_> {
    fn cmp(&self, other: &Self) -> Ordering {
        name_order(self.filename, self.mode.is_tree(), other.filename, other.mode.is_tree())
            .then_with(|| (self.filename, self.mode.in_record(), self.oid).cmp(&(other.filename, other.mode.in_record(), other.oid)))
    }
}

impl PartialOrd for EntryRef<'_> {
    fn partial_cmp(&self, other: &Self) -> Option<Ordering> {
        Some(self.cmp(other))
    }
}

impl<'a> EntryRef<'a> {
    /// An entry to be written.
    pub fn new(mode: EntryMode, filename: &'a [u8], oid: &'a [u8]) -> EntryRef<'a> {
        EntryRef { mode, filename, oid, text: None }
    }

    /// The entry that a record names in an object; the library made the record for it.
    fn of_record(data: &'a [u8], kind: Kind, record: &[usize]) -> EntryRef<'a> {
        EntryRef {
            mode: EntryMode::of_record(record[0]),
            filename: &data[record[1]..record[2]],
            oid: &data[record[3]..record[3] + kind.len_in_bytes()],
            // From its first byte to the space before the name.
            text: Some(&data[record[4]..record[1] - 1]),
        }
    }

    /// The mode's text as it stood in the object, which need not be the one that is written for the mode: `040000` or `140755`, or
    /// nothing at all. None for an entry that was not read.
    pub fn mode_text(&self) -> Option<&'a [u8]> {
        self.text
    }

    /// The id by value; shown in hex. None where `oid` was set to something that is no id.
    pub fn object_id(&self) -> Option<ObjectId> {
        ObjectId::from_bytes(self.oid)
    }
}

/// A tree object that was read to its end, in whatever order its entries stand. [`crate::StrictTree`] is one that was read strictly.
///
/// ```
/// use sarpukten::{Kind, TreeRef};
///
/// let object = [&b"100644 a\0"[..], &[0x11; 20], b"040000 b\0", &[0x22; 20]].concat();
/// let tree = TreeRef::from_bytes(&object, Kind::Sha1)?;
/// let names: Vec<_> = tree.entries().map(|e| e.filename).collect();
/// assert_eq!(names, [b"a", b"b"]);
/// assert_eq!(tree.get(1).unwrap().mode_text(), Some(&b"040000"[..]));
/// # Ok::<(), sarpukten::Error>(())
/// ```
#[derive(Clone, Debug)]
pub struct TreeRef<'a> {
    data: &'a [u8],
    kind: Kind,
    records: Vec<usize>,
}

/// The rule set of a strict reading.
#[derive(Clone, Copy, Debug, PartialEq, Eq, Hash)]
#[repr(u16)]
pub enum Rules {
    /// The five modes, and 100664 as early Git wrote it.
    Early = 1,
    /// The five modes.
    Present = 2,
}

impl<'a> TreeRef<'a> {
    /// Reads an object plainly: whatever has the form of entries is taken, in any order.
    pub fn from_bytes(data: &'a [u8], kind: Kind) -> Result<TreeRef<'a>, Error> {
        // SAFETY: the lengths are those of what is lent, which lives through the call.
        TreeRef::read(data, kind, |records, answer| unsafe {
            ffi::sarpukten_read_tree(data.as_ptr(), data.len(), kind.len_in_bytes(), records.as_mut_ptr(), records.len(), answer)
        })
    }

    /// Reads an object strictly: the mode texts of a rule set, permitted names, in order and none twice. For objects from outside.
    pub fn from_bytes_strict(data: &'a [u8], kind: Kind, rules: Rules) -> Result<TreeRef<'a>, Error> {
        // SAFETY: the lengths are those of what is lent, which lives through the call.
        TreeRef::read(data, kind, |records, answer| unsafe {
            ffi::sarpukten_read_tree_strict(
                data.as_ptr(),
                data.len(),
                kind.len_in_bytes(),
                rules as u16,
                records.as_mut_ptr(),
                records.len(),
                answer,
            )
        })
    }

    fn read(
        data: &'a [u8],
        kind: Kind,
        reader: impl Fn(&mut [usize], &mut [usize; ffi::COUNT_ANSWER]) -> usize,
    ) -> Result<TreeRef<'a>, Error> {
        let mut records = vec![0; guess(data.len(), kind)];
        loop {
            let mut answer = [0; ffi::COUNT_ANSWER];
            reader(&mut records, &mut answer);
            match counted(answer) {
                Ok(count) => {
                    records.truncate(WIDTH * count);
                    return Ok(TreeRef { data, kind, records });
                }
                // At most MOST_RECORDS, or it would have been 2.
                Err(e) if e.number == 4 => records = vec![0; WIDTH * e.place],
                Err(e) => return Err(e),
            }
        }
    }

    /// How many entries there are.
    pub fn len(&self) -> usize {
        self.records.len() / WIDTH
    }

    /// Whether there is none.
    pub fn is_empty(&self) -> bool {
        self.records.is_empty()
    }

    /// The entries in the object's order.
    pub fn entries(&self) -> impl ExactSizeIterator<Item = EntryRef<'a>> + DoubleEndedIterator + '_ {
        self.records.chunks_exact(WIDTH).map(|r| EntryRef::of_record(self.data, self.kind, r))
    }

    /// The entry at an index.
    pub fn get(&self, index: usize) -> Option<EntryRef<'a>> {
        self.records.chunks_exact(WIDTH).nth(index).map(|r| EntryRef::of_record(self.data, self.kind, r))
    }

    /// The entry with a name, of a folder or not, by halving. It is meant for a tree in order, as every strictly read one is, and for a
    /// name without a slash: `a/b` is answered as folder `a` is.
    pub fn bisect_entry(&self, name: &[u8], is_dir: bool) -> Option<EntryRef<'a>> {
        self.bisect_entry_counted(name, is_dir).0
    }

    /// The same, and how many entries were compared.
    pub fn bisect_entry_counted(&self, name: &[u8], is_dir: bool) -> (Option<EntryRef<'a>>, usize) {
        let mut answer = [0; ffi::LOOKUP_ANSWER];
        // SAFETY: object, records and name live through the call, `answer` is ours alone, and the lengths are theirs.
        unsafe {
            ffi::sarpukten_bisect_entry(
                self.data.as_ptr(),
                self.data.len(),
                self.kind.len_in_bytes(),
                self.records.as_ptr(),
                self.records.len(),
                name.as_ptr(),
                name.len(),
                is_dir,
                &mut answer,
            )
        };
        self.looked(answer)
    }

    /// The entry with a name, whatever its sort: sought as anything but a folder, and where that is not there, as a folder. In a strictly
    /// read tree, and for a name without a slash, it is the one entry of that name.
    pub fn bisect_any(&self, name: &[u8]) -> Option<EntryRef<'a>> {
        self.bisect_any_counted(name).0
    }

    /// The same, and how many entries both searches compared: at most twice [`crate::most_comparisons`].
    pub fn bisect_any_counted(&self, name: &[u8]) -> (Option<EntryRef<'a>>, usize) {
        let mut answer = [0; ffi::LOOKUP_ANSWER];
        // SAFETY: object, records and name live through the call, `answer` is ours alone, and the lengths are theirs.
        unsafe {
            ffi::sarpukten_bisect_any(
                self.data.as_ptr(),
                self.data.len(),
                self.kind.len_in_bytes(),
                self.records.as_ptr(),
                self.records.len(),
                name.as_ptr(),
                name.len(),
                &mut answer,
            )
        };
        self.looked(answer)
    }

    /// What a lookup answered: the entry, and how many were compared.
    fn looked(&self, answer: [usize; ffi::LOOKUP_ANSWER]) -> (Option<EntryRef<'a>>, usize) {
        let [number, _, _, index, compared] = answer;
        // The records are the library's own, so beside 15 there is only 2, for a name longer than any object: it is not there either.
        let found = if number == 0 { self.get(index) } else { None };
        (found, compared)
    }

    /// The entries with many names, each of a folder or not, in one call: for each what [`TreeRef::bisect_entry`] finds, in their order.
    /// Refused 2 where they are more than [`MOST_RECORDS`] names, or together longer than [`crate::MOST_BYTES`].
    pub fn bisect_entries(&self, names: &[(&[u8], bool)]) -> Result<Vec<Option<EntryRef<'a>>>, Error> {
        Ok(self.bisect_entries_counted(names)?.into_iter().map(|(found, _)| found).collect())
    }

    /// The same, and for each how many entries were compared.
    pub fn bisect_entries_counted(&self, names: &[(&[u8], bool)]) -> Result<Vec<(Option<EntryRef<'a>>, usize)>, Error> {
        let mut bytes = Vec::new();
        let mut sought = Vec::with_capacity(ffi::SOUGHT * names.len());
        for &(name, is_dir) in names {
            let start = bytes.len();
            bytes.extend_from_slice(name);
            sought.extend_from_slice(&[start, bytes.len(), is_dir.into()]);
        }
        let mut found = vec![0; ffi::FOUND * names.len()];
        let mut answer = [0; ffi::COUNT_ANSWER];
        // SAFETY: all that is lent lives through the call, `found` and `answer` are ours alone, and the lengths are theirs.
        unsafe {
            ffi::sarpukten_bisect_entries(
                self.data.as_ptr(),
                self.data.len(),
                self.kind.len_in_bytes(),
                self.records.as_ptr(),
                self.records.len(),
                bytes.as_ptr(),
                bytes.len(),
                sought.as_ptr(),
                sought.len(),
                found.as_mut_ptr(),
                found.len(),
                &mut answer,
            )
        };
        counted(answer)?;
        let each = |f: &[usize]| (if f[0] == 0 { self.get(f[1]) } else { None }, f[2]);
        Ok(found.chunks_exact(ffi::FOUND).map(each).collect())
    }

    /// How many bytes [`TreeRef::write_to`] writes.
    pub fn size(&self) -> u64 {
        size(self.data, self.kind, &self.records).expect("the library's own records") as u64
    }

    /// Writes the object again. Other bytes than were read where its mode texts were not as Git writes them.
    pub fn write_to(&self, out: &mut dyn io::Write) -> io::Result<()> {
        out.write_all(&write(self.data, self.kind, &self.records)?)
    }
}

/// The tree object with these entries, in the order given. An id of the wrong length is refused as 10, with the entry's index.
pub fn tree_to_bytes(entries: &[EntryRef<'_>], kind: Kind) -> Result<Vec<u8>, Error> {
    let mut data = Vec::new();
    let mut records = Vec::with_capacity(WIDTH * entries.len());
    for e in entries {
        let start = data.len();
        data.extend_from_slice(e.filename);
        let end = data.len();
        data.extend_from_slice(e.oid);
        // A place outside stands for an id that is none: the library refuses the record.
        let id = if e.oid.len() == kind.len_in_bytes() { end } else { usize::MAX };
        records.extend([e.mode.in_record(), start, end, id, start]);
    }
    write(&data, kind, &records)
}

fn size(data: &[u8], kind: Kind, records: &[usize]) -> Result<usize, Error> {
    let mut answer = [0; ffi::COUNT_ANSWER];
    // SAFETY: bytes and records live through the call, `answer` is ours alone, and the lengths are theirs.
    unsafe { ffi::sarpukten_tree_size(data.as_ptr(), data.len(), kind.len_in_bytes(), records.as_ptr(), records.len(), &mut answer) };
    counted(answer)
}

fn write(data: &[u8], kind: Kind, records: &[usize]) -> Result<Vec<u8>, Error> {
    let mut out = vec![0; size(data, kind, records)?];
    let mut answer = [0; ffi::COUNT_ANSWER];
    // SAFETY: bytes and records live through the call, `out` and `answer` are ours alone, and the lengths are theirs.
    unsafe {
        ffi::sarpukten_write_tree(
            data.as_ptr(),
            data.len(),
            kind.len_in_bytes(),
            records.as_ptr(),
            records.len(),
            out.as_mut_ptr(),
            out.len(),
            &mut answer,
        )
    };
    counted(answer).map(|written| {
        out.truncate(written);
        out
    })
}

/// The entries of an object one after the other, read plainly and without a list. It ends after a refusal.
///
/// ```
/// use sarpukten::{Kind, TreeRefIter};
///
/// let object = [&b"100644 a\0"[..], &[0x11; 20], b"100644 cut"].concat();
/// let mut entries = TreeRefIter::from_bytes(&object, Kind::Sha1);
/// assert_eq!(entries.next().unwrap()?.filename, b"a");
/// assert_eq!(entries.next().unwrap().unwrap_err().place, 29);
/// assert!(entries.next().is_none());
/// # Ok::<(), sarpukten::Error>(())
/// ```
#[derive(Clone, Debug)]
pub struct TreeRefIter<'a> {
    data: &'a [u8],
    kind: Kind,
    at: usize,
    ended: bool,
}

impl<'a> TreeRefIter<'a> {
    /// From the object's first byte on.
    pub fn from_bytes(data: &'a [u8], kind: Kind) -> TreeRefIter<'a> {
        TreeRefIter { data, kind, at: 0, ended: false }
    }
}

impl<'a> Iterator for TreeRefIter<'a> {
    type Item = Result<EntryRef<'a>, Error>;

    fn next(&mut self) -> Option<Self::Item> {
        if self.ended {
            return None;
        }
        let mut answer = [0; ffi::STEP_ANSWER];
        // SAFETY: `data` lives through the call, and `answer` is ours alone.
        unsafe { ffi::sarpukten_tree_step(self.data.as_ptr(), self.data.len(), self.kind.len_in_bytes(), self.at, &mut answer) };
        let [number, place, part, found, next, record @ ..] = answer;
        self.at = next;
        self.ended = found == 0;
        match (number, found) {
            (0, 0) => None,
            (0, _) => Some(Ok(EntryRef::of_record(self.data, self.kind, &record))),
            (number, _) => Some(Err(Error { number, place, part, field: 0 })),
        }
    }
}
