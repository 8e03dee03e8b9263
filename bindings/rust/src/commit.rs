//! Commits.
use crate::{counted, ffi, Error, Kind, ObjectId, MOST_RECORDS};
use std::borrow::Cow;
use std::io;

/// The numbers of a header's record: name start, name end, value start, value end, mark.
const WIDTH: usize = ffi::HEADER;

/// A commit, its parts borrowed from the object.
///
/// ```
/// use sarpukten::{CommitRef, Kind};
///
/// let who = "A U Thor <a@example.com> 1700000000 +0000";
/// let object = format!("tree {}\nauthor {who}\ncommitter {who}\n\nmessage\n", "1f".repeat(20));
/// let commit = CommitRef::from_bytes(object.as_bytes(), Kind::Sha1)?;
/// assert_eq!(commit.tree().unwrap().to_string(), "1f".repeat(20));
/// assert_eq!((commit.author, commit.message), (who.as_bytes(), &b"message\n"[..]));
/// assert_eq!(commit.to_bytes()?, object.as_bytes());
/// # Ok::<(), sarpukten::Error>(())
/// ```
#[derive(Clone, Debug, PartialEq, Eq)]
pub struct CommitRef<'a> {
    /// The tree's id in hex digits.
    pub tree: &'a [u8],
    /// The parents' ids in hex digits.
    pub parents: Vec<&'a [u8]>,
    /// The author's line without its word: name, address, time.
    pub author: &'a [u8],
    /// The committer's.
    pub committer: &'a [u8],
    /// The encoding, where there is one.
    pub encoding: Option<&'a [u8]>,
    /// All behind the blank line.
    pub message: &'a [u8],
    /// The extra headers: name, and value without the spaces that fold it over several lines.
    pub extra_headers: Vec<(&'a [u8], Cow<'a, [u8]>)>,
}

impl<'a> CommitRef<'a> {
    /// Reads a commit: refused 11 with the field that is missing or malformed, 12 for an author or committer without the actor form.
    pub fn from_bytes(data: &'a [u8], kind: Kind) -> Result<CommitRef<'a>, Error> {
        // A parent's line has 8 bytes and its digits, so a 4 within the bound is for the headers.
        let mut parents = vec![0; (data.len() / (8 + kind.len_in_hex())).min(MOST_RECORDS)];
        let mut headers = vec![0; WIDTH * 2];
        loop {
            let mut answer = [0; ffi::COMMIT_ANSWER];
            // SAFETY: `data` lives through the call, the lists and `answer` are ours alone, and the lengths are theirs.
            unsafe {
                ffi::sarpukten_read_commit(
                    data.as_ptr(),
                    data.len(),
                    kind.len_in_bytes(),
                    parents.as_mut_ptr(),
                    parents.len(),
                    headers.as_mut_ptr(),
                    headers.len(),
                    &mut answer,
                )
            };
            let [number, place, part, field, many_parents, many_headers, parts @ ..] = answer;
            match number {
                0 => {
                    parents.truncate(many_parents);
                    headers.truncate(WIDTH * many_headers);
                    return CommitRef::of_records(data, kind, parts, &parents, &headers);
                }
                4 if place <= MOST_RECORDS => headers = vec![0; WIDTH * place],
                _ => return Err(Error { number, place, part, field }),
            }
        }
    }

    /// The commit that parts and records name; the library made them for `data`.
    fn of_records(
        data: &'a [u8],
        kind: Kind,
        parts: [usize; ffi::PARTS],
        parents: &[usize],
        headers: &[usize],
    ) -> Result<CommitRef<'a>, Error> {
        let digits = |start: usize| &data[start..start + kind.len_in_hex()];
        let mut extra_headers = Vec::with_capacity(headers.len() / WIDTH);
        for h in headers.chunks_exact(WIDTH) {
            let record = [h[0], h[1], h[2], h[3], h[4]];
            extra_headers.push((&data[record[0]..record[1]], value(data, &record)?));
        }
        Ok(CommitRef {
            tree: digits(parts[0]),
            parents: parents.iter().map(|&start| digits(start)).collect(),
            author: &data[parts[1]..parts[2]],
            committer: &data[parts[3]..parts[4]],
            encoding: (parts[5] == 1).then(|| &data[parts[6]..parts[7]]),
            message: &data[parts[8]..parts[9]],
            extra_headers,
        })
    }

    /// The tree's id. None where `tree` was set to something that is no id in hex.
    pub fn tree(&self) -> Option<ObjectId> {
        ObjectId::from_hex(self.tree)
    }

    /// The parents' ids, those that are ids in hex: after reading all of them.
    pub fn parents(&self) -> impl Iterator<Item = ObjectId> + '_ {
        self.parents.iter().filter_map(|p| ObjectId::from_hex(p))
    }

    /// How many bytes [`CommitRef::write_to`] writes. Refused where an id is not hex of the right length.
    pub fn size(&self) -> Result<u64, Error> {
        self.laid().size().map(|n| n as u64)
    }

    /// Writes the commit: ids in lower case, header values of several lines folded.
    pub fn write_to(&self, out: &mut dyn io::Write) -> io::Result<()> {
        out.write_all(&self.to_bytes()?)
    }

    /// The same into bytes of its own.
    pub fn to_bytes(&self) -> Result<Vec<u8>, Error> {
        self.laid().write()
    }

    /// The parts one after the other in one buffer, with the records that name them there.
    fn laid(&self) -> Laid {
        let kind = Kind::of_len(self.tree.len() / 2).unwrap_or(Kind::Sha1);
        let mut l = Laid { kind, data: Vec::new(), parts: [0; ffi::PARTS], parents: Vec::new(), headers: Vec::new() };
        let tree = l.digits(self.tree);
        for p in &self.parents {
            let start = l.digits(p);
            l.parents.push(start);
        }
        let (author, author_end) = l.range(self.author);
        let (committer, committer_end) = l.range(self.committer);
        let (encoding, encoding_end) = l.range(self.encoding.unwrap_or(b""));
        for (name, value) in &self.extra_headers {
            let (name, name_end) = l.range(name);
            let (value, value_end) = l.range(value);
            l.headers.extend([name, name_end, value, value_end, 0]);
        }
        let (message, message_end) = l.range(self.message);
        let mark = self.encoding.is_some().into();
        l.parts = [tree, author, author_end, committer, committer_end, mark, encoding, encoding_end, message, message_end];
        l
    }
}

/// A header's value: one that is folded is unfolded into bytes of its own.
fn value<'a>(data: &'a [u8], record: &[usize; WIDTH]) -> Result<Cow<'a, [u8]>, Error> {
    let stands = &data[record[2]..record[3]];
    if record[4] == 0 {
        return Ok(stands.into());
    }
    let mut out = vec![0; stands.len()];
    let mut answer = [0; ffi::COUNT_ANSWER];
    // SAFETY: `data` lives through the call, `out` and `answer` are ours alone, and the lengths are theirs.
    unsafe { ffi::sarpukten_unfold(data.as_ptr(), data.len(), record, out.as_mut_ptr(), out.len(), &mut answer) };
    out.truncate(counted(answer)?);
    Ok(out.into())
}

/// A commit to be written: bytes, and what names its parts in them.
struct Laid {
    kind: Kind,
    data: Vec<u8>,
    parts: [usize; ffi::PARTS],
    parents: Vec<usize>,
    headers: Vec<usize>,
}

impl Laid {
    fn range(&mut self, part: &[u8]) -> (usize, usize) {
        let start = self.data.len();
        self.data.extend_from_slice(part);
        (start, self.data.len())
    }

    /// An id in hex. A place outside stands for digits of another length: the library refuses the record.
    fn digits(&mut self, digits: &[u8]) -> usize {
        let (start, _) = self.range(digits);
        if digits.len() == self.kind.len_in_hex() {
            start
        } else {
            usize::MAX
        }
    }

    fn size(&self) -> Result<usize, Error> {
        let mut answer = [0; ffi::COUNT_ANSWER];
        // SAFETY: all that is lent lives through the call, `answer` is ours alone, and the lengths are theirs.
        unsafe {
            ffi::sarpukten_commit_size(
                self.data.as_ptr(),
                self.data.len(),
                self.kind.len_in_bytes(),
                &self.parts,
                self.parents.as_ptr(),
                self.parents.len(),
                self.headers.as_ptr(),
                self.headers.len(),
                &mut answer,
            )
        };
        counted(answer)
    }

    fn write(&self) -> Result<Vec<u8>, Error> {
        let mut out = vec![0; self.size()?];
        let mut answer = [0; ffi::COUNT_ANSWER];
        // SAFETY: all that is lent lives through the call, `out` and `answer` are ours alone, and the lengths are theirs.
        unsafe {
            ffi::sarpukten_write_commit(
                self.data.as_ptr(),
                self.data.len(),
                self.kind.len_in_bytes(),
                &self.parts,
                self.parents.as_ptr(),
                self.parents.len(),
                self.headers.as_ptr(),
                self.headers.len(),
                out.as_mut_ptr(),
                out.len(),
                &mut answer,
            )
        };
        out.truncate(counted(answer)?);
        Ok(out)
    }
}
