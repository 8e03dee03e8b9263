//! Ids: their two lengths, and their hex digits.
use crate::{counted, ffi, numbers, Error};
use std::{fmt, str};

/// The hash that ids are made with.
#[derive(Clone, Copy, Debug, PartialEq, Eq, PartialOrd, Ord, Hash)]
pub enum Kind {
    /// Ids of 20 bytes.
    Sha1,
    /// Ids of 32 bytes.
    Sha256,
}

impl Kind {
    /// How many bytes an id has.
    pub const fn len_in_bytes(self) -> usize {
        match self {
            Kind::Sha1 => 20,
            Kind::Sha256 => 32,
        }
    }

    /// How many hex digits it has.
    pub const fn len_in_hex(self) -> usize {
        2 * self.len_in_bytes()
    }

    /// The kind whose ids have so many bytes.
    pub(crate) fn of_len(bytes: usize) -> Option<Kind> {
        [Kind::Sha1, Kind::Sha256].into_iter().find(|k| k.len_in_bytes() == bytes)
    }
}

/// An id of 20 or 32 bytes; shown in lower-case hex.
///
/// ```
/// use sarpukten::{numbers, Kind, ObjectId};
///
/// let id: ObjectId = "4B825DC642CB6EB9A060E54BF8D69288FBEE4904".parse()?;
/// assert_eq!(id.to_string(), "4b825dc642cb6eb9a060e54bf8d69288fbee4904");
/// assert_eq!((id.kind(), id.as_ref().len()), (Kind::Sha1, 20));
/// assert_eq!("4b825".parse::<ObjectId>().unwrap_err().number, numbers::ID_LENGTH);
/// # Ok::<(), sarpukten::Error>(())
/// ```
#[derive(Clone, Copy, PartialEq, Eq, PartialOrd, Ord, Hash)]
pub struct ObjectId {
    kind: Kind,
    bytes: [u8; ffi::ID],
}

impl ObjectId {
    /// The id with these bytes, if they are 20 or 32.
    pub fn from_bytes(bytes: &[u8]) -> Option<ObjectId> {
        let kind = Kind::of_len(bytes.len())?;
        let mut all = [0; ffi::ID];
        all[..bytes.len()].copy_from_slice(bytes);
        Some(ObjectId { kind, bytes: all })
    }

    /// The id with these hex digits, of either case, if they are 40 or 64.
    pub fn from_hex(digits: &[u8]) -> Option<ObjectId> {
        ObjectId::read_hex(digits).ok()
    }

    fn read_hex(digits: &[u8]) -> Result<ObjectId, Error> {
        let mut out = [0; ffi::ID];
        let mut answer = [0; ffi::COUNT_ANSWER];
        // SAFETY: `digits` lives through the call, `out` and `answer` are ours alone, and the lengths are theirs.
        unsafe { ffi::sarpukten_id_of_hex(digits.as_ptr(), digits.len(), out.as_mut_ptr(), out.len(), &mut answer) };
        // There is room for either length, so a refusal is for the digits.
        Ok(ObjectId::from_bytes(&out[..counted(answer)?]).expect("an id of either length"))
    }

    /// Its bytes.
    pub fn as_slice(&self) -> &[u8] {
        &self.bytes[..self.kind.len_in_bytes()]
    }

    /// The hash that it was made with, by its length.
    pub fn kind(&self) -> Kind {
        self.kind
    }
}

impl AsRef<[u8]> for ObjectId {
    fn as_ref(&self) -> &[u8] {
        self.as_slice()
    }
}

/// The id with these hex digits, of either case: refused 1 where they are neither 40 nor 64, and 10 where one is no digit.
impl str::FromStr for ObjectId {
    type Err = Error;

    fn from_str(digits: &str) -> Result<ObjectId, Error> {
        ObjectId::read_hex(digits.as_bytes())
    }
}

/// The id with these bytes: refused 1 where they are neither 20 nor 32.
impl TryFrom<&[u8]> for ObjectId {
    type Error = Error;

    fn try_from(bytes: &[u8]) -> Result<ObjectId, Error> {
        ObjectId::from_bytes(bytes).ok_or(Error { number: numbers::ID_LENGTH, place: 0, part: 0, field: 0 })
    }
}

impl fmt::Display for ObjectId {
    fn fmt(&self, f: &mut fmt::Formatter<'_>) -> fmt::Result {
        let id = self.as_slice();
        let mut out = [0; ffi::HEX];
        let mut answer = [0; ffi::COUNT_ANSWER];
        // SAFETY: `id` lives through the call, `out` and `answer` are ours alone, and the lengths are theirs.
        unsafe { ffi::sarpukten_hex_of_id(id.as_ptr(), id.len(), out.as_mut_ptr(), out.len(), &mut answer) };
        let written = counted(answer).expect("an id of either length, into the room of the longer");
        f.write_str(str::from_utf8(&out[..written]).expect("hex digits"))
    }
}

impl fmt::Debug for ObjectId {
    fn fmt(&self, f: &mut fmt::Formatter<'_>) -> fmt::Result {
        write!(f, "ObjectId({self})")
    }
}
