//! Stand-in for gix-hash: the two lengths, ids as bytes, hex in and out. No hashing.
use std::{fmt, io::Write, ops::Deref};

/// SHA-1 (20 bytes) or SHA-256 (32 bytes).
#[derive(Default, PartialEq, Eq, Debug, Hash, Ord, PartialOrd, Clone, Copy)]
pub enum Kind {
    #[default]
    Sha1,
    Sha256,
}

impl Kind {
    pub fn len_in_bytes(self) -> usize {
        match self {
            Kind::Sha1 => 20,
            Kind::Sha256 => 32,
        }
    }
    pub fn len_in_hex(self) -> usize {
        self.len_in_bytes() * 2
    }
    /// The kind whose ids have `len` bytes.
    pub fn from_len(len: usize) -> Option<Kind> {
        [Kind::Sha1, Kind::Sha256].into_iter().find(|k| k.len_in_bytes() == len)
    }
}

/// The one error of this stand-in.
#[derive(Debug)]
pub struct Error;
impl fmt::Display for Error {
    fn fmt(&self, f: &mut fmt::Formatter<'_>) -> fmt::Result {
        f.write_str("stand-in")
    }
}
impl std::error::Error for Error {}

/// A borrowed id: 20 or 32 bytes.
#[allow(non_camel_case_types)]
#[derive(PartialEq, Eq, Debug, Hash, Ord, PartialOrd)]
#[repr(transparent)]
pub struct oid {
    bytes: [u8],
}

impl oid {
    pub fn try_from_bytes(bytes: &[u8]) -> Result<&oid, Error> {
        Kind::from_len(bytes.len()).ok_or(Error)?;
        // SAFETY: `oid` is a transparent wrapper of `[u8]`.
        Ok(unsafe { &*(bytes as *const [u8] as *const oid) })
    }
    pub fn as_bytes(&self) -> &[u8] {
        &self.bytes
    }
    pub fn kind(&self) -> Kind {
        Kind::from_len(self.bytes.len()).expect("an id has 20 or 32 bytes")
    }
}

impl ToOwned for oid {
    type Owned = ObjectId;
    fn to_owned(&self) -> ObjectId {
        ObjectId(self.bytes.to_vec())
    }
}

/// An owned id.
#[derive(PartialEq, Eq, Debug, Hash, Ord, PartialOrd, Clone)]
pub struct ObjectId(Vec<u8>);

impl ObjectId {
    /// From 40 or 64 hex digits of either case.
    pub fn from_hex(hex: &[u8]) -> Result<ObjectId, Error> {
        let digit = |b: u8| (b as char).to_digit(16).map(|d| d as u8).ok_or(Error);
        let bytes = hex
            .chunks(2)
            .map(|pair| match pair {
                [high, low] => Ok(digit(*high)? * 16 + digit(*low)?),
                _ => Err(Error),
            })
            .collect::<Result<Vec<u8>, Error>>()?;
        oid::try_from_bytes(&bytes).map(ToOwned::to_owned)
    }
    /// Lower-case hex digits.
    pub fn write_hex_to(&self, out: &mut dyn Write) -> std::io::Result<()> {
        self.0.iter().try_for_each(|b| write!(out, "{b:02x}"))
    }
}

impl Deref for ObjectId {
    type Target = oid;
    fn deref(&self) -> &oid {
        oid::try_from_bytes(&self.0).expect("an id has 20 or 32 bytes")
    }
}
impl std::borrow::Borrow<oid> for ObjectId {
    fn borrow(&self) -> &oid {
        self
    }
}
impl fmt::Display for ObjectId {
    fn fmt(&self, f: &mut fmt::Formatter<'_>) -> fmt::Result {
        self.0.iter().try_for_each(|b| write!(f, "{b:02x}"))
    }
}

// Names that the original mentions; no case reaches them.
pub struct Hasher;
impl Hasher {
    pub fn update(&mut self, _bytes: &[u8]) {}
    pub fn try_finalize(self) -> Result<ObjectId, hasher::Error> {
        Err(Error)
    }
}
pub fn hasher(_kind: Kind) -> Hasher {
    Hasher
}
pub mod hasher {
    pub use super::Error;
}
pub mod io {
    pub use super::Error;
}
pub fn bytes_with_hasher<P: ?Sized>(
    _stream: &mut dyn std::io::Read,
    _len: u64,
    _hasher: Hasher,
    _progress: &mut P,
    _stop: &std::sync::atomic::AtomicBool,
) -> Result<ObjectId, io::Error> {
    Err(Error)
}
