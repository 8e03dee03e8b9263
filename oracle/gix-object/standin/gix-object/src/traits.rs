//! Stand-in: the traits with the signatures that the original uses.
#![allow(missing_docs)]
use std::io;

use crate::{Data, Kind, find, write};

/// Writing an object out.
pub trait WriteTo {
    fn write_to(&self, out: &mut dyn io::Write) -> io::Result<()>;
    fn kind(&self) -> Kind;
    fn size(&self) -> u64;
}

// The object database; cases of paths reach `Find`.
pub trait Exists {
    fn exists(&self, id: &gix_hash::oid) -> bool;
}
pub trait Find {
    fn try_find<'a>(&self, id: &gix_hash::oid, buffer: &'a mut Vec<u8>) -> Result<Option<Data<'a>>, find::Error>;
}
pub trait Header {
    fn try_header(&self, id: &gix_hash::oid) -> Result<Option<crate::Header>, find::Error>;
}
pub trait FindExt: Find {}
pub trait HeaderExt: Header {}
pub trait FindObjectOrHeader: Find + Header {}
pub trait Write {
    fn write_buf(&self, kind: Kind, from: &[u8]) -> Result<gix_hash::ObjectId, write::Error>;
    fn write_buf_with_known_id(&self, kind: Kind, from: &[u8], id: gix_hash::ObjectId) -> Result<gix_hash::ObjectId, write::Error>;
    fn write_stream(&self, kind: Kind, size: u64, from: &mut dyn io::Read) -> Result<gix_hash::ObjectId, write::Error>;
    fn write_stream_with_known_id(&self, kind: Kind, size: u64, from: &mut dyn io::Read, id: gix_hash::ObjectId) -> Result<gix_hash::ObjectId, write::Error>;
}
