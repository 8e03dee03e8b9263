//! Stand-in: the constructor of `Data`.
use crate::{Data, Kind};

impl<'a> Data<'a> {
    /// Bytes of one kind, with the hash kind they are read by.
    pub fn new(data: &'a [u8], kind: Kind, object_hash: gix_hash::Kind) -> Data<'a> {
        Data { kind, object_hash, data }
    }
}
