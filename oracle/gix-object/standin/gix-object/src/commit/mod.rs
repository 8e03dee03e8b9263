//! Stand-in: the accessors of `CommitRef` (their own file is not in docs/src), and two windows into the parser.
use crate::{BString, CommitRef};

mod decode;
mod write;

pub(crate) mod ref_iter {
    #[derive(Clone, Copy)]
    pub struct State;
}

impl<'a> CommitRef<'a> {
    /// Read a commit.
    pub fn from_bytes(mut data: &'a [u8], hash_kind: gix_hash::Kind) -> Result<CommitRef<'a>, crate::decode::Error> {
        decode::commit(&mut data, hash_kind)
    }
    /// The tree's id.
    pub fn tree(&self) -> gix_hash::ObjectId {
        gix_hash::ObjectId::from_hex(self.tree).expect("hex digits")
    }
    /// The parents' ids.
    pub fn parents(&self) -> impl Iterator<Item = gix_hash::ObjectId> + '_ {
        self.parents.iter().map(|hex| gix_hash::ObjectId::from_hex(hex).expect("hex digits"))
    }
}

/// How many bytes `decode::commit` has consumed when it returns.
pub fn consumed(data: &[u8], hash_kind: gix_hash::Kind) -> usize {
    let mut rest = data;
    decode::commit(&mut rest, hash_kind).ok();
    data.len() - rest.len()
}

/// `any_header_field_multi_line`: the unfolded value, and how many bytes are left.
pub fn folded(mut header: &[u8]) -> Option<(BString, usize)> {
    let (_name, value) = crate::parse::any_header_field_multi_line(&mut header).ok()?;
    Some((value, header.len()))
}
