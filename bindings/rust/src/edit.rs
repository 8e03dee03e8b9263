//! One entry of a tree object changed.
use crate::{counted, ffi, EntryMode, Error, Kind, ObjectId, Rules};

/// The bound of a lent buffer.
const MOST_BYTES: usize = 1 << 30;

/// An object that strict reading accepts, with a name put: in the place of any entry of that name, file or folder.
pub fn put_in_tree(data: &[u8], kind: Kind, rules: Rules, mode: EntryMode, name: &[u8], id: &ObjectId) -> Result<Vec<u8>, Error> {
    let id = id.as_slice();
    // An entry is its mode text of at most six bytes, a space, its name, NUL and its id.
    edited(data.len() + name.len() + id.len() + 8, |out, answer| unsafe {
        // SAFETY: the lengths are those of what is lent, which lives through the call.
        ffi::sarpukten_put_in_tree(
            data.as_ptr(),
            data.len(),
            kind.len_in_bytes(),
            rules as u16,
            mode.in_record(),
            name.as_ptr(),
            name.len(),
            id.as_ptr(),
            id.len(),
            out.as_mut_ptr(),
            out.len(),
            answer,
        )
    })
}

/// An object that strict reading accepts, without the entry of a name.
pub fn remove_from_tree(data: &[u8], kind: Kind, rules: Rules, name: &[u8]) -> Result<Vec<u8>, Error> {
    edited(data.len(), |out, answer| unsafe {
        // SAFETY: the lengths are those of what is lent, which lives through the call.
        ffi::sarpukten_remove_from_tree(
            data.as_ptr(),
            data.len(),
            kind.len_in_bytes(),
            rules as u16,
            name.as_ptr(),
            name.len(),
            out.as_mut_ptr(),
            out.len(),
            answer,
        )
    })
}

fn edited(room: usize, edit: impl Fn(&mut [u8], &mut [usize; ffi::COUNT_ANSWER]) -> usize) -> Result<Vec<u8>, Error> {
    let mut out = vec![0; room.min(MOST_BYTES)];
    let mut answer = [0; ffi::COUNT_ANSWER];
    edit(&mut out, &mut answer);
    out.truncate(counted(answer)?);
    Ok(out)
}
