//! Trees as the text that `git ls-tree -z` prints and `git mktree -z` takes.
use crate::{counted, ffi, Error, Kind, Rules};

/// The text of the entries of an object that is strict by a rule set: for each six octal digits, space, `blob`, `tree` or `commit`, space, the id
/// in lower-case hex, tab, name, NUL.
///
/// ```
/// use sarpukten::{tree_to_text, Kind, Rules};
///
/// let object = [&b"40000 b\0"[..], &[0x22; 20]].concat();
/// let text = tree_to_text(&object, Kind::Sha1, Rules::Present)?;
/// assert_eq!(text, format!("040000 tree {}\tb\0", "22".repeat(20)).into_bytes());
/// # Ok::<(), sarpukten::Error>(())
/// ```
pub fn tree_to_text(data: &[u8], kind: Kind, rules: Rules) -> Result<Vec<u8>, Error> {
    // An entry's text has less than twice its bytes.
    let mut out = vec![0; data.len().saturating_mul(2).min(crate::MOST_BYTES)];
    let mut answer = [0; ffi::COUNT_ANSWER];
    // SAFETY: the lengths are those of what is lent, which lives through the call; `out` and `answer` are ours alone.
    unsafe {
        ffi::sarpukten_export_tree(data.as_ptr(), data.len(), kind.len_in_bytes(), rules as u16, out.as_mut_ptr(), out.len(), &mut answer)
    };
    let written = counted(answer)?;
    out.truncate(written);
    Ok(out)
}

/// The object of a text as [`tree_to_text`] gives it, its records in any order, where they are a strict listing by a rule set.
///
/// ```
/// use sarpukten::{tree_from_text, tree_to_text, Kind, Rules};
///
/// let object = [&b"100644 a\0"[..], &[0x11; 20], b"40000 b\0", &[0x22; 20]].concat();
/// let text = tree_to_text(&object, Kind::Sha1, Rules::Present)?;
/// let turned = [&text[55..], &text[..55]].concat();
/// assert_eq!(tree_from_text(&turned, Kind::Sha1, Rules::Present)?, object);
/// # Ok::<(), sarpukten::Error>(())
/// ```
pub fn tree_from_text(text: &[u8], kind: Kind, rules: Rules) -> Result<Vec<u8>, Error> {
    // An entry has fewer bytes than its record.
    let mut out = vec![0; text.len().min(crate::MOST_BYTES)];
    let mut answer = [0; ffi::COUNT_ANSWER];
    // SAFETY: the lengths are those of what is lent, which lives through the call; `out` and `answer` are ours alone.
    unsafe {
        ffi::sarpukten_import_tree(text.as_ptr(), text.len(), kind.len_in_bytes(), rules as u16, out.as_mut_ptr(), out.len(), &mut answer)
    };
    let written = counted(answer)?;
    out.truncate(written);
    Ok(out)
}
