//! A strict check of a tree object that arrives in pieces.
use crate::{counted, ffi, settled, Error, Kind, Rules};
use std::io;

/// A tree object checked strictly as it arrives: one name is held, and nothing else of the object. However it is cut, the end says what
/// [`crate::StrictTree`] says of the whole object, but for names of more than 4,096 bytes, which are 16, and for objects past
/// [`crate::MOST_BYTES`]. It takes 20,640 bytes, so it is best kept in a box.
///
/// ```
/// use sarpukten::{Kind, Rules, StrictCheck};
///
/// let object = [&b"100644 a\0"[..], &[0x11; 20], b"40000 b\0", &[0x22; 20]].concat();
/// let mut check = StrictCheck::new(Kind::Sha1, Rules::Present);
/// for piece in object.chunks(7) {
///     check.feed(piece)?;
/// }
/// assert_eq!(check.finish()?, 2);
///
/// // Cut off inside the second entry's id.
/// let mut check = StrictCheck::new(Kind::Sha1, Rules::Present);
/// check.feed(&object[..50])?;
/// assert_eq!(check.finish().unwrap_err().to_string(), "refused 3 at 29 part 3: an entry cannot be read");
/// # Ok::<(), sarpukten::Error>(())
/// ```
///
/// It is a writer too: whatever copies bytes can be copied into it, and stops where a refusal is settled.
///
/// ```
/// # use sarpukten::{Kind, Rules, StrictCheck};
/// let mut check = StrictCheck::new(Kind::Sha1, Rules::Present);
/// let refused = std::io::copy(&mut &b"100644 a/b\0and twenty bytes more"[..], &mut check).unwrap_err();
/// assert_eq!(refused.to_string(), "refused 6 at 0: the name is not permitted");
/// ```
#[derive(Clone)]
pub struct StrictCheck {
    marks: [usize; ffi::MARKS],
    first: [u8; ffi::FIRST],
    ends: [u32; ffi::ENDS],
    name: [u8; ffi::HELD],
}

impl StrictCheck {
    /// The check of an object of which nothing has come.
    pub fn new(kind: Kind, rules: Rules) -> StrictCheck {
        let mut check = StrictCheck { marks: [0; ffi::MARKS], first: [0; ffi::FIRST], ends: [0; ffi::ENDS], name: [0; ffi::HELD] };
        // SAFETY: what is lent is of the lengths that the call names, and nothing else has it.
        unsafe { ffi::sarpukten_check_start(kind.len_in_bytes(), rules as u16, &mut check.marks, &mut check.first) };
        check
    }

    /// A piece more, of any length; an error is the refusal that is settled, which no further piece changes.
    pub fn feed(&mut self, piece: &[u8]) -> Result<(), Error> {
        // SAFETY: as above; the piece is lent with its length.
        unsafe {
            ffi::sarpukten_check_piece(&mut self.name, &mut self.ends, &mut self.marks, &mut self.first, piece.as_ptr(), piece.len())
        };
        let [number, place, part, ..] = self.marks;
        settled(number, place, part)
    }

    /// How many entries the object has if it ends here, or the refusal. The check may go on after it.
    pub fn finish(&self) -> Result<usize, Error> {
        let mut answer = [0; ffi::COUNT_ANSWER];
        // SAFETY: as above.
        unsafe { ffi::sarpukten_check_end(&self.marks, &self.first, &mut answer) };
        counted(answer)
    }
}

impl io::Write for StrictCheck {
    fn write(&mut self, piece: &[u8]) -> io::Result<usize> {
        self.feed(piece)?;
        Ok(piece.len())
    }

    fn flush(&mut self) -> io::Result<()> {
        Ok(())
    }
}
