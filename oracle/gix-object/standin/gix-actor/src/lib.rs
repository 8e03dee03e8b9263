//! Stand-in for gix-actor: it accepts exactly the actor form of docs/FORMAT.md and is NOT the crate's own parser.
use std::io::Write;

/// An actor value, kept as it stood.
pub struct SignatureRef<'a>(&'a [u8]);

impl<'a> SignatureRef<'a> {
    /// Takes all of `i` when it has the actor form, and fails otherwise.
    pub fn from_bytes_consuming(i: &mut &'a [u8]) -> Result<Self, ()> {
        let all = *i;
        form(all).ok_or(())?;
        *i = &[];
        Ok(SignatureRef(all))
    }
    pub fn write_to(&self, out: &mut dyn Write) -> std::io::Result<()> {
        out.write_all(self.0)
    }
}

/// `name <address> digits +hhmm`, as docs/FORMAT.md has it.
fn form(value: &[u8]) -> Option<()> {
    let plain = |b: &u8| !matches!(b, b'<' | b'>' | 0 | b'\n');
    let check = |ok: bool| ok.then_some(());

    let open = value.iter().position(|b| *b == b'<')?;
    let name = value[..open].strip_suffix(b" ")?;
    check(!name.is_empty() && name.iter().all(plain))?;
    check(name.first() != Some(&b' ') && name.last() != Some(&b' '))?;

    let rest = &value[open + 1..];
    let close = rest.iter().position(|b| *b == b'>')?;
    let address = &rest[..close];
    check(!address.is_empty() && address.iter().all(|b| plain(b) && *b != b' '))?;

    let rest = rest[close + 1..].strip_prefix(b" ")?;
    let digits = rest.iter().take_while(|b| b.is_ascii_digit()).count();
    check((1..=10).contains(&digits))?;

    match rest[digits..] {
        [b' ', b'+' | b'-', h1, h2, m1, m2] => {
            check([h1, h2, m1, m2].iter().all(u8::is_ascii_digit))?;
            check((h1 - b'0') * 10 + (h2 - b'0') <= 14 && m1 <= b'5')
        }
        _ => None,
    }
}

/// The owned form; no case reaches it.
#[derive(PartialEq, Eq, Debug, Hash, Ord, PartialOrd, Clone)]
pub struct Signature;
impl Signature {
    pub fn to_ref<'a>(&'a self, _buf: &'a mut gix_date::parse::TimeBuf) -> SignatureRef<'a> {
        SignatureRef(b"")
    }
    pub fn size(&self) -> usize {
        0
    }
}
