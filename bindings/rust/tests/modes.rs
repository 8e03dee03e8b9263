//! Modes through the bindings, by the worked examples of docs/FORMAT.md.
use sarpukten::{EntryKind, EntryMode, Error};

fn mode(text: &[u8]) -> EntryMode {
    EntryMode::from_bytes(text).expect("a mode")
}

fn text(m: EntryMode) -> Vec<u8> {
    m.as_bytes(&mut [0; 6]).to_vec()
}

/// The mode that a text says, or number, place and part of the refusal.
fn read(text: &[u8]) -> Result<EntryMode, (usize, usize, usize)> {
    EntryMode::from_bytes(text).map_err(told)
}

fn told(e: Error) -> (usize, usize, usize) {
    (e.number, e.place, e.part)
}

#[test]
fn the_five() {
    let five = [
        (&b"40000"[..], EntryKind::Tree, "tree"),
        (b"100644", EntryKind::Blob, "blob"),
        (b"100755", EntryKind::BlobExecutable, "exe"),
        (b"120000", EntryKind::Link, "link"),
        (b"160000", EntryKind::Commit, "commit"),
    ];
    for (written, kind, word) in five {
        let m = mode(written);
        assert_eq!((m.kind(), m.as_str(), m.value()), (kind, word, kind as u16));
        assert_eq!(m, EntryMode::from(kind));
        assert_eq!(m, EntryMode::try_from(kind as u32).unwrap());
        assert_eq!(text(m), written);
    }
}

#[test]
fn questions() {
    let asked = |text: &[u8]| {
        let m = mode(text);
        [m.is_tree(), m.is_no_tree(), m.is_blob(), m.is_executable(), m.is_blob_or_symlink(), m.is_link(), m.is_commit()]
    };
    assert_eq!(asked(b"40000"), [true, false, false, false, false, false, false]);
    assert_eq!(asked(b"100644"), [false, true, true, false, true, false, false]);
    assert_eq!(asked(b"100755"), [false, true, true, true, true, false, false]);
    assert_eq!(asked(b"120000"), [false, true, false, false, true, true, false]);
    assert_eq!(asked(b"160000"), [false, true, false, false, false, false, true]);
    // 0 counts as a commit, though the question denies it.
    assert_eq!(asked(b"200000 "), [false, true, false, false, false, false, false]);
    assert_eq!(mode(b"200000 ").kind(), EntryKind::Commit);
}

#[test]
fn texts() {
    assert_ne!(mode(b"40000 "), mode(b"040000 "));
    assert_eq!(mode(b"040000 ").value(), 0o40000);
    assert_eq!(text(mode(b"140755 ")), b"040755");
    assert_eq!(text(mode(b"040755 ")), b"40755");
    assert_eq!(text(mode(b"200000 ")), b"0");
    assert_eq!(read(b"00000000 x"), Err((3, 0, 1)));
    assert_eq!(read(b"0 abcd e"), Err((3, 0, 1)));
    assert_eq!(read(b""), Err((3, 0, 1)));
    assert_eq!(text(mode(b"0 abc de")), b"0");
}

#[test]
fn numbers() {
    assert_eq!(EntryMode::try_from(0o300644), Ok(EntryMode::from(EntryKind::Blob)));
    assert_eq!(EntryMode::try_from(0o200000).map_err(told), Err((23, 0, 0)));
    // Every mode's text reads back, but for those that lose their highest bit and for 0.
    for n in 1..=u16::MAX {
        let Ok(m) = EntryMode::try_from(n as u32) else { continue };
        let lost = (0o140001..0o150000).contains(&n);
        assert_eq!(mode(&text(m)) == m, !lost, "{n:o}");
    }
}
