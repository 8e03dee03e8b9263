//! Two trees of a bundle compared through the bindings.
use sarpukten::{numbers, Bundle, Change, EntryMode, Error, Kind, ObjectId};

/// An id of one byte, as often as the kind says.
fn id(kind: Kind, byte: u8) -> ObjectId {
    ObjectId::from_bytes(&vec![byte; kind.len_in_bytes()]).unwrap()
}

/// A bundle of version 1: objects by the byte of their id, their kind and their bytes.
fn bundle(kind: Kind, objects: &[(u8, u8, Vec<u8>)]) -> Vec<u8> {
    let mut out = b"GOB\x01\0".to_vec();
    out.push(kind.len_in_bytes() as u8);
    out.extend((objects.len() as u32).to_le_bytes());
    for (byte, sort, data) in objects {
        out.extend(id(kind, *byte).as_slice());
        out.push(*sort);
        out.extend((data.len() as u32).to_le_bytes());
        out.extend(data);
    }
    out
}

/// A tree: mode and name, and the byte of the id.
fn tree(kind: Kind, entries: &[(&str, u8)]) -> Vec<u8> {
    let mut out = Vec::new();
    for (text, byte) in entries {
        out.extend(text.as_bytes());
        out.push(0);
        out.extend(id(kind, *byte).as_slice());
    }
    out
}

/// A change as it is written down: its path, and each side's mode and the byte of its id.
fn change(kind: Kind, path: &str, left: Option<(&str, u8)>, right: Option<(&str, u8)>) -> Change {
    let side = |s: Option<(&str, u8)>| s.map(|(mode, byte)| (EntryMode::from_bytes(mode.as_bytes()).unwrap(), id(kind, byte)));
    Change { path: path.into(), left: side(left), right: side(right) }
}

fn compare(kind: Kind, bytes: &[u8], left: u8, right: u8) -> Result<Vec<Change>, Error> {
    Bundle::new(bytes).unwrap().compare(&id(kind, left), &id(kind, right))
}

/// `a` changed, `b` only left, `c` only right, the folder `d` only left, the folder `g` changed inside, `h` a file left and a folder right.
#[test]
fn compared() {
    for kind in [Kind::Sha1, Kind::Sha256] {
        let left = [("100644 a", 0xa1), ("100644 b", 0xb1), ("40000 d", 3), ("100644 f", 0xf1), ("40000 g", 4), ("100644 h", 0xe1)];
        let right = [("100755 a", 0xa2), ("100644 c", 0xc2), ("100644 f", 0xf1), ("40000 g", 5), ("40000 h", 3)];
        let bytes = bundle(
            kind,
            &[
                (1, 2, tree(kind, &left)),
                (2, 2, tree(kind, &right)),
                (3, 2, tree(kind, &[("120000 e", 0xe1)])),
                (4, 2, tree(kind, &[("100644 x", 1)])),
                (5, 2, tree(kind, &[("100644 x", 2)])),
            ],
        );
        let want = [
            change(kind, "a", Some(("100644", 0xa1)), Some(("100755", 0xa2))),
            change(kind, "b", Some(("100644", 0xb1)), None),
            change(kind, "c", None, Some(("100644", 0xc2))),
            change(kind, "d", Some(("40000", 3)), None),
            change(kind, "d/e", Some(("120000", 0xe1)), None),
            change(kind, "g", Some(("40000", 4)), Some(("40000", 5))),
            change(kind, "g/x", Some(("100644", 1)), Some(("100644", 2))),
            change(kind, "h", Some(("100644", 0xe1)), None),
            change(kind, "h", None, Some(("40000", 3))),
            change(kind, "h/e", None, Some(("120000", 0xe1))),
        ];
        assert_eq!(compare(kind, &bytes, 1, 2).unwrap(), want);
        assert_eq!(compare(kind, &bytes, 1, 1).unwrap(), []);
        // The other way round every change has its sides exchanged; file and folder of one name come in the same order.
        let mut turned = compare(kind, &bytes, 2, 1).unwrap();
        turned.iter_mut().for_each(|c| std::mem::swap(&mut c.left, &mut c.right));
        assert_eq!(turned, want);
    }
}

/// More changes than are lent room for at first, and more bytes of paths: both are lent again.
#[test]
fn many() {
    let kind = Kind::Sha1;
    for (n, long) in [(64, 1), (65, 1), (30, 200), (500, 90)] {
        let names: Vec<String> = (0..n).map(|i| format!("100644 {i:04}{}", "n".repeat(long))).collect();
        let entries: Vec<(&str, u8)> = names.iter().map(|n| (&n[..], 7)).collect();
        let bytes = bundle(kind, &[(1, 2, Vec::new()), (2, 2, tree(kind, &entries))]);
        let changes = compare(kind, &bytes, 1, 2).unwrap();
        assert_eq!(changes.len(), n);
        for (c, name) in changes.iter().zip(&names) {
            assert_eq!((&c.path[..], c.left), (&name.as_bytes()[7..], None));
        }
    }
}

#[test]
fn refused() {
    let kind = Kind::Sha1;
    let cut = &tree(kind, &[("100644 a", 1), ("100644 b", 2)])[..57];
    let bytes = bundle(
        kind,
        &[
            (1, 2, tree(kind, &[("40000 a", 1)])),
            (2, 2, Vec::new()),
            (3, 3, Vec::new()),
            (4, 2, cut.to_vec()),
            (5, 2, tree(kind, &[("40000 a", 9)])),
            (6, 2, tree(kind, &[("100644 b", 0), ("100644 a", 0)])),
        ],
    );
    let met = |left, right| compare(kind, &bytes, left, right).map_err(|e| (e.number, e.place, e.part)).unwrap_err();
    // A tree that holds itself; a root that is no tree, a root and a folder that are missing; the left root before the right one.
    assert_eq!(met(1, 2), (numbers::TOO_DEEP, 0, 0));
    assert_eq!(met(2, 3), (numbers::NO_TREE, 0, 0));
    assert_eq!(met(2, 9), (numbers::NO_TREE, 0, 0));
    assert_eq!(met(2, 5), (numbers::NO_TREE, 0, 0));
    assert_eq!(met(4, 9), (numbers::BROKEN_ENTRY, 29, 3));
    assert_eq!(met(9, 4), (numbers::NO_TREE, 0, 0));
    assert_eq!(met(2, 6), (numbers::ORDER, 29, 0));
    let long = id(Kind::Sha256, 2);
    let other = Bundle::new(&bytes).unwrap().compare(&id(kind, 2), &long).unwrap_err();
    assert_eq!((other.number, other.place), (numbers::NOT_FRAMED, 0));
}
