//! A check in pieces through the bindings, against a strict reading of the whole object.
use sarpukten::{numbers, Kind, Rules, StrictCheck, StrictTree};
use std::io::Write;

fn entry(mode: &str, name: &[u8], kind: Kind) -> Vec<u8> {
    [mode.as_bytes(), b" ", name, b"\0", &vec![7; kind.len_in_bytes()]].concat()
}

fn same(object: &[u8], kind: Kind, rules: Rules) {
    let whole = StrictTree::from_bytes(object, kind, rules).map(|tree| tree.len());
    for cut in 0..=object.len() {
        let mut check = Box::new(StrictCheck::new(kind, rules));
        let _ = check.feed(&object[..cut]);
        let _ = check.feed(b"");
        let _ = check.feed(&object[cut..]);
        assert_eq!(check.finish(), whole, "{object:?} cut at {cut}");
    }
}

#[test]
fn cut_at_every_place() {
    for kind in [Kind::Sha1, Kind::Sha256] {
        let good = [entry("100644", b"a", kind), entry("100755", b"a.b", kind), entry("40000", b"b", kind)].concat();
        let twice = [entry("100644", b"a", kind), entry("100644", b"a.b", kind), entry("40000", b"a", kind)].concat();
        for object in [&good[..], &good[..good.len() - 1], &good[..3], &twice, b"", b"8", b"0 abcd e\0"] {
            for rules in [Rules::Early, Rules::Present] {
                same(object, kind, rules);
            }
        }
        for end in 0..good.len() {
            let mut check = StrictCheck::new(kind, Rules::Present);
            let _ = check.feed(&good[..end]);
            assert_eq!(check.finish(), StrictTree::from_bytes(&good[..end], kind, Rules::Present).map(|tree| tree.len()));
        }
    }
}

#[test]
fn long_names() {
    for (n, number) in [(4095, 0), (4096, 0), (4097, numbers::LONG_NAME), (4098, numbers::LONG_NAME)] {
        let mut check = StrictCheck::new(Kind::Sha1, Rules::Present);
        let object = entry("100644", &vec![b'n'; n], Kind::Sha1);
        for piece in object.chunks(512) {
            let _ = check.feed(piece);
        }
        assert_eq!(check.finish().map_or_else(|e| (e.number, e.place), |many| (many - 1, 0)), (number, 0));
    }
}

#[test]
fn a_refusal_stays() {
    let mut check = StrictCheck::new(Kind::Sha1, Rules::Present);
    assert_eq!(check.feed(&entry("100664", b"a", Kind::Sha1)).unwrap_err().number, numbers::MODE_TEXT);
    assert_eq!(check.write(&entry("100644", b"b", Kind::Sha1)).unwrap_err().kind(), std::io::ErrorKind::InvalidData);
    assert_eq!(check.finish().unwrap_err().number, numbers::MODE_TEXT);
}
