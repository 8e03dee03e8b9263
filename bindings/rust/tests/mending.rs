//! Mending through the bindings.
use sarpukten::{mend_tree, Fate, Kind, Rules, StrictTree};

fn object(entries: &[(&str, &str, u8)], kind: Kind) -> Vec<u8> {
    let entry =
        |&(mode, name, id): &(&str, &str, u8)| [mode.as_bytes(), b" ", name.as_bytes(), b"\0", &vec![id; kind.len_in_bytes()]].concat();
    entries.iter().flat_map(entry).collect()
}

#[test]
fn each_fate() {
    for kind in [Kind::Sha1, Kind::Sha256] {
        let old = [("040000", "a", 1), ("100644", "a.b", 2), ("100664", "b", 3), ("100644", ".GIT", 4), ("0", "c", 5), ("100755", "a", 6)];
        let mended = mend_tree(&object(&old, kind), kind).unwrap();
        assert_eq!(mended.data, object(&[("100644", "a.b", 2), ("40000", "a", 1), ("100644", "b", 3)], kind));
        assert_eq!(mended.fates, [Fate::Changed, Fate::Kept, Fate::Changed, Fate::BadName, Fate::BadMode, Fate::KeptBefore]);
        assert_eq!(mended.fates.iter().filter(|f| f.is_kept()).count(), 3);
        assert!(StrictTree::from_bytes(&mended.data, kind, Rules::Present).is_ok());
        let again = mend_tree(&mended.data, kind).unwrap();
        assert_eq!((again.data, again.fates), (mended.data, vec![Fate::Kept; 3]));
    }
}

#[test]
fn refusals() {
    let mend = |o: &[u8]| mend_tree(o, Kind::Sha1).map_err(|e| (e.number, e.place, e.part));
    assert_eq!(mend(b"").unwrap().data, b"");
    assert_eq!(mend(b"7"), Err((3, 0, 2)));
    let cut = object(&[("100644", "a", 1), ("100644", "b", 2)], Kind::Sha1);
    assert_eq!(mend(&cut[..cut.len() - 1]), Err((3, 29, 3)));
}
