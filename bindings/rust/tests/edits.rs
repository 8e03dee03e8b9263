//! Edits through the bindings.
use sarpukten::{put_in_tree, remove_from_tree, EntryKind, EntryMode, Kind, ObjectId, Rules};

fn entry(mode: &str, name: &str, id: &ObjectId) -> Vec<u8> {
    [mode.as_bytes(), b" ", name.as_bytes(), b"\0", id.as_slice()].concat()
}

#[test]
fn file_turned_folder_and_back() {
    for kind in [Kind::Sha1, Kind::Sha256] {
        let id = |b: u8| ObjectId::from_bytes(&vec![b; kind.len_in_bytes()]).unwrap();
        let file = [entry("100644", "a", &id(1)), entry("100644", "a.b", &id(2))].concat();
        let folder = [entry("100644", "a.b", &id(2)), entry("40000", "a", &id(3))].concat();
        let put = |o: &[u8], m: EntryKind, n: &str, i: u8| put_in_tree(o, kind, Rules::Present, EntryMode::from(m), n.as_bytes(), &id(i));
        assert_eq!(put(&file, EntryKind::Tree, "a", 3).unwrap(), folder);
        assert_eq!(put(&folder, EntryKind::Blob, "a", 1).unwrap(), file);
        assert_eq!(put(&file, EntryKind::Blob, "a", 1).unwrap(), file);
        let more = put(&file, EntryKind::Link, "z", 9).unwrap();
        assert_eq!(remove_from_tree(&more, kind, Rules::Present, b"z").unwrap(), file);
        let one = remove_from_tree(&file, kind, Rules::Present, b"a.b").unwrap();
        assert_eq!(remove_from_tree(&one, kind, Rules::Present, b"a").unwrap(), b"");
    }
}

#[test]
fn refusals() {
    let id = ObjectId::from_bytes(&[7; 20]).unwrap();
    let long = ObjectId::from_bytes(&[7; 32]).unwrap();
    let blob = EntryMode::from(EntryKind::Blob);
    let put = |mode, name: &[u8], id| put_in_tree(b"", Kind::Sha1, Rules::Present, mode, name, id).map_err(|e| (e.number, e.place, e.part));
    assert_eq!(put(blob, b"a", &long), Err((10, 0, 0)));
    assert_eq!(put(EntryMode::from_bytes(b"100664").unwrap(), b"a", &id), Err((5, 0, 0)));
    assert_eq!(put(blob, b"a/b", &id), Err((6, 0, 0)));
    assert_eq!(put(blob, b"a\0", &id), Err((6, 0, 0)));
    assert_eq!(put(blob, b".Git", &id), Err((18, 0, 0)));
    let remove = |o: &[u8], name: &[u8]| remove_from_tree(o, Kind::Sha1, Rules::Present, name).map_err(|e| (e.number, e.place, e.part));
    assert_eq!(remove(b"", b"a"), Err((15, 0, 0)));
    assert_eq!(remove(b"7", b"a"), Err((3, 0, 2)));
}
