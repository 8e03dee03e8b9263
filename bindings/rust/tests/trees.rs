//! Trees through the bindings.
use sarpukten::{name_order, tree_to_bytes, EntryKind, EntryMode, EntryRef, Error, Kind, Rules, TreeRef, TreeRefIter};
use std::cmp::Ordering;

/// Number, place and part of a refusal; no field of a commit comes with one.
fn told(e: Error) -> (usize, usize, usize) {
    assert_eq!(e.field, 0);
    (e.number, e.place, e.part)
}

fn refused(number: usize, place: usize) -> (usize, usize, usize) {
    (number, place, 0)
}

fn broken(place: usize, part: usize) -> (usize, usize, usize) {
    (3, place, part)
}

/// An object from mode texts with names; each id is its entry's number, in every byte.
fn object(kind: Kind, entries: &[&str]) -> Vec<u8> {
    let mut out = Vec::new();
    for (i, e) in entries.iter().enumerate() {
        out.extend(e.as_bytes());
        out.push(0);
        out.extend(vec![i as u8 + 0x11; kind.len_in_bytes()]);
    }
    out
}

/// Bytes that look random, the same in each run.
fn noise(seed: u64, len: usize) -> Vec<u8> {
    let mut x = seed.wrapping_mul(0x9e37_79b9_7f4a_7c15) | 1;
    let mut byte = || {
        x ^= x << 13;
        x ^= x >> 7;
        x ^= x << 17;
        (x >> 32) as u8
    };
    (0..len).map(|_| byte()).collect()
}

#[test]
fn reads_finds_and_writes() {
    for kind in [Kind::Sha1, Kind::Sha256] {
        let data = object(kind, &["100644 a", "100644 a.b", "40000 a.c", "100755 a0", "40000 guest", "120000 z"]);
        for tree in [TreeRef::from_bytes(&data, kind).unwrap(), TreeRef::from_bytes_strict(&data, kind, Rules::Present).unwrap()] {
            assert_eq!(tree.len(), 6);
            assert_eq!(tree.entries().len(), 6);
            let names: Vec<_> = tree.entries().map(|e| e.filename).collect();
            assert_eq!(names, [&b"a"[..], b"a.b", b"a.c", b"a0", b"guest", b"z"]);
            assert_eq!(tree.get(3).unwrap().mode.kind(), EntryKind::BlobExecutable);
            assert_eq!(tree.get(6), None);
            for (i, e) in tree.entries().enumerate() {
                let (found, compared) = tree.bisect_entry_counted(e.filename, e.mode.is_tree());
                assert_eq!(found, Some(e));
                assert!(1 <= compared && compared <= sarpukten::most_comparisons(6));
                assert_eq!(e.oid, vec![i as u8 + 0x11; kind.len_in_bytes()]);
            }
            assert_eq!(tree.bisect_entry(b"guest", false), None);
            assert_eq!(tree.bisect_entry(b"gues", true), None);
            assert_eq!(tree.bisect_entry(b"", true), None);
            let id = tree.bisect_entry(b"guest", true).unwrap().object_id().unwrap();
            assert_eq!(id.to_string(), "15".repeat(kind.len_in_bytes()));
            let mut out = Vec::new();
            tree.write_to(&mut out).unwrap();
            assert_eq!(out, data);
            assert_eq!(tree.size(), data.len() as u64);
        }
        let one_by_one: Vec<_> = TreeRefIter::from_bytes(&data, kind).map(Result::unwrap).collect();
        let at_once: Vec<_> = TreeRef::from_bytes(&data, kind).unwrap().entries().collect();
        assert_eq!(one_by_one, at_once);
        assert_eq!(tree_to_bytes(&at_once, kind).unwrap(), data);
    }
}

#[test]
fn a_name_of_either_sort() {
    for kind in [Kind::Sha1, Kind::Sha256] {
        let data = object(kind, &["100644 a", "100644 a.b", "40000 a.c", "100755 a0", "40000 guest", "120000 z"]);
        let tree = TreeRef::from_bytes_strict(&data, kind, Rules::Present).unwrap();
        for e in tree.entries() {
            let (found, compared) = tree.bisect_any_counted(e.filename);
            assert_eq!((found, tree.bisect_any(e.filename)), (Some(e), Some(e)));
            assert!(1 <= compared && compared <= 2 * sarpukten::most_comparisons(6));
            // Where it is no folder the first search found it; else both were made.
            let (_, file) = tree.bisect_entry_counted(e.filename, false);
            let (_, folder) = tree.bisect_entry_counted(e.filename, true);
            assert_eq!(compared, if e.mode.is_tree() { file + folder } else { file });
        }
        for name in [&b""[..], b"gues", b"guest1", b"zz"] {
            assert_eq!(tree.bisect_any(name), None);
        }
    }
    // A listing that was read plainly may have both: what is no folder is found.
    let data = object(Kind::Sha1, &["100644 a", "40000 a"]);
    let tree = TreeRef::from_bytes(&data, Kind::Sha1).unwrap();
    assert_eq!(tree.bisect_any(b"a"), tree.get(0));
}

#[test]
fn many_names() {
    let texts: Vec<_> = (100..400).map(|i| format!("{} n{i}", if i % 3 == 0 { "40000" } else { "100644" })).collect();
    let texts: Vec<_> = texts.iter().map(String::as_str).collect();
    for kind in [Kind::Sha1, Kind::Sha256] {
        let data = object(kind, &texts[..200]);
        let tree = TreeRef::from_bytes_strict(&data, kind, Rules::Present).unwrap();
        // 600 names, of which every second is there with its sort until the tree ends, backwards and each twice in a row.
        let names: Vec<(&[u8], bool)> = texts
            .iter()
            .rev()
            .flat_map(|t| {
                let name = t.rsplit(' ').next().unwrap().as_bytes();
                [(name, t.starts_with('4')), (name, !t.starts_with('4'))]
            })
            .collect();
        // Below, at and past the 64 names that the call keeps, and none.
        for many in [0, 1, 2, 63, 64, 65, 128, 600] {
            let singly: Vec<_> = names[..many].iter().map(|&(name, is_dir)| tree.bisect_entry_counted(name, is_dir)).collect();
            assert_eq!(tree.bisect_entries_counted(&names[..many]).unwrap(), singly);
            assert!(tree.bisect_entries(&names[..many]).unwrap().into_iter().eq(singly.into_iter().map(|(found, _)| found)));
        }
        assert_eq!(tree.bisect_entries(&names).unwrap().iter().flatten().count(), 200);
    }
    let data = object(Kind::Sha1, &["100644 a", "40000 b"]);
    let tree = TreeRef::from_bytes(&data, Kind::Sha1).unwrap();
    let found = tree.bisect_entries_counted(&[(b"b", true), (b"a", false), (b"ab", false), (b"", true)]).unwrap();
    assert_eq!(found, [(tree.get(1), 1), (tree.get(0), 2), (None, 2), (None, 2)]);
    // One name past the longest list.
    let long = vec![(&b"a"[..], false); sarpukten::MOST_RECORDS + 1];
    assert_eq!(tree.bisect_entries(&long).map_err(told), Err(refused(2, 0)));
}

#[test]
fn the_empty_object() {
    for tree in [TreeRef::from_bytes(b"", Kind::Sha1), TreeRef::from_bytes_strict(b"", Kind::Sha256, Rules::Early)] {
        let tree = tree.unwrap();
        assert!(tree.is_empty());
        assert_eq!(tree.bisect_entry_counted(b"a", true), (None, 0));
        assert_eq!(tree.bisect_any_counted(b"a"), (None, 0));
        assert_eq!(tree.bisect_entries_counted(&[(b"a", true), (b"", false)]).unwrap(), [(None, 0), (None, 0)]);
        assert_eq!(tree.bisect_entries(&[]).unwrap(), []);
        assert_eq!(tree.size(), 0);
    }
    assert_eq!(TreeRefIter::from_bytes(b"", Kind::Sha1).next(), None);
}

#[test]
fn more_entries_than_guessed() {
    // The shortest entry: no mode text, a space, no name, NUL, id.
    let data = object(Kind::Sha1, &[" "; 200]);
    let tree = TreeRef::from_bytes(&data, Kind::Sha1).unwrap();
    assert_eq!(tree.len(), 200);
    assert_eq!(told(TreeRef::from_bytes_strict(&data, Kind::Sha1, Rules::Present).unwrap_err()), refused(5, 0));
}

#[test]
fn refusals() {
    let o = object(Kind::Sha1, &["100644 a", "40000 b"]);
    assert_eq!(o.len(), 57);
    let cut = &o[..56];
    assert_eq!(told(TreeRef::from_bytes(cut, Kind::Sha1).unwrap_err()), broken(29, 3));
    assert_eq!(TreeRef::from_bytes(cut, Kind::Sha1).unwrap_err().to_string(), "refused 3 at 29 part 3: an entry cannot be read");
    assert_eq!(told(TreeRef::from_bytes_strict(cut, Kind::Sha1, Rules::Present).unwrap_err()), broken(29, 3));
    let mut steps = TreeRefIter::from_bytes(cut, Kind::Sha1);
    assert_eq!(steps.next().unwrap().unwrap().filename, b"a");
    assert_eq!(told(steps.next().unwrap().unwrap_err()), broken(29, 3));
    assert_eq!(steps.next(), None);
    let strictly =
        |entries: &[&str]| told(TreeRef::from_bytes_strict(&object(Kind::Sha1, entries), Kind::Sha1, Rules::Present).unwrap_err());
    assert_eq!(strictly(&["100644 a", "100664 b"]), refused(5, 29));
    let early = object(Kind::Sha1, &["100644 a", "100664 b"]);
    assert_eq!(TreeRef::from_bytes_strict(&early, Kind::Sha1, Rules::Early).unwrap().entries().count(), 2);
    assert_eq!(strictly(&["100644 a", "040000 b"]), refused(5, 29));
    for name in ["", ".", "..", ".git", "a/b"] {
        assert_eq!(strictly(&[&format!("100644 {name}")]), refused(6, 0));
    }
    for name in [".Git", ".gIt", ".giT", ".GIT"] {
        assert_eq!(strictly(&[&format!("40000 {name}")]), refused(18, 0));
    }
    assert_eq!(strictly(&["100644 a", "100644 a"]), refused(7, 29));
    assert_eq!(strictly(&["40000 a", "100644 a.b"]), refused(7, 28));
    assert_eq!(strictly(&["100644 a", "40000 a"]), refused(17, 29));
    assert_eq!(strictly(&["100644 a", "100644 a.b", "40000 a"]), refused(17, 60));
}

#[test]
fn parts() {
    // A mode that cannot be read, no NUL after it, an id that is cut; the same behind a whole entry.
    let whole = object(Kind::Sha1, &["100644 a"]);
    let parts: [(&[u8], usize); 7] = [
        (b"9", 1),
        (b"12345678", 1),
        (b"100644\0", 1),
        (b"1234567", 2),
        (b"100644 ab", 2),
        (b"100644 a\0", 3),
        (b"100644 a\0nineteen bytes here", 3),
    ];
    for (bytes, part) in parts {
        let behind = [&whole[..], bytes].concat();
        for (data, place) in [(bytes, 0), (&behind[..], 29)] {
            assert_eq!(told(TreeRef::from_bytes(data, Kind::Sha1).unwrap_err()), broken(place, part));
            assert_eq!(told(TreeRef::from_bytes_strict(data, Kind::Sha1, Rules::Present).unwrap_err()), broken(place, part));
            assert_eq!(told(TreeRefIter::from_bytes(data, Kind::Sha1).last().unwrap().unwrap_err()), broken(place, part));
        }
    }
}

#[test]
fn mode_texts() {
    let data = object(Kind::Sha1, &["100644 a", "040000 b", "140755 c", " d", "0 e", "40000 f"]);
    let tree = TreeRef::from_bytes(&data, Kind::Sha1).unwrap();
    let texts = [&b"100644"[..], b"040000", b"140755", b"", b"0", b"40000"];
    assert!(tree.entries().map(|e| e.mode_text()).eq(texts.map(Some)));
    assert!(TreeRefIter::from_bytes(&data, Kind::Sha1).map(|e| e.unwrap().mode_text()).eq(texts.map(Some)));
    assert_eq!(tree.bisect_entry(b"b", true).unwrap().mode_text(), Some(&b"040000"[..]));
    assert_eq!(tree.get(5).unwrap().mode_text(), Some(&b"40000"[..]));
    // What is written for the mode is another text.
    assert_eq!(tree.get(2).unwrap().mode.as_bytes(&mut [0; 6]), b"040755");
    // The text is no part of an entry's value, and an entry that was not read has none.
    let read = tree.get(0).unwrap();
    let made = EntryRef::new(read.mode, b"a", read.oid);
    assert_eq!((made.mode_text(), made == read), (None, true));
    let early = object(Kind::Sha1, &["100644 a", "100664 b"]);
    let strictly = TreeRef::from_bytes_strict(&early, Kind::Sha1, Rules::Early).unwrap();
    assert!(strictly.entries().map(|e| e.mode_text()).eq([Some(&b"100644"[..]), Some(&b"100664"[..])]));
}

#[test]
fn writing_refuses() {
    let id = [7; 20];
    let entry = |filename, oid| EntryRef::new(EntryMode::from(EntryKind::Blob), filename, oid);
    assert_eq!(tree_to_bytes(&[entry(b"a", &id), entry(b"b\0c", &id)], Kind::Sha1).map_err(told), Err(refused(9, 1)));
    assert_eq!(tree_to_bytes(&[entry(b"a", &id), entry(b"b", &id[..19])], Kind::Sha1).map_err(told), Err(refused(10, 1)));
    assert_eq!(tree_to_bytes(&[entry(b"a", &id)], Kind::Sha256).map_err(told), Err(refused(10, 0)));
}

#[test]
fn order() {
    assert_eq!(name_order(b"a", false, b"a.b", false), Ordering::Less);
    assert_eq!(name_order(b"a", true, b"a.b", false), Ordering::Greater);
    assert_eq!(name_order(b"a", true, b"a/b", false), Ordering::Equal);
    assert_eq!(name_order(b"\xff", false, b"a", false), Ordering::Greater);
    assert_eq!(name_order(b"", false, b"", false), Ordering::Equal);
}

#[test]
fn any_bytes() {
    let whole = object(Kind::Sha1, &["100644 a", "100644 a.b", "40000 a.c", "100755 a0", "40000 guest", "120000 z"]);
    for seed in 0..20_000u64 {
        let bytes = noise(seed + 1, 4);
        let mut data = whole.clone();
        let at = (bytes[0] as usize * 256 + bytes[1] as usize) % data.len();
        match bytes[2] % 4 {
            0 => data[at] = bytes[3],
            1 => data.truncate(at),
            2 => data = noise(seed + 7, at),
            _ => data.insert(at, bytes[3]),
        }
        let plain = TreeRef::from_bytes(&data, Kind::Sha1);
        let steps: Result<Vec<_>, _> = TreeRefIter::from_bytes(&data, Kind::Sha1).collect();
        match (&plain, &steps) {
            (Ok(t), Ok(s)) => assert!(t.entries().eq(s.iter().copied())),
            (Err(a), Err(b)) => assert_eq!(a, b),
            _ => panic!("the two readers differ"),
        }
        if let Ok(strict) = TreeRef::from_bytes_strict(&data, Kind::Sha1, Rules::Present) {
            let plain = plain.expect("what is read strictly is read plainly");
            assert!(strict.entries().eq(plain.entries()));
            let mut out = Vec::new();
            strict.write_to(&mut out).unwrap();
            assert_eq!(out, data);
        }
    }
}
