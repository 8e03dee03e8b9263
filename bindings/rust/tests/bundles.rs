//! Bundles and paths through the bindings.
use sarpukten::{Bundle, EntryMode, Kind, ObjectId, ObjectKind, Rules};

/// An id of one byte, as often as the kind says.
fn id(kind: Kind, byte: u8) -> ObjectId {
    ObjectId::from_bytes(&vec![byte; kind.len_in_bytes()]).unwrap()
}

fn head(kind: Kind, rules: Option<u16>, count: u32) -> Vec<u8> {
    let mut out = b"GOB".to_vec();
    match rules {
        None => out.extend(1u16.to_le_bytes()),
        Some(r) => {
            out.extend(2u16.to_le_bytes());
            out.extend(r.to_le_bytes());
        }
    }
    out.push(kind.len_in_bytes() as u8);
    out.extend(count.to_le_bytes());
    out
}

fn object(id: &ObjectId, kind: u8, data: &[u8]) -> Vec<u8> {
    let mut out = id.as_slice().to_vec();
    out.push(kind);
    out.extend((data.len() as u32).to_le_bytes());
    out.extend(data);
    out
}

fn entry(mode: &str, name: &str, id: &ObjectId) -> Vec<u8> {
    let mut out = format!("{mode} {name}\0").into_bytes();
    out.extend(id.as_slice());
    out
}

/// A tree with the folder `a`, its tree with the file `b`, and the file.
fn objects(kind: Kind) -> Vec<u8> {
    let outer = entry("40000", "a", &id(kind, 34));
    let inner = entry("100644", "b", &id(kind, 51));
    [object(&id(kind, 17), 2, &outer), object(&id(kind, 34), 2, &inner), object(&id(kind, 51), 3, b"hello")].concat()
}

fn mode(text: &str) -> EntryMode {
    EntryMode::from_bytes(text.as_bytes()).unwrap()
}

fn refused(bytes: &[u8]) -> usize {
    let e = Bundle::new(bytes).unwrap_err();
    assert_eq!((e.place, e.part, e.field), (0, 0, 0));
    e.number
}

#[test]
fn followed() {
    for kind in [Kind::Sha1, Kind::Sha256] {
        for (rules, meant) in [(None, Rules::Present), (Some(1), Rules::Early), (Some(2), Rules::Present)] {
            let bytes = [head(kind, rules, 3), objects(kind)].concat();
            let bundle = Bundle::new(&bytes).unwrap();
            assert_eq!((bundle.kind(), bundle.rules(), bundle.len(), bundle.is_empty()), (kind, meant, 3, false));
            let root = id(kind, 17);
            assert_eq!(bundle.follow(&root, b"a"), Ok(Some((mode("40000"), id(kind, 34)))));
            assert_eq!(bundle.follow(&root, b"a/b"), Ok(Some((mode("100644"), id(kind, 51)))));
            for path in ["", "b", "a/c", "a/b/c"] {
                assert_eq!(bundle.follow(&root, path.as_bytes()), Ok(None));
            }
            for path in ["/", "/a", "a/", "a//b", &"a/".repeat(64), &"a/".repeat(65)] {
                assert_eq!(bundle.follow(&root, path.as_bytes()).unwrap_err().number, 26);
            }
            assert_eq!(bundle.follow(&root, ["a"; 64].join("/").as_bytes()), Ok(None));
            assert_eq!(bundle.follow(&root, ["a"; 65].join("/").as_bytes()).unwrap_err().number, 26);
            assert_eq!(bundle.follow(&id(kind, 99), b"a"), Ok(None));
            // A root that is a blob, and one of the other length.
            assert_eq!(bundle.follow(&id(kind, 51), b"a"), Ok(None));
            let other = if kind == Kind::Sha1 { Kind::Sha256 } else { Kind::Sha1 };
            assert_eq!(bundle.follow(&id(other, 17), b"a").unwrap_err().number, 24);
            let blob = bundle.object(&id(kind, 51)).unwrap();
            assert_eq!((blob.kind, blob.data), (ObjectKind::Blob, &b"hello"[..]));
            assert_eq!(bundle.object(&root).map(|o| o.kind), Some(ObjectKind::Tree));
            assert_eq!(bundle.object(&id(kind, 99)), None);
        }
    }
}

#[test]
fn not_framed() {
    let kind = Kind::Sha1;
    let good = [head(kind, None, 3), objects(kind)].concat();
    assert!(Bundle::new(&good).is_ok());
    // Every shorter one, and one longer.
    for len in 0..good.len() {
        assert_eq!(refused(&good[..len]), 24);
    }
    assert_eq!(refused(&[&good[..], &[0]].concat()), 24);
    for count in [0, 2, 4, 1048577, u32::MAX] {
        assert_eq!(refused(&[head(kind, None, count), objects(kind)].concat()), 24);
    }
    for rules in [0, 3, 256, 512] {
        assert_eq!(refused(&[head(kind, Some(rules), 3), objects(kind)].concat()), 24);
    }
    // The mark, the version, H; then the kind of the first object.
    for (at, bytes) in [(0, &b"g"[..]), (2, b"b"), (3, b"\0"), (3, b"\x03"), (4, b"\x01"), (5, b"\x15"), (30, b"\0"), (30, b"\x05")] {
        let mut bad = good.clone();
        bad[at..at + 1].copy_from_slice(bytes);
        assert_eq!(refused(&bad), 24, "at {at}");
    }
    assert!(Bundle::new(&head(kind, None, 0)).unwrap().is_empty());
}

/// Ids in no order are sorted on the stack, 4 MiB of it with more than 1,024 objects: more than a Rust thread has by itself.
#[test]
fn twice() {
    let all = || {
        for n in [2u32, 3, 1024, 1025, 5000] {
            let named = |i: u32| ObjectId::from_bytes(&[&(i.wrapping_mul(2654435761)).to_be_bytes()[..], &[7; 16]].concat()).unwrap();
            let ids: Vec<ObjectId> = (0..n).map(named).collect();
            let laid = |ids: &[ObjectId]| {
                let mut out = head(Kind::Sha1, None, ids.len() as u32);
                ids.iter().for_each(|i| out.extend(object(i, 3, b"")));
                out
            };
            assert_eq!(Bundle::new(&laid(&ids)).map(|b| b.len()), Ok(n as usize));
            for (first, second) in [(0, n - 1), (n - 2, n - 1), (0, 1), (n / 3, n / 2 + 1)] {
                if first == second || n <= second {
                    continue;
                }
                let mut double = ids.clone();
                double[second as usize] = double[first as usize];
                assert_eq!(refused(&laid(&double)), 25);
                // 24 is ahead of 25.
                assert_eq!(refused(&[laid(&double), vec![0]].concat()), 24);
            }
            let mut ascending = ids.clone();
            ascending.sort_by(|a, b| a.as_slice().cmp(b.as_slice()));
            assert!(Bundle::new(&laid(&ascending)).is_ok());
        }
    };
    std::thread::Builder::new().stack_size(16 << 20).spawn(all).unwrap().join().unwrap();
}
