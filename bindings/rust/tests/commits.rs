//! Commits through the bindings.
use sarpukten::{loose_header, CommitRef, Error, Kind, ObjectKind};
use std::borrow::Cow;

const PERSON: &str = "A U Thor <author@example.com> 1112354055 +0200";

fn commit(kind: Kind) -> Vec<u8> {
    let id = |d: &str| d.repeat(kind.len_in_hex());
    format!(
        "tree {}\nparent {}\nparent {}\nauthor {PERSON}\ncommitter {PERSON}\nencoding ISO-8859-1\ngpgsig -----BEGIN\n line one\n \n -----END\nextra v\nempty \n\nthe message\n",
        id("a"),
        id("1"),
        id("2")
    )
    .into_bytes()
}

/// Number, place and field of a refusal; its part is 0.
fn told(e: Error) -> (usize, usize, usize) {
    assert_eq!(e.part, 0);
    (e.number, e.place, e.field)
}

#[test]
fn reads_and_writes() {
    for kind in [Kind::Sha1, Kind::Sha256] {
        let data = commit(kind);
        let c = CommitRef::from_bytes(&data, kind).unwrap();
        assert_eq!(c.tree().unwrap().to_string(), "a".repeat(kind.len_in_hex()));
        assert_eq!(c.tree().unwrap().kind(), kind);
        let parents: Vec<_> = c.parents().map(|p| p.to_string()).collect();
        assert_eq!(parents, ["1".repeat(kind.len_in_hex()), "2".repeat(kind.len_in_hex())]);
        assert_eq!((c.author, c.committer), (PERSON.as_bytes(), PERSON.as_bytes()));
        assert_eq!(c.encoding, Some(&b"ISO-8859-1"[..]));
        assert_eq!(c.message, b"the message\n");
        let headers: [(&[u8], Cow<[u8]>); 3] =
            [(b"gpgsig", b"-----BEGIN\nline one\n\n-----END\n"[..].into()), (b"extra", b"v"[..].into()), (b"empty", b""[..].into())];
        assert_eq!(c.extra_headers, headers);
        assert!(matches!(c.extra_headers[1].1, Cow::Borrowed(_)));
        let mut out = Vec::new();
        c.write_to(&mut out).unwrap();
        assert_eq!(out, data);
        assert_eq!(c.size(), Ok(data.len() as u64));
    }
}

#[test]
fn the_least_commit() {
    let data = format!("tree {}\nauthor {PERSON}\ncommitter {PERSON}\n\n", "0".repeat(40)).into_bytes();
    let c = CommitRef::from_bytes(&data, Kind::Sha1).unwrap();
    assert_eq!((c.parents().count(), c.encoding, c.extra_headers.len(), c.message), (0, None, 0, &b""[..]));
    assert_eq!(c.to_bytes().unwrap(), data);
}

#[test]
fn many_parents_and_headers() {
    let parents: String = (0..300).map(|i| format!("parent {i:040x}\n")).collect();
    let headers: String = (0..300).map(|i| format!("k{i} v\n")).collect();
    let data = format!("tree {}\n{parents}author {PERSON}\ncommitter {PERSON}\n{headers}\n", "0".repeat(40)).into_bytes();
    let c = CommitRef::from_bytes(&data, Kind::Sha1).unwrap();
    assert_eq!((c.parents.len(), c.extra_headers.len()), (300, 300));
    assert_eq!(c.parents().last().unwrap().to_string(), format!("{:040x}", 299));
    assert_eq!(c.extra_headers[299].0, b"k299");
    assert_eq!(c.to_bytes().unwrap(), data);
}

#[test]
fn refusals() {
    let data = commit(Kind::Sha1);
    assert_eq!(CommitRef::from_bytes(b"", Kind::Sha1).map_err(told), Err((11, 0, 1)));
    assert_eq!(CommitRef::from_bytes(&data, Kind::Sha256).map_err(told), Err((11, 0, 1)));
    assert_eq!(CommitRef::from_bytes(&data[..142], Kind::Sha1).map_err(told), Err((11, 142, 2)));
    let text = String::from_utf8(data.clone()).unwrap();
    let broken = text.replacen("parent 2", "parent x", 1);
    assert_eq!(CommitRef::from_bytes(broken.as_bytes(), Kind::Sha1).map_err(told), Err((11, 94, 2)));
    let nobody = text.replacen(" <author@example.com>", "", 1);
    assert_eq!(CommitRef::from_bytes(nobody.as_bytes(), Kind::Sha1).map_err(told), Err((12, 142, 0)));
    let endless = text.replacen("\n\nthe message\n", "\n", 1);
    assert_eq!(CommitRef::from_bytes(endless.as_bytes(), Kind::Sha1).map_err(told), Err((11, endless.len(), 4)));
}

#[test]
fn writing() {
    let data = commit(Kind::Sha1);
    let read = CommitRef::from_bytes(&data, Kind::Sha1).unwrap();
    let mut c = read.clone();
    c.extra_headers = vec![(b"k", b"a\nb\n"[..].into())];
    assert!(String::from_utf8(c.to_bytes().unwrap()).unwrap().contains("\nk a\n b\n\n"));
    c.encoding = Some(b"");
    assert_eq!(c.to_bytes().map_err(told), Err((13, 0, 0)));
    c.encoding = Some(b"a\nb");
    assert_eq!(c.to_bytes().map_err(told), Err((14, 0, 0)));
    c.encoding = None;
    assert!(c.to_bytes().is_ok());
    let upper = "A".repeat(40);
    c.tree = upper.as_bytes();
    assert_eq!(c.to_bytes().unwrap()[5..45], *"a".repeat(40).as_bytes());
    c.parents[1] = &upper.as_bytes()[..39];
    assert_eq!(c.to_bytes().map_err(told), Err((10, 2, 0)));
    c.parents.clear();
    c.tree = b"short";
    assert_eq!(c.to_bytes().map_err(told), Err((10, 0, 0)));
    assert_eq!(c.size().map_err(told), Err((10, 0, 0)));
}

#[test]
fn every_cut_and_every_byte() {
    let data = commit(Kind::Sha1);
    for at in 0..data.len() {
        let _ = CommitRef::from_bytes(&data[..at], Kind::Sha1);
        for byte in [0, 10, 32, 60, 255] {
            let mut other = data.clone();
            other[at] = byte;
            if let Ok(c) = CommitRef::from_bytes(&other, Kind::Sha1) {
                let again = c.to_bytes().unwrap();
                assert_eq!(CommitRef::from_bytes(&again, Kind::Sha1).unwrap().message, c.message);
            }
        }
    }
}

#[test]
fn loose_headers() {
    assert_eq!(loose_header(ObjectKind::Commit, 0), b"commit 0\0");
    assert_eq!(loose_header(ObjectKind::Blob, u64::MAX), b"blob 18446744073709551615\0");
    assert_eq!(loose_header(ObjectKind::Commit, u64::MAX).len(), 28);
    assert_eq!(loose_header(ObjectKind::Tree, 57), b"tree 57\0");
    assert_eq!(loose_header(ObjectKind::Tag, 1), b"tag 1\0");
}
