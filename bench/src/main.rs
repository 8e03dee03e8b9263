//! The Rust (gix-object 0.64.1), libgit2 and Sarpukten on the same inputs in one process. `bench count` runs under callgrind,
//! `bench time` alone; both compare all answers first. Keys: operation, whose, bytes of name (or kind of commit), entries.
mod count;
mod inputs;
mod libgit2;
mod sarpukten;

use count::{How, measure};
use gix_object::{CommitRef, TreeRef, TreeRefIter, WriteTo, bstr::ByteSlice, tree::EntryRef};
use std::{borrow::Cow, cmp::Ordering, ffi::CString, hint::black_box};

const SHA1: gix_hash::Kind = gix_hash::Kind::Sha1;
const NAMES: [usize; 5] = [6, 12, 24, 60, 200];
const TREES: [usize; 4] = [10, 300, 2_000, 100_000];

fn main() {
    assert!(!cfg!(debug_assertions), "a release build");
    let how = match std::env::args().nth(1).as_deref() {
        Some("count") => How::Instructions,
        Some("time") => How::Time,
        _ => panic!("bench count | bench time"),
    };
    // A second word is the most entries of a tree, for a quick run.
    let most = std::env::args().nth(2).map_or(usize::MAX, |word| word.parse().expect("a number"));
    libgit2::start();
    for len in NAMES {
        for n in TREES.into_iter().filter(|n| *n <= most) {
            trees(how, len, n);
        }
    }
    for (kind, parents, lines, message) in [("root", 0, 0, 60), ("plain", 1, 0, 200), ("merge", 2, 0, 400), ("signed", 1, 12, 200), ("long", 1, 0, 20_000)] {
        commits(how, kind, &inputs::commit(parents, lines, message));
    }
}

/// Where a part of `whole` starts.
fn place(whole: &[u8], part: &[u8]) -> usize {
    part.as_ptr() as usize - whole.as_ptr() as usize
}

/// The numbers of an entry's record.
const WIDTH: usize = 5;

fn numbers(object: &[u8], entry: &EntryRef) -> [usize; WIDTH] {
    let name = place(object, entry.filename);
    // The Rust does not keep where the mode text starts: here every mode is written as Git writes it.
    let first = name - 1 - entry.mode.as_bytes(&mut Default::default()).len();
    [entry.mode.value() as usize, name, name + entry.filename.len(), place(object, entry.oid.as_bytes()), first]
}

/// The Rust's iterator into a lent list, as Sarpukten stores it.
#[inline(never)]
fn iterate(object: &[u8], out: &mut [usize]) -> usize {
    let mut n = 0;
    for entry in TreeRefIter::from_bytes(object, SHA1) {
        let Ok(entry) = entry else { return usize::MAX };
        out[n * WIDTH..(n + 1) * WIDTH].copy_from_slice(&numbers(object, &entry));
        n += 1;
    }
    n
}

/// The strict rules over the Rust's iterator, as a user of the crate writes them: each mode text, each name, and the entry before. Of the names before only
/// files' that the present one begins with can come again, as a folder's.
#[inline(never)]
fn strictly(object: &[u8], out: &mut [usize]) -> usize {
    let mut n = 0;
    let mut at = 0;
    let mut before: Option<EntryRef> = None;
    let mut begun: Vec<&[u8]> = Vec::new();
    for entry in TreeRefIter::from_bytes(object, SHA1) {
        let Ok(entry) = entry else { return usize::MAX };
        let start = place(object, entry.filename);
        let name: &[u8] = entry.filename;
        if !matches!(&object[at..start - 1], b"40000" | b"100644" | b"100755" | b"120000" | b"160000") {
            return usize::MAX;
        }
        if name.is_empty() || name.contains(&b'/') || name == b"." || name == b".." || name.eq_ignore_ascii_case(b".git") {
            return usize::MAX;
        }
        if before.is_some_and(|last| last.cmp(&entry) != Ordering::Less) {
            return usize::MAX;
        }
        while begun.last().is_some_and(|file| !name.starts_with(file)) {
            begun.pop();
        }
        if entry.mode.is_tree() {
            if begun.last() == Some(&name) {
                return usize::MAX;
            }
        } else {
            begun.push(name);
        }
        out[n * WIDTH..(n + 1) * WIDTH].copy_from_slice(&[entry.mode.value() as usize, start, start + name.len(), start + name.len() + 1, at]);
        at = start + name.len() + 1 + entry.oid.as_bytes().len();
        n += 1;
        before = Some(entry);
    }
    n
}

fn trees(how: How, len: usize, n: usize) {
    let (names, object) = inputs::tree(n, len);
    let object = &object[..];
    let mut records = vec![7; n * WIDTH + 3];
    let mut other = vec![7; n * WIDTH + 3];

    // The same answers, before anything is counted.
    let rust = TreeRef::from_bytes(object, SHA1).expect("a tree");
    let mut git = libgit2::Tree::new();
    assert!(git.parse(object) && git.len() == n && rust.entries.len() == n);
    assert_eq!(sarpukten::read_tree(object, &mut records), [0, 0, 0, n]);
    assert_eq!(sarpukten::read_tree_strict(object, &mut other), [0, 0, 0, n]);
    assert!(records == other && records[n * WIDTH..] == [7, 7, 7]);
    assert_eq!(iterate(object, &mut other), n);
    assert!(records == other);
    assert_eq!(strictly(object, &mut other), n);
    assert!(records == other);
    for (i, entry) in rust.entries.iter().enumerate() {
        assert_eq!(records[i * WIDTH..(i + 1) * WIDTH], numbers(object, entry));
        let (mode, name, id) = libgit2::told(git.entry(i));
        assert!(mode == entry.mode.value() as u32 && name == &entry.filename[..] && id == entry.oid.as_bytes());
    }

    // What is sought: names that are there, and as many that are not (the last byte is no letter).
    let step = n.div_ceil(500);
    let mut sought = Vec::new();
    for i in (0..n).step_by(step) {
        let folder = inputs::mode(i) == b"40000";
        let mut absent = names[i].clone();
        *absent.last_mut().unwrap() = b'~';
        sought.push((CString::new(names[i].clone()).unwrap(), folder));
        sought.push((CString::new(absent).unwrap(), folder));
    }
    for (name, folder) in &sought {
        let a = sarpukten::bisect_entry(object, &records, name.to_bytes(), *folder);
        let e = git.find(name);
        match rust.bisect_entry(name.to_bytes().as_bstr(), *folder) {
            Some(found) => {
                assert!(a[0] == 0 && records[a[3] * WIDTH..(a[3] + 1) * WIDTH] == numbers(object, &found));
                assert_eq!(libgit2::told(e).1, name.to_bytes());
            }
            None => assert!(a[0] == 15 && e.is_null()),
        }
    }
    let mut written = Vec::with_capacity(object.len());
    rust.write_to(&mut written).unwrap();
    let mut out = vec![0; object.len()];
    assert_eq!(sarpukten::write_tree(object, &records, &mut out), [0, 0, 0, object.len()]);
    assert!(written == object && out == object);

    let key = |operation: &str, whose: &str| format!("{operation} {whose} {len} {n}");
    measure(how, &key("plain", "rust"), || TreeRef::from_bytes(black_box(object), SHA1));
    measure(how, &key("plain", "iterator"), || iterate(black_box(object), &mut other));
    measure(how, &key("plain", "libgit2"), || {
        let mut tree = libgit2::Tree::new();
        tree.parse(black_box(object));
        tree
    });
    measure(how, &key("plain", "sarpukten"), || sarpukten::read_tree(black_box(object), &mut other));
    measure(how, &key("strict", "rust"), || strictly(black_box(object), &mut other));
    measure(how, &key("strict", "sarpukten"), || sarpukten::read_tree_strict(black_box(object), &mut other));

    let finds = sought.len();
    let key = |operation: &str, whose: &str| format!("{operation} {whose} {len} {n} {finds}");
    measure(how, &key("find", "rust"), || {
        sought.iter().filter(|(name, folder)| black_box(rust.bisect_entry(name.to_bytes().as_bstr(), *folder)).is_some()).count()
    });
    measure(how, &key("find", "libgit2"), || sought.iter().filter(|(name, _)| !black_box(git.find(name)).is_null()).count());
    measure(how, &key("find", "sarpukten"), || {
        sought.iter().filter(|(name, folder)| black_box(sarpukten::bisect_entry(object, &records, name.to_bytes(), *folder))[0] == 0).count()
    });

    // Forty names of one listing: the Rust one by one, Sarpukten one by one and in one call.
    let forty: Vec<_> = (0..40).map(|i| &sought[i * 7 % finds]).collect();
    let mut packed = Vec::new();
    let mut asked = Vec::new();
    for (name, folder) in &forty {
        asked.extend([packed.len(), packed.len() + name.to_bytes().len(), *folder as usize]);
        packed.extend_from_slice(name.to_bytes());
    }
    let mut answers = [7; 120];
    assert_eq!(sarpukten::bisect_entries(object, &records, &packed, &asked, &mut answers), [0, 0, 0, 40]);
    for (i, (name, folder)) in forty.iter().enumerate() {
        let a = sarpukten::bisect_entry(object, &records, name.to_bytes(), *folder);
        assert_eq!(answers[i * 3..i * 3 + 3], [a[0], a[3], a[4]]);
    }
    let key = |operation: &str, whose: &str| format!("{operation} {whose} {len} {n} 40");
    measure(how, &key("forty", "rust"), || {
        forty.iter().filter(|(name, folder)| black_box(rust.bisect_entry(name.to_bytes().as_bstr(), *folder)).is_some()).count()
    });
    measure(how, &key("forty", "calls"), || {
        forty.iter().filter(|(name, folder)| black_box(sarpukten::bisect_entry(object, &records, name.to_bytes(), *folder))[0] == 0).count()
    });
    measure(how, &key("forty", "sarpukten"), || sarpukten::bisect_entries(object, &records, black_box(&packed), &asked, &mut answers));

    let (name, folder) = &sought[sought.len() / 3 * 2];
    let key = |operation: &str, whose: &str| format!("{operation} {whose} {len} {n}");
    measure(how, &key("load", "rust"), || {
        let tree = TreeRef::from_bytes(black_box(object), SHA1).unwrap();
        tree.bisect_entry(name.to_bytes().as_bstr(), *folder).is_some()
    });
    measure(how, &key("load", "libgit2"), || {
        let mut tree = libgit2::Tree::new();
        tree.parse(black_box(object));
        !tree.find(name).is_null()
    });
    measure(how, &key("load", "sarpukten"), || {
        let n = sarpukten::read_tree_strict(black_box(object), &mut other)[3];
        sarpukten::bisect_entry(object, &other[..n * WIDTH], name.to_bytes(), *folder)
    });

    measure(how, &key("write", "rust"), || {
        written.clear();
        black_box(&rust).write_to(&mut written).is_ok()
    });
    measure(how, &key("write", "sarpukten"), || sarpukten::write_tree(black_box(object), &records, &mut out));
}

fn commits(how: How, kind: &str, object: &[u8]) {
    let mut parents = [7; 8];
    let mut headers = [7; 40];

    let rust = CommitRef::from_bytes(object, SHA1).expect("a commit");
    let mut git = libgit2::Commit::new();
    assert!(git.parse(object));
    let a = sarpukten::read_commit(object, &mut parents, &mut headers);
    let range = |part: &[u8]| [place(object, part), place(object, part) + part.len()];
    assert_eq!(a[..7], [0, 0, 0, 0, rust.parents.len(), rust.extra_headers.len(), place(object, rust.tree)]);
    assert_eq!(a[7..9], range(rust.author));
    assert_eq!(a[9..11], range(rust.committer));
    assert_eq!(a[11..14], [0, 0, 0]);
    assert_eq!(a[14..16], range(rust.message));
    for (i, parent) in rust.parents.iter().enumerate() {
        assert_eq!(parents[i], place(object, parent));
    }
    for (i, (name, value)) in rust.extra_headers.iter().enumerate() {
        assert_eq!(headers[i * 5..i * 5 + 2], range(name));
        assert_eq!(headers[i * 5 + 4], matches!(value, Cow::Owned(_)) as usize);
    }
    let tree: String = git.tree().iter().map(|b| format!("{b:02x}")).collect();
    assert!(git.parents() == rust.parents.len() && git.message() == &rust.message[..] && tree.as_bytes() == &rust.tree[..]);

    let parts: [usize; 10] = a[6..16].try_into().unwrap();
    let (lent, named) = (parents[..a[4]].to_vec(), headers[..a[5] * 5].to_vec());
    let mut out = vec![0; object.len()];
    let mut written = Vec::with_capacity(object.len());
    rust.write_to(&mut written).unwrap();
    assert_eq!(sarpukten::write_commit(object, &parts, &lent, &named, &mut out), [0, 0, 0, object.len()]);
    assert!(written == object && out == object);

    let bytes = object.len();
    let key = |operation: &str, whose: &str| format!("{operation} {whose} {kind} {bytes}");
    measure(how, &key("commit", "rust"), || CommitRef::from_bytes(black_box(object), SHA1));
    measure(how, &key("commit", "libgit2"), || {
        let mut commit = libgit2::Commit::new();
        commit.parse(black_box(object));
        commit
    });
    measure(how, &key("commit", "sarpukten"), || sarpukten::read_commit(black_box(object), &mut parents, &mut headers));
    measure(how, &key("recommit", "rust"), || {
        written.clear();
        black_box(&rust).write_to(&mut written).is_ok()
    });
    measure(how, &key("recommit", "sarpukten"), || sarpukten::write_commit(black_box(object), &parts, &lent, &named, &mut out));
}
