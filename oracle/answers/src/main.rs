//! The oracle: one case a line on standard input, one answer a line on standard output.
//!
//! Words are parted by one space. Bytes are hex digits, `-` for none; positions are decimal and count in the case's bytes.
//! A refusal of the Rust is `no`, with what it can say beside. Which cases exist: see `answer` below.
use std::{
    borrow::Cow,
    cmp::Ordering,
    io::{BufRead, Write},
};

use gix_object::{
    CommitRef, Data, Find, Kind, TreeRef, TreeRefIter, WriteTo,
    bstr::{BStr, ByteSlice},
    encode,
    tree::{self, EntryKind, EntryMode, EntryRef, editor},
};

fn main() {
    assert!(!cfg!(debug_assertions), "the oracle is a release build");
    let mut out = std::io::BufWriter::new(std::io::stdout().lock());
    for line in std::io::stdin().lock().lines() {
        let line = line.expect("a line of text");
        let mut case = Case(line.split(' '));
        writeln!(out, "{}", answer(&mut case)).expect("standard output");
    }
}

/// Objects by their ids: id, kind (1 commit, 2 tree, 3 blob, 4 tag), bytes.
struct Objects(gix_hash::Kind, Vec<(Vec<u8>, u64, Vec<u8>)>);

impl Objects {
    fn kind(kind: u64) -> Kind {
        [Kind::Commit, Kind::Tree, Kind::Blob, Kind::Tag][kind as usize - 1]
    }
}

impl Find for &Objects {
    fn try_find<'a>(&self, id: &gix_hash::oid, buffer: &'a mut Vec<u8>) -> Result<Option<Data<'a>>, gix_object::find::Error> {
        let Some((_, kind, bytes)) = self.1.iter().find(|(other, _, _)| other == id.as_bytes()) else { return Ok(None) };
        buffer.clear();
        buffer.extend_from_slice(bytes);
        Ok(Some(Data::new(buffer, Objects::kind(*kind), self.0)))
    }
}

/// The mode and the id that a path leads to from a root tree.
fn followed(objects: &Objects, root: &[u8], path: &[u8]) -> String {
    let Some((_, 2, bytes)) = objects.1.iter().find(|(id, _, _)| id == root) else { return "no".into() };
    let components: Vec<&[u8]> = if path.is_empty() { Vec::new() } else { path.split(|b| *b == b'/').collect() };
    match TreeRefIter::from_bytes(bytes, objects.0).lookup_entry(objects, &mut Vec::new(), components) {
        Ok(Some(entry)) => format!("ok {} {}", editor::bits(entry.mode), entry.oid.as_bytes().iter().map(|b| format!("{b:02x}")).collect::<String>()),
        Ok(None) => "no".into(),
        Err(_) => "error".into(),
    }
}

/// The words of a case, taken from the left.
struct Case<'a>(std::str::Split<'a, char>);

impl<'a> Case<'a> {
    fn word(&mut self) -> &'a str {
        self.0.next().expect("another word")
    }
    fn number(&mut self) -> u64 {
        self.word().parse().expect("a number")
    }
    fn at(&mut self) -> usize {
        self.number() as usize
    }
    fn flag(&mut self) -> bool {
        self.number() == 1
    }
    fn bytes(&mut self) -> Vec<u8> {
        let word = self.word();
        if word == "-" {
            return Vec::new();
        }
        (0..word.len()).step_by(2).map(|i| u8::from_str_radix(&word[i..i + 2], 16).expect("hex")).collect()
    }
    fn hash(&mut self) -> gix_hash::Kind {
        gix_hash::Kind::from_len(self.at()).expect("20 or 32")
    }
    /// How many, then for each entry: mode, name start, name end, id start.
    fn entries<'b>(&mut self, bytes: &'b [u8], hash: gix_hash::Kind) -> Vec<EntryRef<'b>> {
        let count = self.number();
        (0..count)
            .map(|_| {
                let (mode, from, to, id) = (self.number() as u16, self.at(), self.at(), self.at());
                EntryRef {
                    mode: editor::mode(mode),
                    filename: bytes[from..to].as_bstr(),
                    oid: gix_hash::oid::try_from_bytes(&bytes[id..id + hash.len_in_bytes()]).expect("H bytes"),
                }
            })
            .collect()
    }
}

fn answer(case: &mut Case) -> String {
    match case.word() {
        "mode" => match editor::mode_text(&case.bytes()) {
            Some((mode, rest)) => format!("ok {mode} {rest}"),
            None => "no".into(),
        },
        "asked" => asked(editor::mode(case.number() as u16)),
        "from" => match EntryMode::try_from(case.number() as u32) {
            Ok(mode) => format!("ok {}", editor::bits(mode)),
            Err(_) => "no".into(),
        },
        "order" => {
            let (a, a_tree, b, b_tree) = (case.bytes(), case.flag(), case.bytes(), case.flag());
            match tree::name_order(&a, a_tree, &b, b_tree) {
                Ordering::Less => "0".into(),
                Ordering::Equal => "1".into(),
                Ordering::Greater => "2".into(),
            }
        }
        "tree" => tree_read(case.hash(), &case.bytes()),
        "find" => {
            let (hash, bytes) = (case.hash(), case.bytes());
            let tree = TreeRef { entries: case.entries(&bytes, hash) };
            let (name, is_tree) = (case.bytes(), case.flag());
            found(&bytes, tree.bisect_entry(name.as_bstr(), is_tree))
        }
        "path" => {
            let (hash, root, path, count) = (case.hash(), case.bytes(), case.bytes(), case.number());
            let objects = Objects(hash, (0..count).map(|_| (case.bytes(), case.number(), case.bytes())).collect());
            followed(&objects, &root, &path)
        }
        "find-any" => {
            let (hash, bytes) = (case.hash(), case.bytes());
            let tree = TreeRef { entries: case.entries(&bytes, hash) };
            let name = case.bytes();
            let [file, folder] = [false, true].map(|is_tree| tree.bisect_entry(name.as_bstr(), is_tree));
            found(&bytes, file.or(folder))
        }
        "find-many" => {
            let (hash, bytes) = (case.hash(), case.bytes());
            let tree = TreeRef { entries: case.entries(&bytes, hash) };
            let sought: Vec<_> = (0..case.number()).map(|_| (case.bytes(), case.flag())).collect();
            let answers = sought.iter().map(|(name, is_tree)| found(&bytes, tree.bisect_entry(name.as_bstr(), *is_tree)));
            answers.collect::<Vec<_>>().join(" ")
        }
        "write" => {
            let (hash, bytes) = (case.hash(), case.bytes());
            let tree = TreeRef { entries: case.entries(&bytes, hash) };
            let text = written(&tree);
            assert_eq!(text, written(&tree.to_owned()), "borrowed and owned trees write the same");
            text
        }
        "loose" => {
            let kind = [Kind::Commit, Kind::Tree, Kind::Blob, Kind::Tag][case.at() - 1];
            hex(&encode::loose_header(kind, case.number()))
        }
        "commit" => commit_read(case.hash(), &case.bytes()),
        "folded" => {
            let header = [b"k ".as_slice(), &case.bytes()].concat();
            match gix_object::commit::folded(&header) {
                Some((value, left)) => format!("ok {} {left}", hex(&value)),
                None => "no".into(),
            }
        }
        "commit-write" => commit_write(case),
        other => panic!("no such case: {other}"),
    }
}

/// Value, kind, the seven questions as one sum, the octal text, the word.
fn asked(mode: EntryMode) -> String {
    let kind = match mode.kind() {
        EntryKind::Tree => 0,
        EntryKind::Blob => 1,
        EntryKind::BlobExecutable => 2,
        EntryKind::Link => 3,
        EntryKind::Commit => 4,
    };
    let questions = [
        mode.is_tree(),
        mode.is_commit(),
        mode.is_link(),
        mode.is_no_tree(),
        mode.is_blob(),
        mode.is_executable(),
        mode.is_blob_or_symlink(),
    ];
    let sum: u32 = questions.iter().enumerate().map(|(i, yes)| (*yes as u32) << i).sum();
    let mut text = [0; 6];
    format!("{} {kind} {sum} {} {}", mode.value(), hex(mode.as_bytes(&mut text)), hex(mode.as_str().as_bytes()))
}

/// All entries, or where the iterator stood before the entry that it could not read.
fn tree_read(hash: gix_hash::Kind, bytes: &[u8]) -> String {
    let mut iter = TreeRefIter::from_bytes(bytes, hash);
    let mut one_by_one = Vec::new();
    loop {
        let place = iter.offset_to_next_entry(bytes);
        match iter.next() {
            Some(Ok(entry)) => one_by_one.push(entry),
            Some(Err(_)) => {
                assert!(TreeRef::from_bytes(bytes, hash).is_err(), "both readers refuse");
                return format!("no {place}");
            }
            None => break,
        }
    }
    let whole = TreeRef::from_bytes(bytes, hash).expect("both readers accept");
    assert_eq!(whole.entries, one_by_one, "both readers read the same");
    let entries: String = whole.entries.iter().map(|entry| entry_text(bytes, entry)).collect();
    format!("ok {}{entries}", whole.entries.len())
}

/// ` mode name-start name-end id-start`
fn entry_text(bytes: &[u8], entry: &EntryRef) -> String {
    let name = place(bytes, entry.filename);
    format!(" {} {name} {} {}", editor::bits(entry.mode), name + entry.filename.len(), place(bytes, entry.oid.as_bytes()))
}

/// The entry that was sought.
fn found(bytes: &[u8], entry: Option<EntryRef>) -> String {
    match entry {
        Some(entry) => format!("ok{}", entry_text(bytes, &entry)),
        None => "no".into(),
    }
}

/// Where a part of `whole` starts.
fn place(whole: &[u8], part: &[u8]) -> usize {
    part.as_ptr() as usize - whole.as_ptr() as usize
}

/// The size asked alone, whether writing succeeded, and the bytes written.
fn written(object: &dyn WriteTo) -> String {
    let mut out = Vec::new();
    let done = object.write_to(&mut out).is_ok();
    format!("{} {} {}", object.size(), if done { "ok" } else { "no" }, hex(&out))
}

/// Ranges, then parents, then headers (name range, and either `0` with the value's range or `1` with the unfolded bytes).
/// On a refusal, how many bytes were consumed before the field that failed.
fn commit_read(hash: gix_hash::Kind, bytes: &[u8]) -> String {
    let Ok(commit) = CommitRef::from_bytes(bytes, hash) else {
        return format!("no {}", gix_object::commit::consumed(bytes, hash));
    };
    let range = |part: &BStr| format!(" {} {}", place(bytes, part), place(bytes, part) + part.len());
    let mut text = format!("ok {}", place(bytes, commit.tree));
    text += &range(commit.author);
    text += &range(commit.committer);
    match commit.encoding {
        Some(encoding) => text += &format!(" 1{}", range(encoding)),
        None => text += " 0 0 0",
    }
    text += &range(commit.message);
    text += &format!(" {}", commit.parents.len());
    for parent in &commit.parents {
        text += &format!(" {}", place(bytes, parent));
    }
    text += &format!(" {}", commit.extra_headers.len());
    for (name, value) in &commit.extra_headers {
        text += &range(name);
        match value {
            Cow::Borrowed(value) => text += &format!(" 0{}", range(value)),
            Cow::Owned(value) => text += &format!(" 1 {}", hex(value)),
        }
    }
    text
}

/// Tree, parents, author, committer, encoding mark and bytes, headers as name and unfolded value, message: all as bytes.
fn commit_write(case: &mut Case) -> String {
    let tree = case.bytes();
    let parents: Vec<_> = (0..case.number()).map(|_| case.bytes()).collect();
    let (author, committer) = (case.bytes(), case.bytes());
    let (has_encoding, encoding) = (case.flag(), case.bytes());
    let headers: Vec<_> = (0..case.number()).map(|_| (case.bytes(), case.bytes())).collect();
    let message = case.bytes();
    written(&CommitRef {
        tree: tree.as_bstr(),
        parents: parents.iter().map(|p| p.as_bstr()).collect(),
        author: author.as_bstr(),
        committer: committer.as_bstr(),
        encoding: has_encoding.then_some(encoding.as_bstr()),
        message: message.as_bstr(),
        extra_headers: headers.iter().map(|(n, v)| (n.as_bstr(), Cow::Borrowed(v.as_bstr()))).collect(),
    })
}

fn hex(bytes: &[u8]) -> String {
    if bytes.is_empty() { "-".into() } else { bytes.iter().map(|b| format!("{b:02x}")).collect() }
}
