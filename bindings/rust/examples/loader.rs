//! The loader's job: reads a tree object strictly from a file, finds the guest's folder by its name and prints the folder's id in hex;
//! of several folders a line each, in the order of their names.
//!
//!     loader FILE FOLDER.. [sha256]
//!     loader BUNDLE ROOT PATH..
//!
//! A file that begins with `GOB` is a bundle: each path is followed from the root tree, and the id that it leads to is printed with the kind
//! and the length of the object, both 0 where the bundle does not hold it.
//!
//! Exit status 0: the ids are printed. 1: one line `refused N at P`, where N is 15 if there is no such folder or path; of several, this line
//! stands for each that is not there. 2: the file cannot be read, or wrong arguments. examples/loader.c does the same.
use sarpukten::{Bundle, EntryRef, Error, Kind, ObjectId, Rules, StrictTree, MOST_BYTES};
use std::env;
use std::ffi::OsStr;
use std::fs::File;
use std::io::{self, Read};
use std::os::unix::ffi::OsStrExt;
use std::process::ExitCode;

/// The file's bytes. It stops past the longest object that the library takes.
fn read_file(path: &OsStr) -> io::Result<Vec<u8>> {
    let mut bytes = Vec::new();
    File::open(path)?.take(MOST_BYTES as u64 + 1).read_to_end(&mut bytes)?;
    Ok(bytes)
}

/// The folders' ids, those that are there.
fn folders(object: &[u8], kind: Kind, names: &[&[u8]]) -> Result<Vec<Option<ObjectId>>, Error> {
    let tree = StrictTree::from_bytes(object, kind, Rules::Present)?;
    let found = match names {
        [name] => vec![tree.bisect_entry(name, true)],
        _ => tree.bisect_entries(&names.iter().map(|&name| (name, true)).collect::<Vec<_>>())?,
    };
    let id = |entry: EntryRef| entry.object_id().expect("an entry of a tree that was read has an id");
    Ok(found.into_iter().map(|entry| entry.map(id)).collect())
}

/// Paths through the trees of a bundle: a line each.
fn paths(bytes: &[u8], root: &[u8], ways: &[&[u8]]) -> ExitCode {
    let Some(root) = ObjectId::from_hex(root) else {
        eprintln!("loader: the root is no id");
        return ExitCode::from(2);
    };
    let mut status = 0;
    for way in ways {
        match Bundle::new(bytes).and_then(|bundle| Ok((bundle.follow(&root, way)?, bundle))) {
            Ok((Some((_, id)), bundle)) => match bundle.object(&id) {
                Some(object) => println!("{id} {} {}", object.kind as u8, object.data.len()),
                None => println!("{id} 0 0"),
            },
            Ok((None, _)) => {
                println!("refused 15 at 0");
                status = 1;
            }
            Err(e) => {
                println!("refused {} at {}", e.number, e.place);
                status = 1;
            }
        }
    }
    ExitCode::from(status)
}

fn main() -> ExitCode {
    let args: Vec<_> = env::args_os().collect();
    let (file, names, kind) = match &args[..] {
        [_, file, names @ .., kind] if !names.is_empty() && kind == "sha256" => (file, names, Kind::Sha256),
        [_, file, names @ ..] if !names.is_empty() => (file, names, Kind::Sha1),
        _ => {
            eprintln!("usage: loader FILE FOLDER.. [sha256], or loader BUNDLE ROOT PATH..");
            return ExitCode::from(2);
        }
    };
    let names: Vec<_> = names.iter().map(|name| name.as_bytes()).collect();
    let object = match read_file(file) {
        Ok(object) => object,
        Err(e) => {
            eprintln!("loader: cannot read {}: {e}", file.to_string_lossy());
            return ExitCode::from(2);
        }
    };
    if object.starts_with(b"GOB") {
        return paths(&object, names[0], &names[1..]);
    }
    // A lookup answers `guest/file` as it answers `guest`.
    if names.iter().any(|name| name.contains(&b'/')) {
        eprintln!("loader: a folder's name has no slash");
        return ExitCode::from(2);
    }
    match folders(&object, kind, &names) {
        Ok(ids) => {
            for id in &ids {
                match id {
                    Some(id) => println!("{id}"),
                    None => println!("refused 15 at 0"),
                }
            }
            ExitCode::from(u8::from(ids.contains(&None)))
        }
        Err(e) => {
            println!("refused {} at {}", e.number, e.place);
            ExitCode::from(1)
        }
    }
}
