//! libgit2 over bytes in memory: the parsers that its own object lookup calls, with no repository and no hashing.
use std::ffi::{CStr, c_char, c_int, c_void};

mod c {
    use super::*;
    unsafe extern "C" {
        pub fn calloc(n: usize, size: usize) -> *mut c_void;
        pub fn git_libgit2_init() -> c_int;
        pub fn git_tree__parse_raw(tree: *mut c_void, data: *const u8, size: usize) -> c_int;
        pub fn git_tree__free(tree: *mut c_void);
        pub fn git_tree_entrycount(tree: *const c_void) -> usize;
        pub fn git_tree_entry_byindex(tree: *const c_void, i: usize) -> *const c_void;
        pub fn git_tree_entry_byname(tree: *const c_void, name: *const c_char) -> *const c_void;
        pub fn git_tree_entry_name(entry: *const c_void) -> *const c_char;
        pub fn git_tree_entry_id(entry: *const c_void) -> *const [u8; 20];
        pub fn git_tree_entry_filemode_raw(entry: *const c_void) -> u32;
        pub fn git_commit__parse_raw(commit: *mut c_void, data: *const u8, size: usize) -> c_int;
        pub fn git_commit__free(commit: *mut c_void);
        pub fn git_commit_parentcount(commit: *const c_void) -> u32;
        pub fn git_commit_tree_id(commit: *const c_void) -> *const [u8; 20];
        pub fn git_commit_message_raw(commit: *const c_void) -> *const c_char;
    }
}

pub fn start() {
    unsafe { c::git_libgit2_init() };
}

/// An object of either kind is smaller than this.
fn room() -> *mut c_void {
    unsafe { c::calloc(1, 1024) }
}

pub struct Tree(*mut c_void);

impl Tree {
    pub fn new() -> Tree {
        Tree(room())
    }
    pub fn parse(&mut self, s: &[u8]) -> bool {
        unsafe { c::git_tree__parse_raw(self.0, s.as_ptr(), s.len()) == 0 }
    }
    pub fn len(&self) -> usize {
        unsafe { c::git_tree_entrycount(self.0) }
    }
    pub fn entry(&self, i: usize) -> *const c_void {
        unsafe { c::git_tree_entry_byindex(self.0, i) }
    }
    pub fn find(&self, name: &CStr) -> *const c_void {
        unsafe { c::git_tree_entry_byname(self.0, name.as_ptr()) }
    }
}

/// Mode, name and id of an entry.
pub fn told<'a>(entry: *const c_void) -> (u32, &'a [u8], &'a [u8; 20]) {
    unsafe {
        let name = CStr::from_ptr(c::git_tree_entry_name(entry)).to_bytes();
        (c::git_tree_entry_filemode_raw(entry), name, &*c::git_tree_entry_id(entry))
    }
}

impl Drop for Tree {
    fn drop(&mut self) {
        unsafe { c::git_tree__free(self.0) }
    }
}

pub struct Commit(*mut c_void);

impl Commit {
    pub fn new() -> Commit {
        Commit(room())
    }
    pub fn parse(&mut self, s: &[u8]) -> bool {
        unsafe { c::git_commit__parse_raw(self.0, s.as_ptr(), s.len()) == 0 }
    }
    pub fn parents(&self) -> usize {
        unsafe { c::git_commit_parentcount(self.0) as usize }
    }
    pub fn tree(&self) -> &[u8; 20] {
        unsafe { &*c::git_commit_tree_id(self.0) }
    }
    pub fn message(&self) -> &[u8] {
        unsafe { CStr::from_ptr(c::git_commit_message_raw(self.0)).to_bytes() }
    }
}

impl Drop for Commit {
    fn drop(&mut self) {
        unsafe { c::git_commit__free(self.0) }
    }
}
