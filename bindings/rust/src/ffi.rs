//! The calls of include/sarpukten.h. A fixed array of the header is a reference to an array here, bytes and lists are pointer and length.
//! The number that a call returns is the first of its answer as well.

/// The lengths of the answers, of an entry's record, of a sought name's and what is found for it, of an item's, of a header's and of a commit's
/// parts; and the longest id in bytes and in digits.
pub const COUNT_ANSWER: usize = 4;
pub const MODE_ANSWER: usize = 4;
pub const STEP_ANSWER: usize = 10;
pub const LOOKUP_ANSWER: usize = 5;
pub const COMMIT_ANSWER: usize = 16;
pub const BUNDLE_ANSWER: usize = 6;
pub const OBJECT_ANSWER: usize = 6;
pub const PATH_ANSWER: usize = 5;
pub const MEND_ANSWER: usize = 5;
pub const QUESTIONS: usize = 7;
pub const WORD: usize = 6;
pub const ENTRY: usize = 5;
pub const SOUGHT: usize = 3;
pub const FOUND: usize = 3;
pub const ITEM: usize = 6;
pub const HEADER: usize = 5;
pub const PARTS: usize = 10;
pub const ID: usize = 32;
pub const HEX: usize = 64;
/// What a check in pieces keeps: numbers, an entry's first bytes, one name, and the lengths of the names that are open.
pub const MARKS: usize = 18;
pub const FIRST: usize = 8;
pub const HELD: usize = 4096;
pub const ENDS: usize = 4097;

extern "C" {
    pub fn sarpukten_mode_read(text: *const u8, text_len: usize, answer: &mut [usize; MODE_ANSWER]) -> usize;
    pub fn sarpukten_mode_from_number(n: u32, answer: &mut [usize; MODE_ANSWER]) -> usize;
    pub fn sarpukten_mode_value(mode: u16) -> u16;
    pub fn sarpukten_mode_kind(mode: u16) -> u16;
    pub fn sarpukten_mode_ask(mode: u16, answer: &mut [usize; QUESTIONS]);
    pub fn sarpukten_mode_word(mode: u16, word: &mut [u8; WORD]) -> usize;
    pub fn sarpukten_mode_text(mode: u16, text: &mut [u8; WORD]) -> usize;
    pub fn sarpukten_name_order(a: *const u8, a_len: usize, a_is_tree: bool, b: *const u8, b_len: usize, b_is_tree: bool) -> i8;
    pub fn sarpukten_tree_step(bytes: *const u8, bytes_len: usize, h: usize, at: usize, answer: &mut [usize; STEP_ANSWER]) -> usize;
    pub fn sarpukten_read_tree(
        bytes: *const u8,
        bytes_len: usize,
        h: usize,
        records: *mut usize,
        records_len: usize,
        answer: &mut [usize; COUNT_ANSWER],
    ) -> usize;
    pub fn sarpukten_read_tree_strict(
        bytes: *const u8,
        bytes_len: usize,
        h: usize,
        rules: u16,
        records: *mut usize,
        records_len: usize,
        answer: &mut [usize; COUNT_ANSWER],
    ) -> usize;
    pub fn sarpukten_bisect_entry(
        object: *const u8,
        object_len: usize,
        h: usize,
        records: *const usize,
        records_len: usize,
        name: *const u8,
        name_len: usize,
        is_folder: bool,
        answer: &mut [usize; LOOKUP_ANSWER],
    ) -> usize;
    pub fn sarpukten_bisect_any(
        object: *const u8,
        object_len: usize,
        h: usize,
        records: *const usize,
        records_len: usize,
        name: *const u8,
        name_len: usize,
        answer: &mut [usize; LOOKUP_ANSWER],
    ) -> usize;
    pub fn sarpukten_bisect_entries(
        object: *const u8,
        object_len: usize,
        h: usize,
        records: *const usize,
        records_len: usize,
        names: *const u8,
        names_len: usize,
        sought: *const usize,
        sought_len: usize,
        found: *mut usize,
        found_len: usize,
        answer: &mut [usize; COUNT_ANSWER],
    ) -> usize;
    pub fn sarpukten_most_comparisons(n: usize) -> usize;
    pub fn sarpukten_tree_size(
        bytes: *const u8,
        bytes_len: usize,
        h: usize,
        records: *const usize,
        records_len: usize,
        answer: &mut [usize; COUNT_ANSWER],
    ) -> usize;
    pub fn sarpukten_write_tree(
        bytes: *const u8,
        bytes_len: usize,
        h: usize,
        records: *const usize,
        records_len: usize,
        out: *mut u8,
        out_len: usize,
        answer: &mut [usize; COUNT_ANSWER],
    ) -> usize;
    pub fn sarpukten_read_commit(
        bytes: *const u8,
        bytes_len: usize,
        h: usize,
        parents: *mut usize,
        parents_len: usize,
        headers: *mut usize,
        headers_len: usize,
        answer: &mut [usize; COMMIT_ANSWER],
    ) -> usize;
    pub fn sarpukten_unfold(
        bytes: *const u8,
        bytes_len: usize,
        header: &[usize; HEADER],
        out: *mut u8,
        out_len: usize,
        answer: &mut [usize; COUNT_ANSWER],
    ) -> usize;
    pub fn sarpukten_commit_size(
        bytes: *const u8,
        bytes_len: usize,
        h: usize,
        parts: &[usize; PARTS],
        parents: *const usize,
        parents_len: usize,
        headers: *const usize,
        headers_len: usize,
        answer: &mut [usize; COUNT_ANSWER],
    ) -> usize;
    pub fn sarpukten_write_commit(
        bytes: *const u8,
        bytes_len: usize,
        h: usize,
        parts: &[usize; PARTS],
        parents: *const usize,
        parents_len: usize,
        headers: *const usize,
        headers_len: usize,
        out: *mut u8,
        out_len: usize,
        answer: &mut [usize; COUNT_ANSWER],
    ) -> usize;
    pub fn sarpukten_loose_header(kind: usize, size: u64, out: *mut u8, out_len: usize, answer: &mut [usize; COUNT_ANSWER]) -> usize;
    pub fn sarpukten_id_of_hex(
        digits: *const u8,
        digits_len: usize,
        out: *mut u8,
        out_len: usize,
        answer: &mut [usize; COUNT_ANSWER],
    ) -> usize;
    pub fn sarpukten_mend_tree(
        bytes: *const u8,
        bytes_len: usize,
        h: usize,
        fates: *mut usize,
        fates_len: usize,
        out: *mut u8,
        out_len: usize,
        answer: &mut [usize; MEND_ANSWER],
    ) -> usize;
    pub fn sarpukten_put_in_tree(
        bytes: *const u8,
        bytes_len: usize,
        h: usize,
        rules: u16,
        mode: usize,
        name: *const u8,
        name_len: usize,
        id: *const u8,
        id_len: usize,
        out: *mut u8,
        out_len: usize,
        answer: &mut [usize; COUNT_ANSWER],
    ) -> usize;
    pub fn sarpukten_remove_from_tree(
        bytes: *const u8,
        bytes_len: usize,
        h: usize,
        rules: u16,
        name: *const u8,
        name_len: usize,
        out: *mut u8,
        out_len: usize,
        answer: &mut [usize; COUNT_ANSWER],
    ) -> usize;
    pub fn sarpukten_hex_of_id(id: *const u8, id_len: usize, out: *mut u8, out_len: usize, answer: &mut [usize; COUNT_ANSWER]) -> usize;
    pub fn sarpukten_export_tree(
        bytes: *const u8,
        bytes_len: usize,
        h: usize,
        rules: u16,
        out: *mut u8,
        out_len: usize,
        answer: &mut [usize; COUNT_ANSWER],
    ) -> usize;
    pub fn sarpukten_import_tree(
        text: *const u8,
        text_len: usize,
        h: usize,
        rules: u16,
        out: *mut u8,
        out_len: usize,
        answer: &mut [usize; COUNT_ANSWER],
    ) -> usize;
    pub fn sarpukten_check_bundle(bundle: *const u8, bundle_len: usize, answer: &mut [usize; BUNDLE_ANSWER]) -> usize;
    pub fn sarpukten_bundle_object(
        bundle: *const u8,
        bundle_len: usize,
        id: *const u8,
        id_len: usize,
        answer: &mut [usize; OBJECT_ANSWER],
    ) -> usize;
    pub fn sarpukten_follow_path(
        bundle: *const u8,
        bundle_len: usize,
        root: *const u8,
        root_len: usize,
        path: *const u8,
        path_len: usize,
        answer: &mut [usize; PATH_ANSWER],
        id: &mut [u8; ID],
    ) -> usize;
    pub fn sarpukten_compare_trees(
        bundle: *const u8,
        bundle_len: usize,
        left: *const u8,
        left_len: usize,
        right: *const u8,
        right_len: usize,
        items: *mut usize,
        items_len: usize,
        paths: *mut u8,
        paths_len: usize,
        answer: &mut [usize; COUNT_ANSWER],
    ) -> usize;
    pub fn sarpukten_check_start(h: usize, rules: u16, marks: &mut [usize; MARKS], first: &mut [u8; FIRST]) -> usize;
    pub fn sarpukten_check_piece(
        name: &mut [u8; HELD],
        ends: &mut [u32; ENDS],
        marks: &mut [usize; MARKS],
        first: &mut [u8; FIRST],
        piece: *const u8,
        piece_len: usize,
    ) -> usize;
    pub fn sarpukten_check_end(marks: &[usize; MARKS], first: &[u8; FIRST], answer: &mut [usize; COUNT_ANSWER]) -> usize;
}
