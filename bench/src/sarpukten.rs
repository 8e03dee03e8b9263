//! Sarpukten by its C names: slices are a pointer and a length, answers are numbers.
mod c {
    unsafe extern "C" {
        pub fn sarpukten_read_tree(s: *const u8, n: usize, h: usize, out: *mut usize, room: usize, answer: *mut [usize; 4]);
        pub fn sarpukten_read_tree_strict(s: *const u8, n: usize, h: usize, rules: u16, out: *mut usize, room: usize, answer: *mut [usize; 4]);
        pub fn sarpukten_bisect_entry(s: *const u8, n: usize, h: usize, records: *const usize, many: usize, name: *const u8, len: usize, folder: bool, answer: *mut [usize; 5]);
        pub fn sarpukten_bisect_entries(
            s: *const u8, n: usize, h: usize, records: *const usize, many: usize, names: *const u8, len: usize, sought: *const usize, asked: usize, answers: *mut usize, room: usize,
            answer: *mut [usize; 4],
        );
        pub fn sarpukten_write_tree(s: *const u8, n: usize, h: usize, records: *const usize, many: usize, out: *mut u8, room: usize, answer: *mut [usize; 4]);
        pub fn sarpukten_write_commit(
            s: *const u8, n: usize, h: usize, parts: *const [usize; 10], parents: *const usize, np: usize, headers: *const usize, nh: usize, out: *mut u8, room: usize, answer: *mut [usize; 4],
        );
        pub fn sarpukten_read_commit(s: *const u8, n: usize, h: usize, parents: *mut usize, np: usize, headers: *mut usize, nh: usize, answer: *mut [usize; 16]);
    }
}

/// Number, place, part, count; the records are in `out`.
pub fn read_tree(s: &[u8], out: &mut [usize]) -> [usize; 4] {
    let mut answer = [0; 4];
    unsafe { c::sarpukten_read_tree(s.as_ptr(), s.len(), 20, out.as_mut_ptr(), out.len(), &mut answer) };
    answer
}

pub fn read_tree_strict(s: &[u8], out: &mut [usize]) -> [usize; 4] {
    let mut answer = [0; 4];
    unsafe { c::sarpukten_read_tree_strict(s.as_ptr(), s.len(), 20, 2, out.as_mut_ptr(), out.len(), &mut answer) };
    answer
}

/// Number, place, part, index, comparisons.
pub fn bisect_entry(s: &[u8], records: &[usize], name: &[u8], folder: bool) -> [usize; 5] {
    let mut answer = [0; 5];
    unsafe { c::sarpukten_bisect_entry(s.as_ptr(), s.len(), 20, records.as_ptr(), records.len(), name.as_ptr(), name.len(), folder, &mut answer) };
    answer
}

/// Number, place, part, count; the answers are in `answers`, three numbers each.
pub fn bisect_entries(s: &[u8], records: &[usize], names: &[u8], sought: &[usize], answers: &mut [usize]) -> [usize; 4] {
    let mut answer = [0; 4];
    unsafe {
        c::sarpukten_bisect_entries(
            s.as_ptr(), s.len(), 20, records.as_ptr(), records.len(), names.as_ptr(), names.len(), sought.as_ptr(), sought.len(), answers.as_mut_ptr(), answers.len(), &mut answer,
        )
    };
    answer
}

pub fn write_tree(s: &[u8], records: &[usize], out: &mut [u8]) -> [usize; 4] {
    let mut answer = [0; 4];
    unsafe { c::sarpukten_write_tree(s.as_ptr(), s.len(), 20, records.as_ptr(), records.len(), out.as_mut_ptr(), out.len(), &mut answer) };
    answer
}

/// Number, place, part, field, parents, headers, then the ten parts.
pub fn read_commit(s: &[u8], parents: &mut [usize], headers: &mut [usize]) -> [usize; 16] {
    let mut answer = [0; 16];
    unsafe { c::sarpukten_read_commit(s.as_ptr(), s.len(), 20, parents.as_mut_ptr(), parents.len(), headers.as_mut_ptr(), headers.len(), &mut answer) };
    answer
}

pub fn write_commit(s: &[u8], parts: &[usize; 10], parents: &[usize], headers: &[usize], out: &mut [u8]) -> [usize; 4] {
    let mut answer = [0; 4];
    unsafe {
        c::sarpukten_write_commit(s.as_ptr(), s.len(), 20, parts, parents.as_ptr(), parents.len(), headers.as_ptr(), headers.len(), out.as_mut_ptr(), out.len(), &mut answer)
    };
    answer
}
