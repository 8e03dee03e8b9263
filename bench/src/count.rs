//! What is measured: instructions by valgrind's callgrind (switched on for the measured call alone, one dump a call), or time.
use std::{arch::asm, ffi::CString, hint::black_box, time::Instant};

/// A request to valgrind; nothing outside of it.
fn request(number: u64, argument: u64) {
    let words = [number, argument, 0, 0, 0, 0];
    unsafe {
        asm!(
            "rol rdi, 3", "rol rdi, 13", "rol rdi, 61", "rol rdi, 51", "xchg rbx, rbx",
            in("rax") words.as_ptr(), inout("rdx") 0u64 => _, out("rdi") _,
        );
    }
}

const CALLGRIND: u64 = (b'C' as u64) << 24 | (b'T' as u64) << 16;

#[derive(Clone, Copy, PartialEq)]
pub enum How {
    Instructions,
    Time,
}

/// Runs `call` once under the counter, or many times against the clock, and says `key` with what it cost.
/// A dump's name carries the key; times are printed as nanoseconds a call, the best of the rounds. A round of short calls has so many
/// of them that it takes some two microseconds, since the clock's step may be ten nanoseconds; what they give is dropped behind it.
pub fn measure<T>(how: How, key: &str, mut call: impl FnMut() -> T) {
    match how {
        How::Instructions => {
            let name = CString::new(key).unwrap();
            request(CALLGRIND + 4, 0);
            let kept = black_box(call());
            request(CALLGRIND + 5, 0);
            request(CALLGRIND + 3, name.as_ptr() as u64);
            drop(kept);
        }
        How::Time => {
            let (mut calls, mut best, mut rounds) = (1, f64::MAX, 0);
            let begin = Instant::now();
            while rounds < 6 || begin.elapsed().as_millis() < 60 {
                let mut kept = Vec::with_capacity(calls);
                let start = Instant::now();
                for _ in 0..calls {
                    kept.push(black_box(call()));
                }
                let took = start.elapsed().as_nanos() as f64 / calls as f64;
                if rounds < 3 {
                    calls = (2000.0 / took).clamp(1.0, 64.0) as usize;
                } else {
                    best = best.min(took);
                }
                rounds += 1;
            }
            println!("{key} {best:.1}");
        }
    }
}
