//! Standard input to standard output in pieces of one size, each written when the reader has taken the one before.

use std::fs::File;
use std::io::{stdin, stdout, Read, Write};
use std::os::unix::io::AsFd;

extern "C" {
    fn ioctl(file: i32, request: u64, ...) -> i32;
}

/// How many bytes wait in a pipe: the same number on x86-64 and Arm.
const FIONREAD: u64 = 0x541B;
const PATIENCE: usize = 100_000;

/// Ends where nobody reads on.
pub fn copy(size: usize) {
    let mut bytes = Vec::new();
    stdin().read_to_end(&mut bytes).expect("standard input can be read");
    // as a file it has no buffer: a piece is one write
    let mut out = File::from(stdout().as_fd().try_clone_to_owned().expect("standard output is open"));
    for piece in bytes.chunks(size) {
        if out.write_all(piece).is_err() {
            return;
        }
        wait_until_taken();
    }
}

/// Or for some time: a reader that has ended takes nothing.
fn wait_until_taken() {
    for _ in 0..PATIENCE {
        let mut waiting = 0i32;
        // SAFETY: FIONREAD writes one int to the place that it is given
        if unsafe { ioctl(1, FIONREAD, &mut waiting) } != 0 || waiting == 0 {
            return;
        }
        std::thread::yield_now();
    }
}
