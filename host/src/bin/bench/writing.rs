//! Writing: both writers, on the same orders and parts.

use crate::measure::medians;
use crate::reading::print_both;
use duskstall_host::independent::writer::Unwritten;
use duskstall_host::testing::chains::calls_to_write;
use duskstall_host::testing::writing::Call;
use duskstall_host::MESSAGE_LIMIT;
use std::hint::black_box;

/// Bytes written in each batch, by as many calls as that takes.
const BATCH: usize = 200_000;

pub fn messages() {
    for (name, call) in calls_to_write() {
        let (mut proved, mut rust) = ([0; MESSAGE_LIMIT], [0; MESSAGE_LIMIT]);
        let size = call.by_library(&mut proved) as usize;
        assert_eq!(call.independently(&mut rust), Ok(size));
        assert_eq!(proved, rust);
        let mut by_library = || {
            black_box(black_box(&call).by_library(black_box(&mut proved)));
        };
        let mut independently = || {
            let _ = black_box(rust_write(black_box(&call), black_box(&mut rust)));
        };
        let times = medians(BATCH / size, [&mut by_library, &mut independently]);
        print_both(&format!("write {name:8}"), size, times);
    }
}

/// Not inlined, as a call of the library cannot be.
#[inline(never)]
fn rust_write(call: &Call, buffer: &mut [u8]) -> Result<usize, Unwritten> {
    call.independently(buffer)
}
