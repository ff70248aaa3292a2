//! The functions of the static library as C sees them: a slice is a pointer and a length.

use super::{FirstOrder, Job, Reading, Report, Written};

extern "C" {
    pub fn gondamuy_plan(
        job: Job,
        table: *const u32,
        table_len: usize,
        start: *const u8,
        start_len: usize,
        pairs: *const u8,
        pairs_len: usize,
        budget: u64,
        pool: *mut u32,
        pool_len: usize,
    ) -> Report;

    pub fn gondamuy_first_order(
        n: u32,
        bound: u32,
        table: *const u32,
        table_len: usize,
        pairs: *const u8,
        pairs_len: usize,
    ) -> FirstOrder;

    pub fn gondamuy_read(file: *const u8, file_len: usize) -> Reading;

    pub fn gondamuy_write(
        job: Job,
        table: *const u32,
        table_len: usize,
        start: *const u8,
        start_len: usize,
        buffer: *mut u8,
        buffer_len: usize,
    ) -> Written;
}
