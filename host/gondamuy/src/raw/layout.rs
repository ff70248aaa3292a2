//! The sizes and places that the library was built with, as include/gondamuy.h asserts them too.

use std::mem::{align_of, offset_of, size_of};

use super::{FirstOrder, Job, Reading, Record, Report, Written};
use crate::sizes::RECORD_WORDS;

macro_rules! layout {
    ($type:ident, $size:literal: $($field:ident $place:literal),+) => {
        const _: () = assert!(size_of::<$type>() == $size);
        $(const _: () = assert!(offset_of!($type, $field) == $place);)+
    };
}

layout!(Job, 16: n 0, selection 4, rules 8, bound 12);
layout!(Report, 72: number 0, mark 4, cost 8, floor 12, order 16,
    branched 32, generated 40, eliminated 48, active 56, most 64);
layout!(FirstOrder, 24: number 0, cost 4, order 8);
layout!(Reading, 1196: number 0, job 4, table 20, start 1176, stops 1192);
layout!(Written, 16: number 0, length 8);
layout!(Record, 24: size 0, set 4, path 8, bound 12, first 16, second 20);

// Whole words and nothing between or behind them: what `words` rests on.
const _: () = assert!(size_of::<Record>() == RECORD_WORDS * size_of::<u32>());
const _: () = assert!(align_of::<Record>() == align_of::<u32>());
