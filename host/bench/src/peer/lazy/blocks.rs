//! The least bounds of blocks of records: a block has 2^shift places, and gone records have the largest number.

use super::super::node::{at, find, Record, BOUND, NONE, SET};

/// How many minima are looked at together.
const RUN: usize = 32;

pub struct Blocks<const BLOCKS: usize> {
    minima: [u32; BLOCKS],
    shift: u32,
}

impl<const BLOCKS: usize> Blocks<BLOCKS> {
    pub fn new() -> Blocks<BLOCKS> {
        Blocks { minima: [NONE; BLOCKS], shift: 0 }
    }

    /// Forgets all records; the blocks become as small as they can for so many.
    pub fn clear(&mut self, records: usize) {
        self.minima.fill(NONE);
        self.shift = 0;
        while BLOCKS << self.shift < records {
            self.shift += 1;
        }
    }

    /// Record i, the last one, has joined.
    #[inline(always)]
    pub fn note(&mut self, i: usize, bound: u32) {
        if i >> self.shift == BLOCKS {
            self.widen();
        }
        let least = &mut self.minima[i >> self.shift];
        *least = bound.min(*least);
    }

    /// Two blocks become one.
    #[cold]
    fn widen(&mut self) {
        self.shift += 1;
        for k in 0..BLOCKS / 2 {
            self.minima[k] = self.minima[2 * k].min(self.minima[2 * k + 1]);
        }
        self.minima[BLOCKS / 2..].fill(NONE);
    }

    /// The places of a block, of so many records.
    #[inline(always)]
    fn places(&self, k: usize, used: usize) -> std::ops::Range<usize> {
        k << self.shift..((k + 1) << self.shift).min(used)
    }

    /// Record i, which had this bound, is gone.
    #[inline(always)]
    pub fn forget(&mut self, records: &[Record], i: usize, bound: u32) {
        let k = i >> self.shift;
        if self.minima[k] == bound {
            let block = &records[self.places(k, records.len())];
            self.minima[k] = block.iter().fold(NONE, |least, x| least.min(x[BOUND]));
        }
    }

    /// The blocks that so many records, one or more, reach into.
    #[inline(always)]
    fn in_use(&self, used: usize) -> &[u32] {
        &self.minima[..((used - 1) >> self.shift) + 1]
    }

    /// The first record with the least bound that has not all stops, or else the first with it.
    #[inline(always)]
    pub fn first_least(&self, records: &[Record], all: u32) -> usize {
        let blocks = self.in_use(records.len());
        let (mut bound, mut from) = (NONE, 0);
        for (k, run) in blocks.chunks(RUN).enumerate() {
            let least = least(run);
            if least < bound {
                (bound, from) = (least, k * RUN);
            }
        }
        for k in (from..blocks.len()).filter(|&k| blocks[k] == bound) {
            let block = self.places(k, records.len());
            let i = find(&records[..block.end], block.start, |x| (x[BOUND] == bound) & (x[SET] != all));
            if i < block.end {
                return i;
            }
        }
        find(records, from << self.shift, |x| x[BOUND] == bound)
    }

    /// The last such record, or else the last with the least bound.
    #[inline(always)]
    pub fn last_least(&self, records: &[Record], all: u32) -> usize {
        let blocks = self.in_use(records.len());
        let bound = least(blocks);
        for k in (0..blocks.len()).rev().filter(|&k| blocks[k] == bound) {
            let mut block = self.places(k, records.len()).rev();
            if let Some(i) = block.find(|&i| at(records, i)[BOUND] == bound && at(records, i)[SET] != all) {
                return i;
            }
        }
        records.iter().rposition(|x| x[BOUND] == bound).expect("a record has it")
    }

    /// The first record that is not gone.
    #[inline(always)]
    pub fn first(&self, records: &[Record]) -> usize {
        let k = self.in_use(records.len()).iter().position(|&least| least != NONE).expect("a record is active");
        self.places(k, records.len()).find(|&i| at(records, i)[BOUND] != NONE).expect("its block has it")
    }
}

#[inline(always)]
fn least(bounds: &[u32]) -> u32 {
    bounds.iter().fold(NONE, |least, &bound| least.min(bound))
}
