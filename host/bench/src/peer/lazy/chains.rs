//! Chains of a lane of records, the active or the branched ones: each record has, in its size word, the link to the
//! last one before it with the same bucket, and a head has the last of all. A link is a place and one more; 0 is none.

use super::super::node::{at, last, Record, SET, SIZE};

pub struct Chains<const HEADS: usize> {
    heads: [u32; HEADS],
}

impl<const HEADS: usize> Chains<HEADS> {
    pub fn new() -> Chains<HEADS> {
        Chains { heads: [0; HEADS] }
    }

    pub fn clear(&mut self) {
        self.heads.fill(0);
    }

    /// A hash of the set and the last stop: what dominates a node has its bucket.
    #[inline(always)]
    fn bucket(x: &Record, size: u32) -> usize {
        let key = x[SET] + ((last(x, size) as u32) << 16);
        (key.wrapping_mul(2_654_435_769) >> (32 - HEADS.trailing_zeros())) as usize
    }

    /// The link to the last record with the bucket of a node that has its size.
    #[inline(always)]
    pub fn head(&self, x: &Record) -> u32 {
        self.heads[Self::bucket(x, x[SIZE])]
    }

    /// A node that has its size joins the lane at place i; its size word becomes the link.
    #[inline(always)]
    pub fn join(&mut self, i: usize, x: &mut Record) {
        let head = &mut self.heads[Self::bucket(x, x[SIZE])];
        x[SIZE] = *head;
        *head = i as u32 + 1;
    }

    /// The lane's last record leaves it.
    #[inline(always)]
    pub fn leave(&mut self, x: &Record) {
        self.heads[Self::bucket(x, x[SET].count_ones())] = x[SIZE];
    }
}

/// Where walks of the second lane stand among those of a step.
const LANE: usize = 32;

/// Walks of the children's chains in two lanes. They go on side by side, so that none waits for another's records.
pub struct Walks {
    links: [u32; 2 * LANE],
    /// The walks that are not at their end.
    pub going: u64,
}

impl Walks {
    #[inline(always)]
    pub fn new() -> Walks {
        Walks { links: [0; 2 * LANE], going: 0 }
    }

    /// Begins a walk from a head, for the child in slot k.
    #[inline(always)]
    pub fn begin(&mut self, lane: usize, k: usize, head: u32) {
        self.links[LANE * lane + k] = head;
        self.going |= ((head != 0) as u64) << (LANE * lane + k);
    }

    /// Each walk goes on by one record, and says of it, of its lane and of its child whether that child's are over.
    #[inline(always)]
    pub fn go(&mut self, pool: &[Record], mut over: impl FnMut(usize, usize, &Record) -> bool) {
        let mut left = self.going;
        while left != 0 {
            let walk = left.trailing_zeros() as usize;
            left &= left - 1;
            let y = at(pool, self.links[walk] as usize - 1);
            self.links[walk] = y[SIZE];
            self.going ^= ((y[SIZE] == 0) as u64) << walk;
            let k = walk % LANE;
            if over(walk / LANE, k, y) {
                self.going &= !((1 << k) | (1 << (LANE + k)));
                left &= self.going;
            }
        }
    }
}
