//! Pick-up before drop (request A.6 of document 02): the pairs of a pair file,
//! and which stops and orders they allow.

use crate::legs::Place;

/// A pair file's bytes at most: eight pairs.
pub const LONGEST_PAIRS: usize = 16;

/// Pick-up and drop of each pair; no stop stands in two of them, nor twice in
/// one.
pub struct Pairs(Vec<[Place; 2]>);

impl Pairs {
    pub fn none() -> Pairs {
        Pairs(Vec::new())
    }

    /// The pairs of a file for a day of n stops; None if it gets number 11.
    pub fn read(n: usize, file: &[u8]) -> Option<Pairs> {
        if file.len() % 2 != 0 || file.len() > LONGEST_PAIRS {
            return None;
        }
        let mut pairs = Pairs::none();
        for bytes in file.chunks(2) {
            let [pick_up, drop] = [bytes[0], bytes[1]].map(Place::from);
            let stops = (1..=n).contains(&pick_up) && (1..=n).contains(&drop);
            if !stops || pick_up == drop || pairs.have(pick_up) || pairs.have(drop) {
                return None;
            }
            pairs.0.push([pick_up, drop]);
        }
        Some(pairs)
    }

    fn have(&self, stop: Place) -> bool {
        self.0.iter().any(|pair| pair.contains(&stop))
    }

    /// The stop may be flown behind those flown: it is no drop, or its pick-up
    /// is among them.
    pub fn allow(&self, stop: Place, flown: &[Place]) -> bool {
        self.0.iter().all(|&[pick_up, drop]| drop != stop || flown.contains(&pick_up))
    }

    /// Each of the stops may be flown behind those before it.
    pub fn respected_by(&self, order: &[Place]) -> bool {
        order.iter().enumerate().all(|(at, &stop)| self.allow(stop, &order[..at]))
    }
}
