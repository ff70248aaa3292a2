//! Pairs (request A.6) as the bytes of a pair file: good ones and bad ones, and orders that respect them.

use crate::Random;

impl Random {
    /// So many pairs, of stops drawn at random.
    pub fn pairs(&mut self, n: usize, pairs: usize) -> Vec<u8> {
        let mut stops: Vec<u8> = self.order(n);
        stops.truncate(2 * pairs);
        stops
    }

    /// As many pairs as n stops can have or fewer, at times none.
    pub fn some_pairs(&mut self, n: usize) -> Vec<u8> {
        let pairs = self.below(n as u64 / 2 + 1) as usize;
        self.pairs(n, pairs)
    }

    /// No pairs as often as one or more; a single stop has none.
    pub fn maybe_paired(&mut self, n: usize) -> Vec<u8> {
        match self.below(2) {
            1 if n > 1 => {
                let pairs = 1 + self.below(n as u64 / 2) as usize;
                self.pairs(n, pairs)
            }
            _ => Vec::new(),
        }
    }

    /// Pairs that number 11 refuses: of odd length, too long, with a stop that is not there, with a stop twice, or with
    /// a stop of another pair.
    pub fn bad_pairs(&mut self, n: usize) -> Vec<u8> {
        let stops: Vec<u8> = self.order(n);
        let mut pairs = stops[..2 * self.below(n as u64 / 2 + 1) as usize].to_vec();
        let left = *stops.get(pairs.len()).unwrap_or(&stops[0]);
        let at = self.below(pairs.len().max(1) as u64) as usize;
        match self.below(5) {
            0 => pairs.push(left),
            1 => pairs.resize(self.pick(&[18, 20, 32, 256]), left),
            2 if pairs.is_empty() => pairs.extend([self.no_stop(n), left]),
            2 => pairs[at] = self.no_stop(n),
            3 if !pairs.is_empty() => pairs.extend(self.pick(&[[left, pairs[at]], [pairs[at], left]])),
            _ => pairs.extend([left, left]),
        }
        pairs
    }

    /// A byte that is none of the stops 1 to n.
    fn no_stop(&mut self, n: usize) -> u8 {
        self.pick(&[0, n as u8 + 1, 17, 128, 255])
    }

    /// A random order in which the two stops of a pair change places if they stand the wrong way round.
    pub fn order_with<S: From<u8> + PartialEq>(&mut self, n: usize, pairs: &[u8]) -> Vec<S> {
        let mut order: Vec<S> = self.order(n);
        for pair in pairs.chunks(2) {
            if !respects(pair, &order) {
                turn(&mut order, pair);
            }
        }
        assert!(respects(pairs, &order));
        order
    }

    /// A random order in which the stops of some pair, of which there is one at least, stand the wrong way round.
    pub fn order_against<S: From<u8> + PartialEq>(&mut self, n: usize, pairs: &[u8]) -> Vec<S> {
        let mut order: Vec<S> = self.order(n);
        let at = 2 * self.below(pairs.len() as u64 / 2) as usize;
        let pair = &pairs[at..at + 2];
        if respects(pair, &order) {
            turn(&mut order, pair);
        }
        assert!(!respects(pairs, &order));
        order
    }
}

/// The two stops of a pair in each other's place.
fn turn<S: From<u8> + PartialEq>(order: &mut [S], pair: &[u8]) {
    let places = [0, 1].map(|at| order.iter().position(|stop| *stop == pair[at].into()).unwrap());
    order.swap(places[0], places[1]);
}

/// Each drop of the order, or partial order, stands behind its pick-up.
pub fn respects<S: From<u8> + PartialEq>(pairs: &[u8], order: &[S]) -> bool {
    let place = |stop: u8| order.iter().position(|s| *s == stop.into()).unwrap_or(order.len());
    pairs.chunks(2).all(|pair| place(pair[1]) == order.len() || place(pair[0]) < place(pair[1]))
}
