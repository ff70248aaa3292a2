//! The report ("The report", with mark and floor from request A.3 of document
//! 02) and the pool's words ("The pool").

use crate::legs::{Place, MOST_STOPS};
use crate::node::Node;
use crate::run::{End, State, Upper};

/// Words in a record.
pub const WORDS: usize = 6;

/// The mark of a run that its budget stopped.
pub const STOPPED: u32 = 1;

/// Bits of a stop in a word of the order, and stops in such a word.
const STOP_BITS: usize = 4;
const WORD_STOPS: usize = 8;

#[derive(Clone, Copy, PartialEq, Eq, Debug, Default)]
pub struct Report {
    pub number: u32,
    /// `STOPPED`, or 0.
    pub mark: u32,
    pub cost: u32,
    /// Of a stopped run the least bound that is active, of others 0.
    pub floor: u32,
    /// Zeros past n.
    pub order: [u32; MOST_STOPS],
    pub branched: u64,
    pub generated: u64,
    pub eliminated: u64,
    pub active: u64,
    pub most: u64,
}

impl Report {
    /// A number from 1 to 6 or 11, and zeros.
    pub fn refusal(number: u32) -> Report {
        Report { number, ..Report::default() }
    }

    pub fn of(state: &State, end: End) -> Report {
        let mut report = Report {
            branched: state.branchings(),
            generated: state.generated,
            eliminated: state.eliminated,
            active: state.active.len() as u64,
            most: state.most,
            ..Report::default()
        };
        match end {
            End::Full => report.number = 7,
            End::Finished => {
                assert!(state.upper.cost.is_some(), "a finished run has an order");
                report.show(&state.upper);
            }
            End::Stopped => {
                report.mark = STOPPED;
                report.floor = state.least_bound();
                report.show(&state.upper);
            }
        }
        report
    }

    /// U and its order, or zeros if there is none yet.
    fn show(&mut self, best: &Upper) {
        self.cost = best.cost.unwrap_or(0);
        self.order = in_places(&best.order);
    }

    /// Branched, generated, eliminated, active, most.
    pub fn counts(&self) -> [u64; 5] {
        [self.branched, self.generated, self.eliminated, self.active, self.most]
    }
}

/// An order in sixteen places, zeros past its last stop.
pub fn in_places(order: &[Place]) -> [u32; MOST_STOPS] {
    let mut places = [0; MOST_STOPS];
    for (i, &stop) in order.iter().enumerate() {
        places[i] = stop as u32;
    }
    places
}

/// Size, set, path cost, bound, and two words for the order.
pub fn record(node: &Node) -> [u32; WORDS] {
    let mut order = [0u32; 2];
    for (i, &stop) in node.stops.iter().enumerate() {
        order[i / WORD_STOPS] |= (stop as u32 - 1) << (STOP_BITS * (i % WORD_STOPS));
    }
    [node.size() as u32, node.set, node.path, node.bound, order[0], order[1]]
}

/// The active nodes in order of generation, behind them those branched in that of branching, if they are kept; the rest
/// of the pool is cleared.
pub fn write_pool(state: &State, with_branched: bool, pool: &mut [u32]) {
    pool.fill(0);
    let branched = if with_branched { &state.branched[..] } else { &[] };
    let nodes = state.active.iter().chain(branched);
    for (place, node) in pool.chunks_exact_mut(WORDS).zip(nodes) {
        place.copy_from_slice(&record(node));
    }
}
