//! Partial orders, their bounds, and dominance (document 01, "Nodes", with the
//! landings of request A.4 of document 02, the days away of request A.5, the
//! pairs of request A.6 and the ties of request A.8).

use crate::legs::{Ends, Legs, Place};
use crate::pairs::Pairs;

#[derive(Clone, Copy, PartialEq, Eq, Debug)]
pub enum Bound {
    Plain,
    Close,
    /// Number 2, plain for a day that ends away (request A.5).
    PlainAway,
    /// Number 3, close for such a day.
    CloseAway,
}

impl Bound {
    /// Where the day ends for which the bound is.
    pub fn ends(self) -> Ends {
        match self {
            Bound::Plain | Bound::Close => Ends::Home,
            Bound::PlainAway | Bound::CloseAway => Ends::Away,
        }
    }
}

#[derive(Clone, PartialEq, Eq, Debug)]
pub struct Node {
    /// The stops flown, first to last.
    pub stops: Vec<Place>,
    /// Stop s adds 2 to the power s-1.
    pub set: u32,
    /// Legs flown so far and their landings; the leg home is never in it, nor
    /// is the landing there.
    pub path: u32,
    pub bound: u32,
}

impl Node {
    /// The empty partial order e.
    pub fn empty(legs: &Legs, kind: Bound) -> Node {
        let mut e = Node { stops: Vec::new(), set: 0, path: 0, bound: 0 };
        e.bound = e.bound_by(legs, kind);
        e
    }

    pub fn size(&self) -> usize {
        self.stops.len()
    }

    pub fn is_complete(&self, legs: &Legs) -> bool {
        self.size() == legs.n
    }

    /// The last place: home for e.
    pub fn last(&self) -> Place {
        self.stops.last().copied().unwrap_or(0)
    }

    /// The stops not yet flown, ascending.
    pub fn unflown(&self, legs: &Legs) -> Vec<Place> {
        (1..=legs.n).filter(|s| !self.stops.contains(s)).collect()
    }

    pub fn extended(&self, stop: Place, legs: &Legs, kind: Bound) -> Node {
        let mut stops = self.stops.clone();
        stops.push(stop);
        let path = self.path + legs.flying(self.last(), stop);
        let set = self.set | 1 << (stop - 1);
        let mut child = Node { stops, set, path, bound: 0 };
        child.bound = child.bound_by(legs, kind);
        child
    }

    /// By each stop not yet flown that the pairs allow, ascending.
    pub fn children(&self, legs: &Legs, kind: Bound, pairs: &Pairs) -> Vec<Node> {
        let allowed = self.unflown(legs).into_iter().filter(|&s| pairs.allow(s, &self.stops));
        allowed.map(|s| self.extended(s, legs, kind)).collect()
    }

    fn bound_by(&self, legs: &Legs, kind: Bound) -> u32 {
        if self.is_complete(legs) {
            return legs.order_cost(&self.stops, kind.ends());
        }
        match kind {
            Bound::Plain | Bound::PlainAway => self.path,
            Bound::Close => self.path + self.legs_to_stops(legs) + self.leg_home(legs),
            Bound::CloseAway => self.path + self.legs_to_stops(legs),
        }
    }

    /// The cheapest leg into each stop to come, from the last place or another
    /// stop to come.
    fn legs_to_stops(&self, legs: &Legs) -> u32 {
        let unflown = self.unflown(legs);
        let mut sum = 0;
        for &stop in &unflown {
            let mut cheapest = legs.flying(self.last(), stop);
            for &other in &unflown {
                if other != stop {
                    cheapest = cheapest.min(legs.flying(other, stop));
                }
            }
            sum += cheapest;
        }
        sum
    }

    /// The cheapest leg home from a stop to come.
    fn leg_home(&self, legs: &Legs) -> u32 {
        let home = self.unflown(legs).into_iter().map(|s| legs.flying(s, 0)).min();
        home.expect("a node that isn't complete has a stop to come")
    }

    /// Another way through the same stops to the same last one, and cheaper, or
    /// as cheap and smaller in comparison stop by stop.
    pub fn dominates(&self, other: &Node) -> bool {
        let better = self.path < other.path || self.path == other.path && self.stops < other.stops;
        self.set == other.set && self.last() == other.last() && better
    }
}
