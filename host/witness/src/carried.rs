//! The close bounds of a node's children, found from what is held of the node
//! (request A.7 of document 02). `node` adds them up anew, and the run goes by
//! those; the numbers are the same.

use crate::legs::{Ends, Legs, Place};
use crate::node::{Bound, Node};
use crate::pairs::Pairs;

/// Which of several equally cheap legs is held, by the places they come from:
/// the last place, then the stops to come, ascending.
#[derive(Clone, Copy, PartialEq, Eq, Debug)]
pub enum Ties {
    First,
    Last,
}

/// Where a leg comes from and what it costs, its landing included.
#[derive(Clone, Copy, PartialEq, Eq, Debug)]
pub struct Leg {
    pub from: Place,
    pub cost: u32,
}

/// What is held for the branching of a node.
pub struct Carried<'a> {
    node: &'a Node,
    legs: &'a Legs,
    ends: Ends,
    ties: Ties,
    /// The stops to come, ascending, each with the cheapest leg into it.
    pub shares: Vec<(Place, Leg)>,
    /// All shares together.
    pub sum: u32,
    /// The cheapest leg home from a stop to come; none on a day that ends away.
    pub home: Option<Leg>,
    /// How often a stop's share was corrected for a child.
    pub corrected: u64,
    /// How often the leg home was looked for again for a child.
    pub searched: u64,
}

impl<'a> Carried<'a> {
    pub fn of(node: &'a Node, legs: &'a Legs, ends: Ends, ties: Ties) -> Carried<'a> {
        let unflown = node.unflown(legs);
        let places = [&[node.last()], &unflown[..]].concat();
        let share = |&stop: &Place| (stop, cheapest(legs, ties, &places, stop).expect("the last place is left"));
        let shares: Vec<(Place, Leg)> = unflown.iter().map(share).collect();
        let sum = shares.iter().map(|(_, leg)| leg.cost).sum();
        let home = match ends {
            Ends::Home => cheapest(legs, ties, &unflown, 0),
            Ends::Away => None,
        };
        Carried { node, legs, ends, ties, shares, sum, home, corrected: 0, searched: 0 }
    }

    /// By each stop to come that the pairs allow, ascending.
    pub fn children(&mut self, pairs: &Pairs) -> Vec<Node> {
        let mut stops = self.stops();
        stops.retain(|&stop| pairs.allow(stop, &self.node.stops));
        stops.into_iter().map(|stop| self.child(stop)).collect()
    }

    /// A complete child has its cost for a bound, as in plain.
    fn child(&mut self, flown: Place) -> Node {
        let plain = match self.ends {
            Ends::Home => Bound::Plain,
            Ends::Away => Bound::PlainAway,
        };
        let mut child = self.node.extended(flown, self.legs, plain);
        if !child.is_complete(self.legs) {
            child.bound = child.path + self.legs_to_stops(flown) + self.leg_home(flown);
        }
        child
    }

    /// The sum without the flown stop's share, and corrected for the stops whose
    /// cheapest leg came from the place left behind.
    fn legs_to_stops(&mut self, flown: Place) -> u32 {
        let mut sum = self.sum;
        for (stop, leg) in self.shares.clone() {
            if stop == flown {
                sum -= leg.cost;
            } else if leg.from == self.node.last() {
                sum = sum - leg.cost + self.corrected_share(stop);
            }
        }
        sum
    }

    /// The cheapest leg into a stop from the flown one, which is the last place
    /// now, or another still to come: together these are the node's stops to come.
    fn corrected_share(&mut self, stop: Place) -> u32 {
        self.corrected += 1;
        cheapest(self.legs, self.ties, &self.stops(), stop).expect("the flown stop is another").cost
    }

    /// The cheapest leg home, looked for again if the flown stop gave it.
    fn leg_home(&mut self, flown: Place) -> u32 {
        match self.home {
            None => 0,
            Some(leg) if leg.from == flown => self.other_leg_home(flown),
            Some(leg) => leg.cost,
        }
    }

    fn other_leg_home(&mut self, flown: Place) -> u32 {
        self.searched += 1;
        let mut left = self.stops();
        left.retain(|&stop| stop != flown);
        cheapest(self.legs, self.ties, &left, 0).expect("the child has a stop to come").cost
    }

    /// The node's stops to come, ascending.
    fn stops(&self) -> Vec<Place> {
        self.shares.iter().map(|&(stop, _)| stop).collect()
    }
}

/// The cheapest leg to a place from another of these; None if there is none.
fn cheapest(legs: &Legs, ties: Ties, places: &[Place], to: Place) -> Option<Leg> {
    let others = places.iter().filter(|&&from| from != to);
    let found = others.map(|&from| Leg { from, cost: legs.flying(from, to) });
    found.reduce(|held, leg| match ties {
        Ties::First if leg.cost < held.cost => leg,
        Ties::Last if leg.cost <= held.cost => leg,
        _ => held,
    })
}
