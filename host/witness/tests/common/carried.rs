//! What the tests of the close bound carried along (request A.7) share.

use witness::carried::Ties;
use witness::legs::{Legs, Place};
use witness::node::{Bound, Node};

pub const BOTH_TIES: [Ties; 2] = [Ties::First, Ties::Last];
pub const BOTH_CLOSE: [Bound; 2] = [Bound::Close, Bound::CloseAway];

/// The node that flies these stops.
pub fn node(legs: &Legs, kind: Bound, stops: &[Place]) -> Node {
    stops.iter().fold(Node::empty(legs, kind), |node, &stop| node.extended(stop, legs, kind))
}
