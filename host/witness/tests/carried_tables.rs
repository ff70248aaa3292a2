//! The close bound, carried along (request A.7 of document 02), over random
//! tables: in the whole tree of nodes each child has the bound that is added up
//! anew.

mod common;

use common::carried::{node, BOTH_CLOSE, BOTH_TIES};
use common::{ample, for_each_table};
use samples::Random;
use witness::carried::{Carried, Ties};
use witness::legs::{Ends, Legs, Place};
use witness::node::{Bound, Node};
use witness::pairs::Pairs;

/// What the trees of some days had, by either choice among ties.
#[derive(Default, Debug)]
struct Tally {
    /// Children whose bounds were compared.
    children: u64,
    /// Stops to come and legs home of children that aren't complete: what was
    /// corrected and looked for if that were always done.
    stops: u64,
    homes: u64,
    corrected: [u64; 2],
    searched: [u64; 2],
}

/// A day with a close bound.
struct Day<'a> {
    legs: &'a Legs,
    kind: Bound,
    pairs: &'a Pairs,
}

impl Day<'_> {
    /// Compares all children in the tree below a node that isn't complete.
    fn walk(&self, node: &Node, tally: &mut Tally) {
        let children = self.compare(node, tally);
        let incomplete = children.iter().filter(|child| !child.is_complete(self.legs));
        incomplete.for_each(|child| self.walk(child, tally));
    }

    /// The node's own bound and its children, carried along by either choice
    /// among ties, are those added up anew.
    fn compare(&self, node: &Node, tally: &mut Tally) -> Vec<Node> {
        let anew = node.children(self.legs, self.kind, self.pairs);
        for (at, ties) in BOTH_TIES.into_iter().enumerate() {
            let mut carried = Carried::of(node, self.legs, self.kind.ends(), ties);
            assert_eq!(node.path + carried.sum + carried.home.map_or(0, |leg| leg.cost), node.bound, "{node:?}");
            assert_eq!(carried.children(self.pairs), anew, "{node:?}");
            tally.corrected[at] += carried.corrected;
            tally.searched[at] += carried.searched;
        }
        self.count(&anew, tally);
        anew
    }

    fn count(&self, children: &[Node], tally: &mut Tally) {
        tally.children += children.len() as u64;
        for child in children.iter().filter(|child| !child.is_complete(self.legs)) {
            tally.stops += (self.legs.n - child.size()) as u64;
            tally.homes += (self.kind.ends() == Ends::Home) as u64;
        }
    }
}

/// The whole tree of a day by both close bounds, home's tally and away's.
fn walk_both(n: usize, table: &[u32], file: &[u8], tallies: &mut [Tally; 2]) {
    let (legs, pairs) = (Legs::new(n, table), Pairs::read(n, file).unwrap());
    for (kind, tally) in BOTH_CLOSE.into_iter().zip(tallies) {
        let day = Day { legs: &legs, kind, pairs: &pairs };
        day.walk(&Node::empty(&legs, kind), tally);
    }
}

/// So many tables of each kind, with charges as often as without.
fn walk_tables(random: &mut Random, n: usize, tables: usize, pairs: fn(&mut Random, usize) -> Vec<u8>) -> [Tally; 2] {
    let mut tallies = Default::default();
    for_each_table(random, n, tables, |random, table| walk_both(n, table, &pairs(random, n), &mut tallies));
    for _ in 0..tables {
        let few_free = random.few_free(n);
        let table = random.maybe_charged(n, few_free);
        walk_both(n, &table, &pairs(random, n), &mut tallies);
    }
    tallies
}

/// Both is done at times, and at times isn't needed; of a day that ends away no
/// leg home is looked for. Fewer corrections are made if a tie isn't taken for
/// the place left behind, and legs home are looked for either way.
fn done_at_times(tallies: &[Tally; 2]) {
    let [home, away] = tallies;
    for Tally { stops, corrected: [first, last], .. } in [home, away] {
        assert!(0 < *last && last < first && first < stops, "{tallies:?}");
    }
    assert!(home.searched.iter().all(|&searched| 0 < searched && searched < home.homes), "{tallies:?}");
    assert_eq!((away.homes, away.searched), (0, [0, 0]));
    assert_eq!((home.children, home.stops, home.corrected), (away.children, away.stops, away.corrected));
}

/// All nodes but e, each compared once.
#[test]
fn trees_up_to_five_stops() {
    let mut random = Random(701);
    for (n, tables) in [(1, 4), (2, 20), (3, 40), (4, 20), (5, 6)] {
        let tallies = walk_tables(&mut random, n, tables, |_, _| Vec::new());
        assert!(tallies.iter().all(|tally| tally.children == (7 * tables * (ample(n) - 1)) as u64));
        match n {
            1 => assert!(tallies.iter().all(|tally| (tally.stops, tally.corrected) == (0, [0, 0]))),
            _ => done_at_times(&tallies),
        }
    }
}

#[test]
fn trees_with_pairs_up_to_five_stops() {
    let mut random = Random(702);
    for (n, tables) in [(1, 4), (2, 20), (3, 40), (4, 20), (5, 12)] {
        let tallies = walk_tables(&mut random, n, tables, Random::some_pairs);
        if n > 1 {
            assert!(tallies[0].children < (7 * tables * (ample(n) - 1)) as u64);
            done_at_times(&tallies);
        }
    }
}

#[test]
fn trees_of_six_stops() {
    let mut random = Random(703);
    done_at_times(&walk_tables(&mut random, 6, 3, |_, _| Vec::new()));
    done_at_times(&walk_tables(&mut random, 6, 6, Random::some_pairs));
}

#[test]
fn trees_of_seven_stops() {
    done_at_times(&walk_tables(&mut Random(704), 7, 1, |_, _| Vec::new()));
}

/// With three pairs, one stop in none of them.
#[test]
fn trees_of_seven_stops_with_pairs() {
    done_at_times(&walk_tables(&mut Random(705), 7, 8, |random, n| random.pairs(n, 3)));
}

/// Stop by stop: in a child, a share is that of the node, unless it came from
/// the place left behind. Then it is no cheaper and, if the place left behind
/// was held for want of another, dearer.
fn check_shares(legs: &Legs, node: &Node, child: &Node, ties: Ties) {
    let [old, new] = [node, child].map(|y| Carried::of(y, legs, Ends::Home, ties).shares);
    for (stop, share) in new {
        let before = old.iter().find(|old| old.0 == stop).unwrap().1;
        match ties {
            _ if before.from != node.last() => assert_eq!(share.cost, before.cost),
            Ties::First => assert!(share.cost >= before.cost),
            Ties::Last => assert!(share.cost > before.cost),
        }
    }
}

#[test]
fn shares_of_children() {
    for_each_table(&mut Random(706), 5, 20, |random, table| {
        let legs = Legs::new(5, table);
        let mut flown: Vec<Place> = random.order(5);
        flown.truncate(random.below(4) as usize);
        let node = node(&legs, Bound::Close, &flown);
        for child in node.children(&legs, Bound::Close, &Pairs::none()) {
            BOTH_TIES.into_iter().for_each(|ties| check_shares(&legs, &node, &child, ties));
        }
    });
}

/// One way down the tree of sixteen stops, with all children on the way.
#[test]
fn ways_down_sixteen_stops() {
    let (mut random, mut tally) = (Random(707), Tally::default());
    for_each_table(&mut random, 16, 3, |random, table| {
        let (legs, pairs) = (Legs::new(16, table), Pairs::read(16, &random.some_pairs(16)).unwrap());
        for kind in BOTH_CLOSE {
            let day = Day { legs: &legs, kind, pairs: &pairs };
            let mut node = Node::empty(&legs, kind);
            while !node.is_complete(&legs) {
                node = random.pick(&day.compare(&node, &mut tally));
            }
        }
    });
    assert!(tally.children > 2_000, "{tally:?}");
}
