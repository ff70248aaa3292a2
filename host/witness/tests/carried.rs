//! The close bound, carried along (request A.7 of document 02), by hand: on
//! table T, with charges, pairs and away, and on tables with ties.

mod common;

use common::carried::{node, BOTH_CLOSE, BOTH_TIES};
use samples::{charged, level, T};
use witness::carried::{Carried, Leg, Ties};
use witness::legs::{Ends, Legs, Place};
use witness::node::Bound;
use witness::pairs::Pairs;

/// The legs that are held, as where from and how much: of each stop to come,
/// and the leg home.
type Held = (Vec<(Place, Place, u32)>, u32, Option<(Place, u32)>);

fn held(carried: &Carried) -> Held {
    let shares = carried.shares.iter().map(|&(stop, Leg { from, cost })| (stop, from, cost)).collect();
    (shares, carried.sum, carried.home.map(|Leg { from, cost }| (from, cost)))
}

/// What is held of a node, the bounds of its children, which must be those
/// added up anew, and how often a stop was corrected and a leg home looked for.
fn shown(legs: &Legs, kind: Bound, stops: &[Place], pairs: &Pairs, ties: Ties) -> (Held, Vec<u32>, [u64; 2]) {
    let node = node(legs, kind, stops);
    let mut carried = Carried::of(&node, legs, kind.ends(), ties);
    let children = carried.children(pairs);
    assert_eq!(children, node.children(legs, kind, pairs));
    let bounds = children.iter().map(|y| y.bound).collect();
    (held(&carried), bounds, [carried.corrected, carried.searched])
}

/// As `shown`, of a table without ties: either choice among ties holds the same.
fn untied(legs: &Legs, kind: Bound, stops: &[Place], pairs: &Pairs) -> (Held, Vec<u32>, [u64; 2]) {
    let [first, last] = BOTH_TIES.map(|ties| shown(legs, kind, stops, pairs, ties));
    assert_eq!(first, last);
    first
}

/// Case k. Of e are held 4 into 1 from home, 2 into 2 from 1 and 1 into 3 from
/// 2, together 7, and 3 home from 2.
/// - Node 1, path 4: 7 less 4 is 3. Neither 2 nor 3 was reached from home, and
///   2 still gives the leg home: 4 + 3 + 3.
/// - Node 2, path 7: 7 less 2 is 5. 1 was reached from home for 4 and now is
///   from 3 for 5, so 6. 2 gave the leg home; 1 has 5 and 3 has 6: 7 + 6 + 5.
/// - Node 3, path 9: 7 less 1 is 6. 1 now is reached from 3 for 5, so 7, and 2
///   still gives the leg home: 9 + 7 + 3.
#[test]
fn children_of_e_in_t() {
    let legs = Legs::new(3, &T);
    let of_e = (vec![(1, 0, 4), (2, 1, 2), (3, 2, 1)], 7, Some((2, 3)));
    assert_eq!(untied(&legs, Bound::Close, &[], &Pairs::none()), (of_e, vec![10, 18, 19], [2, 1]));
}

/// The nodes of one stop, whose children have one stop to come; a child's bound
/// is what its only order costs.
/// - Of 1, 12 keeps the 1 into 3 from 2 and looks for the leg home again:
///   6 + 1 + 6. 13 reaches 2 for 4 and no more from 1 for 2: 10 + 4 + 3.
/// - Of 2, 21 reaches 3 for 6 and no more from 2 for 1, and 1 gave the leg home:
///   15 + 6 + 6. 23 keeps both: 8 + 5 + 5.
/// - Of 3, 31 keeps both: 14 + 2 + 3. 32 reaches 1 for 8 and no more from 3 for
///   5, and 2 gave the leg home: 13 + 8 + 5.
#[test]
fn children_of_one_stop_in_t() {
    let legs = Legs::new(3, &T);
    let of = |stops: &[Place]| untied(&legs, Bound::Close, stops, &Pairs::none());
    assert_eq!(of(&[1]), ((vec![(2, 1, 2), (3, 2, 1)], 3, Some((2, 3))), vec![13, 17], [1, 1]));
    assert_eq!(of(&[2]), ((vec![(1, 3, 5), (3, 2, 1)], 6, Some((1, 5))), vec![27, 18], [1, 1]));
    assert_eq!(of(&[3]), ((vec![(1, 3, 5), (2, 1, 2)], 7, Some((2, 3))), vec![19, 26], [1, 1]));
}

/// One stop to come: its share and its leg home are held, and nothing is
/// corrected or looked for. The complete child's bound is its cost.
#[test]
fn complete_children_in_t() {
    let legs = Legs::new(3, &T);
    let of = |stops: &[Place]| untied(&legs, Bound::Close, stops, &Pairs::none());
    assert_eq!(of(&[1, 2]), ((vec![(3, 2, 1)], 1, Some((3, 6))), vec![13], [0, 0]));
    assert_eq!(of(&[3, 2]), ((vec![(1, 2, 8)], 8, Some((1, 5))), vec![26], [0, 0]));
    let complete = node(&legs, Bound::Close, &[1, 2, 3]);
    let mut carried = Carried::of(&complete, &legs, Ends::Home, Ties::First);
    assert_eq!((held(&carried), carried.children(&Pairs::none())), ((vec![], 0, None), vec![]));
}

/// T with landings of 1 at home and 10, 20 and 30, and 2 before 1. The shares
/// come from the same places, each with its landing: 14 + 22 + 31 is 67, and
/// home for 4. 1 has its share though e has no child 1.
/// - Node 2, path 27: 67 less 22, and 1 for 15 in place of 14, is 46. The leg
///   home is from 1 for 6: 27 + 46 + 6.
/// - Node 3, path 39: 67 less 31, and 1 for 15 in place of 14, is 37, and the
///   leg home stays: 39 + 37 + 4.
///
/// Away it is the same without the legs home.
#[test]
fn charges_pairs_and_a_day_away_in_t() {
    let legs = Legs::new(3, &charged(&T, &[1, 10, 20, 30]));
    let pairs = Pairs::read(3, &[2, 1]).unwrap();
    let shares = vec![(1, 0, 14), (2, 1, 22), (3, 2, 31)];
    let home = untied(&legs, Bound::Close, &[], &pairs);
    assert_eq!(home, ((shares.clone(), 67, Some((2, 4))), vec![79, 80], [2, 1]));
    let away = untied(&legs, Bound::CloseAway, &[], &pairs);
    assert_eq!(away, ((shares, 67, None), vec![27 + 46, 39 + 37], [2, 0]));
}

/// Three stops. Into 1 lead 5 from home and 5 from 3; into 2, 1 from 3; into 3,
/// 1 from 2. So the sum is 7, whichever of the two fives is held. The legs home
/// cost 4 from 1, 4 from 2 and 9 from 3.
const TIED: [u32; 16] = [0, 5, 6, 7, 4, 0, 8, 8, 4, 9, 0, 1, 9, 5, 1, 0];

/// The five from home is corrected for nodes 2 and 3, to the five from 3; that
/// from 3 needs no correction. Of the two fours home, the one that is held is
/// looked for again for its own stop's node, and the other is found.
/// - Node 1, path 5: 7 less 5, and 4 home: 5 + 2 + 4.
/// - Node 2, path 6: 7 less 1, and 4 home: 6 + 6 + 4.
/// - Node 3, path 7: 7 less 1, and 4 home: 7 + 6 + 4.
#[test]
fn ties_of_the_place_left_behind_and_of_legs_home() {
    let legs = Legs::new(3, &TIED);
    let of = |ties| shown(&legs, Bound::Close, &[], &Pairs::none(), ties);
    let bounds = vec![11, 16, 17];
    let first = (vec![(1, 0, 5), (2, 3, 1), (3, 2, 1)], 7, Some((1, 4)));
    assert_eq!(of(Ties::First), (first, bounds.clone(), [2, 1]));
    let last = (vec![(1, 3, 5), (2, 3, 1), (3, 2, 1)], 7, Some((2, 4)));
    assert_eq!(of(Ties::Last), (last, bounds, [0, 1]));
}

/// The same at node 3: into 1 lead 5 from 3, the place left behind, and, other
/// than above, 5 from 2. Into 2 leads 1 from 3, corrected to 8 from 1.
/// - Node 31, path 12: 6 less 5, and 8 in place of 1, is 8: 12 + 8 + 4.
/// - Node 32, path 8: 6 less 1 is 5, from 3 or from 2: 8 + 5 + 4.
#[test]
fn ties_behind_a_stop() {
    let mut table = TIED;
    table[9] = 5;
    let legs = Legs::new(3, &table);
    let of = |ties| shown(&legs, Bound::Close, &[3], &Pairs::none(), ties);
    let bounds = vec![24, 17];
    let first = (vec![(1, 3, 5), (2, 3, 1)], 6, Some((1, 4)));
    assert_eq!(of(Ties::First), (first, bounds.clone(), [2, 1]));
    let last = (vec![(1, 2, 5), (2, 3, 1)], 6, Some((2, 4)));
    assert_eq!(of(Ties::Last), (last, bounds, [1, 1]));
}

/// All legs the same, so all legs tie: by the first all n-1 stops left are
/// corrected for each of n children, by the last none are. One child looks for
/// the leg home again, of which there is none away.
#[test]
fn level_tables() {
    for (leg, charge) in [(0, 0), (7, 2), (1_000_000, 100_000)] {
        let legs = Legs::new(5, &charged(&level(5, leg), &[charge; 6]));
        let of = |kind, ties| shown(&legs, kind, &[], &Pairs::none(), ties);
        let (home, away) = (vec![6 * (leg + charge); 5], vec![5 * (leg + charge); 5]);
        let firsts = BOTH_CLOSE.map(|kind| of(kind, Ties::First)).map(|(_, bounds, counts)| (bounds, counts));
        assert_eq!(firsts, [(home.clone(), [20, 1]), (away.clone(), [20, 0])]);
        let lasts = BOTH_CLOSE.map(|kind| of(kind, Ties::Last)).map(|(_, bounds, counts)| (bounds, counts));
        assert_eq!(lasts, [(home, [0, 1]), (away, [0, 0])]);
    }
}
