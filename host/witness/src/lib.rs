//! A second planner, written from document 01 and requests A.1 and A.3 to A.8
//! of document 02 alone, in plain lists and literal passes, and a second
//! reader and writer of job files, which follow document 01's text. They serve
//! as witnesses beside the proved ones. Request A.2 changes no answer, so there
//! is nothing of it here.
//!
//! In reading order: `legs` (table, request A.4's charges and the cost of an
//! order, with the leg home or, by request A.5, without), `pairs` (request
//! A.6's pick-ups and drops), `node` (partial orders, bounds, dominance),
//! `carried` (request A.7's way to the close bounds of children), `checks`
//! (refusals 1 to 6 and 11), `run` (the run with request A.8's ties, request
//! A.3's budget and refusal 7), `words` (report and pool), `first_order`
//! (request A.1's call), `enumerate` (all n! orders), `job_file` (reader and
//! writer), `program` (what `plan` prints).
//!
//! Where the texts leave a choice, this planner takes these, 1 to 12 from
//! document 01, 13 to 16 from request A.1, 17 to 25 from request A.3, 26 to 32
//! from request A.4, 33 to 41 from request A.5, 42 to 53 from request A.6, 54 to
//! 62 from request A.7 and the rest from request A.8:
//!
//! 1. Selection, rules, bound and n come in as 64-bit numbers and stops of the
//!    starting order as 32-bit ones, so that every refusal can be provoked.
//! 2. The checks are made in the order of their numbers, and the first that
//!    fails is the answer; the table is only looked at when n and the length
//!    are right.
//! 3. b counts as branched from part 1 of its own step on. Rule 4 can't tell:
//!    b's set is smaller than its children's.
//! 4. Each pass sees what the passes before it left: rule 2 tests the children
//!    that rule 1 left against the active nodes that rule 1 left, rule 4 tests
//!    the children that rule 2 left, and a node is counted as eliminated once.
//! 5. Nodes "differ" when their orders of stops differ, as they always do where
//!    one dominates the other (65).
//! 6. Without rule 4 the branched nodes take no records.
//! 7. Whether the pool is full is asked after a step only; e always fits, as a
//!    pool without a whole record was refused before.
//! 8. The finish test changes nothing: the pool of a finished run holds the
//!    state that the test was made in, and "active" counts its active nodes.
//! 9. With number 7, "active" and "most" are those of the state that stands.
//! 10. A run whose active set became empty isn't described. The planner then
//!     panics; no run in the tests comes there.
//! 11. A starting order of another length than n, in a file whose length fits
//!     it, is no permutation of 1 to n: 5.
//! 12. A file of more than 1,185 bytes is 9 from the reader too, after 8 and 1,
//!     even if its trailer fits it.
//! 13. An exchange puts the stops at two positions in each other's place and
//!     leaves all others; the first position of the pair is the lower one.
//! 14. An exchange may be of any two positions, neighbours or not; home has
//!     none and stays at both ends.
//! 15. After each exchange all pairs are looked at anew, by the cost of the
//!     whole order. An exchange that leaves the cost the same isn't made.
//! 16. The first order's call takes n and the table, with request A.5 the bound
//!     number (39), with request A.6 the pairs (53), and nothing else; n is as
//!     in 1 and checks are as in 2. Its order has the report's sixteen places.
//! 17. Every 64-bit number is a budget: none is refused, and the checks come
//!     first whatever it is. The first order's call takes none.
//! 18. The budget stops a run that is not finished and has made as many
//!     branchings. A run that finishes on its last branching has mark 0; a run
//!     whose next step has neither a branching nor records left is stopped, not
//!     full.
//! 19. A refused step is no branching, and a run that is full below its budget
//!     is refused as before, with mark and floor 0.
//! 20. The best known is U with its order, so a starting order too until a
//!     better one is found (63). "None" is a U above every cost. An order that
//!     costs 0 is told from none by its stops.
//! 21. The floor is over all active nodes, b and complete ones among them, by
//!     the bound that the job chose, whether an order is known or not.
//! 22. Counts and pool are those of the state that the run stopped in, in
//!     which b is active still.
//! 23. A stopped run has number 0 and yet didn't finish: what is said of runs
//!     that finish isn't said of it. So job A is held against job B only where
//!     B finishes, which takes a budget of at least B's branchings.
//! 24. Runs "of one job" have the same table, choices and starting order, and
//!     may have different pools.
//! 25. Job files and the lines of `plan` stay as they were. The reader's and
//!     the writer's checks don't ask for a budget.
//! 26. The place that is flown to charges, and leaving a place is free. An
//!     order, with n = 1 too, pays each stop's charge once and home's once, on
//!     the way home; the start of the day is no landing, and e's path cost
//!     stays 0.
//! 27. Home's charge is wherever the leg home is: in a complete node's bound
//!     and in close, but in no path cost, nor in plain before a node is
//!     complete.
//! 28. The least is taken over leg and charge together, in close as for the
//!     nearest stop, and nearest stops tie by that sum. In close the leg alone
//!     would decide, as whatever leads into a place pays the same charge.
//! 29. Exchanges, dominance, U and the floor go by costs that have the charges
//!     in them. As all orders pay the same charges, these move no exchange; as
//!     nodes of one set do, they move no dominance.
//! 30. Check 3 looks at each number by itself, home's charge like a stop's: on
//!     the diagonal 100,000 passes and 100,001 doesn't, elsewhere 1,000,000
//!     and 1,000,001. So one flight may cost 1,100,000 and an order
//!     18,700,000.
//! 31. A job file keeps its form, with the charges on the table's diagonal: one
//!     that was accepted before is accepted still and gives the same lines.
//! 32. Jobs held against each other over one table share its charges.
//! 33. The bound number alone says where a day ends: 0 and 1 at home, 2 and 3
//!     at the last stop. Check 4 turns back 4 and above.
//! 34. The leg home is the whole flight home, so on a day that ends away home's
//!     landing isn't paid either. The leg out from home counts as ever, and an
//!     order's cost is its path cost, with n = 1 too.
//! 35. Away, plain is the path cost at every node, complete or not. Close is
//!     without the cheapest leg home; the rest of it stays, and the legs into
//!     a stop are from the same places as before. At a complete node both are
//!     the order's cost. A node's path cost never had a leg home.
//! 36. U, a starting order's cost too, the costs of complete children, rule 1,
//!     the selections by bound and the floor go by the costs and bounds of the
//!     day. Dominance goes by path costs and is the same.
//! 37. Legs into home and home's charge have no say away, but they are there
//!     and check 3 looks at them: a leg home of 1,000,001 is 3.
//! 38. Jobs are held against each other, and costs are equal, among bounds 0
//!     and 1 and among 2 and 3. Between 2 and 3, close is at least as close as
//!     plain, as between 0 and 1.
//! 39. The first order's call has the bound number between n and the table, of
//!     64 bits as in 1. Its number 4 comes behind 3 and is for a bound above 3
//!     alone, as it takes neither selection nor rules. 0 and 1 give the same
//!     answer, and so do 2 and 3.
//! 40. Away, the first order's exchanges are ranked by costs without the leg
//!     home, and its cost is without it. The nearest stops are the same, as
//!     none of these legs leads home.
//! 41. A job file keeps its form. Its byte for the bound may be 2 or 3, which
//!     reader, writer and `plan` let pass.
//! 42. Pairs are handed in as the pair file's bytes, the pick-up and then the
//!     drop of each pair. No byte is no pair: nothing of 43 to 53 then changes
//!     an answer, and there is no other way to say that there are none.
//! 43. A pair file passes if its bytes are sixteen at most, an even number of
//!     them, and stops from 1 to n of which no two are the same. Any other gets
//!     11, whichever of its faults it has and however many.
//! 44. The sequence of the checks is 1 to 5, 11, 6: "the lowest number that
//!     applies" doesn't hold of 11.
//! 45. A starting order that is no permutation gets 5 whatever the pairs are.
//!     One that is gets 5 if the pairs pass and it goes against one of them;
//!     against pairs that don't pass it isn't held, and they get 11. An empty
//!     one goes against none.
//! 46. A drop may be flown once its pick-up has been, at once or with other
//!     stops between. All other stops may be flown at any time.
//! 47. A child that the pairs forbid isn't made: "generated" doesn't count it,
//!     no bound is asked of it, and it isn't eliminated.
//! 48. Bounds are as they were: close has the cheapest legs between stops to
//!     come, also those that the pairs keep anyone from flying. Dominance is as
//!     it was too: nodes of one set have the same stops allowed to come.
//! 49. A node that isn't complete always has a child: if a stop to come is
//!     forbidden, its pick-up is to come as well and is no drop of another
//!     pair, so it is allowed.
//! 50. Orders that go against the pairs have no say: the least cost, the floor
//!     and what may start a run are of those that respect them.
//! 51. In which sequence the pairs stand in their file plays no part. Jobs held
//!     against each other have the same pairs.
//! 52. Pairs stand in no job file. The reader's and the writer's checks don't
//!     ask for them, and `plan` plans without.
//! 53. The first order's call has the pairs behind the table, and its number 11
//!     comes behind 4. Its nearest stop is the nearest of those allowed by the
//!     stops flown so far, ties among these by the lowest number. An exchange
//!     is allowed if the whole order that it makes respects the pairs; the
//!     greatest gain and its ties are among those allowed.
//! 54. Request A.7 changes no answer. The run keeps to bounds added up anew,
//!     and those that `carried` finds are held to them.
//! 55. The sum is held for one branching. It is added up once, for the node
//!     branched, and its children are found from it; nothing is handed on to
//!     their own branchings, as no record has room for shares.
//! 56. The place left behind is the last place of the node branched, home for
//!     e. The flown stop isn't left behind: it is the child's last place, and
//!     legs that come from it stay.
//! 57. The flown stop's share is the cheapest leg into it, whether that leg was
//!     flown or not. The leg flown is in the child's path cost.
//! 58. A stop is corrected to the cheapest leg from the flown stop or another
//!     stop still to come, and that may cost the same as before.
//! 59. One place is held for each cheapest leg. Of several any may be, the
//!     place left behind or the flown stop among them: if another is held,
//!     there is nothing to correct or to look for, and if not, the same cost
//!     is found again.
//! 60. A node with one stop to come has a complete child, whose bound is its
//!     cost: nothing is left of the sum, and no stop to look for a leg home.
//! 61. Away, there is no leg home to hold. The sum is the same.
//! 62. Pairs say which children there are, and nothing else: stops that aren't
//!     allowed yet have shares, and legs from them are held.
//! 63. The known order may be a starting order: an equally cheap but smaller
//!     complete child takes its place too. Against a U above every cost any
//!     complete child does.
//! 64. Of two orders of the same stops the smaller has the lower stop number at
//!     the first position in which they differ. Only orders of one length are
//!     held against each other.
//! 65. Dominance asks for the same set and last stop as before; y's path cost is
//!     then below z's, or the same, and y's order smaller. No node dominates
//!     itself, and of two that differ one dominates the other. Rules 2, 4 and 8
//!     all go by this.
//! 66. "Among equals" is among the active nodes of least bound: under selections
//!     0 and 1 the earliest or latest of those that aren't complete is chosen,
//!     and the earliest or latest of all if there is none such. FIFO and LIFO
//!     choose as before.
//! 67. The finish test is only whether b is complete, under every selection. e
//!     never is, so that no run finishes without a branching, and a starting
//!     order that costs e's bound is no finish.
//! 68. Rule 1 is as before: bounds above U go and equal ones stay, whatever
//!     their orders.
//! 69. The order of a stopped run is the best known, and need not be the
//!     smallest of its cost. The first order's call ranks orders as before.
//! 70. A starting order is "no dearer" than another by its cost alone. Of two
//!     that cost the same either gives the same counts, pool and floor; only the
//!     order that a stopped run shows may differ.

pub mod carried;
pub mod checks;
pub mod enumerate;
pub mod first_order;
pub mod job_file;
pub mod legs;
pub mod node;
pub mod pairs;
pub mod program;
pub mod run;
pub mod words;

pub use checks::{Request, LARGEST_BUDGET};
pub use first_order::{first_order, FirstOrder};
pub use run::State;
pub use words::{Report, STOPPED, WORDS};

/// The whole call: checks, run, report, and the pool's words afterwards.
pub fn plan(request: &Request, pool: &mut [u32]) -> Report {
    plan_watched(request, pool, &mut |_| {})
}

/// As `plan`; `watch` sees the state at the start and after each step.
pub fn plan_watched(request: &Request, pool: &mut [u32], watch: &mut dyn FnMut(&State)) -> Report {
    let job = match checks::check(request, pool.len()) {
        Ok(job) => job,
        Err(number) => return Report::refusal(number),
    };
    let (state, end) = run::run(&job, pool.len() / WORDS, watch);
    words::write_pool(&state, job.rules.branched_child, pool);
    Report::of(&state, end)
}
