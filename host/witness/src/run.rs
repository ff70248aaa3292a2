//! The run (document 01, "One run", with request A.8 of document 02), the
//! budget (request A.3) and the full pool ("The pool").

use std::rc::Rc;

use crate::legs::{Legs, Place};
use crate::node::{Bound, Node};
use crate::pairs::Pairs;

#[derive(Clone, Copy, PartialEq, Eq, Debug)]
pub enum Selection {
    LeastBoundEarliest,
    LeastBoundLatest,
    Fifo,
    Lifo,
}

#[derive(Clone, Copy, PartialEq, Eq, Debug)]
pub struct Rules {
    /// Rule 1 (U/DBAS).
    pub upper_cost: bool,
    /// Rule 2 (AS/DB).
    pub active_child: bool,
    /// Rule 4 (BFS/DB).
    pub branched_child: bool,
    /// Rule 8 (DB/AS).
    pub child_active: bool,
}

/// A request that every check let pass.
pub struct Job {
    pub legs: Legs,
    pub selection: Selection,
    pub rules: Rules,
    pub bound: Bound,
    /// Empty if none is given.
    pub start: Vec<Place>,
    pub pairs: Pairs,
    /// Of branchings.
    pub budget: u64,
}

/// U and its order.
#[derive(Clone, PartialEq, Eq, Debug)]
pub struct Upper {
    /// None stands above every cost.
    pub cost: Option<u32>,
    /// Empty beside None.
    pub order: Vec<Place>,
}

impl Upper {
    /// The complete node is cheaper than U, or as cheap and its order smaller
    /// than U's.
    fn yields_to(&self, node: &Node) -> bool {
        self.cost.is_none_or(|u| node.bound < u || node.bound == u && node.stops < self.order)
    }

    /// `bound` is above U.
    fn exceeded_by(&self, bound: u32) -> bool {
        self.cost.is_some_and(|u| bound > u)
    }
}

#[derive(Clone, PartialEq, Eq, Debug)]
pub struct State {
    /// In order of generation.
    pub active: Vec<Rc<Node>>,
    /// In order of branching.
    pub branched: Vec<Rc<Node>>,
    pub upper: Upper,
    pub generated: u64,
    pub eliminated: u64,
    /// Largest active set so far.
    pub most: u64,
}

#[derive(Clone, Copy, PartialEq, Eq, Debug)]
pub enum End {
    Finished,
    /// The budget was spent.
    Stopped,
    Full,
}

/// From the start to the finish test that ends it, to the step for which no
/// branching is left, or to the first step whose nodes to keep outnumber the
/// records; in the last two the state before that step.
pub fn run(job: &Job, records: usize, watch: &mut dyn FnMut(&State)) -> (State, End) {
    let mut state = State::start(job);
    loop {
        watch(&state);
        let b = state.select(job);
        if state.active[b].is_complete(&job.legs) {
            return (state, End::Finished);
        }
        if state.branchings() == job.budget {
            return (state, End::Stopped);
        }
        let next = state.step(job, b);
        if next.to_keep(job.rules) > records {
            return (state, End::Full);
        }
        state = next;
    }
}

impl State {
    pub fn start(job: &Job) -> State {
        let cost = match job.start.is_empty() {
            true => None,
            false => Some(job.legs.order_cost(&job.start, job.bound.ends())),
        };
        State {
            active: vec![Rc::new(Node::empty(&job.legs, job.bound))],
            branched: Vec::new(),
            upper: Upper { cost, order: job.start.clone() },
            generated: 1,
            eliminated: 0,
            most: 1,
        }
    }

    /// How many branchings were made.
    pub fn branchings(&self) -> u64 {
        self.branched.len() as u64
    }

    /// The nodes that the pool must hold.
    pub fn to_keep(&self, rules: Rules) -> usize {
        match rules.branched_child {
            true => self.active.len() + self.branched.len(),
            false => self.active.len(),
        }
    }

    /// Where b stands among the active nodes.
    fn select(&self, job: &Job) -> usize {
        assert!(!self.active.is_empty(), "the active set is empty");
        let latest = self.active.len() - 1;
        match job.selection {
            Selection::LeastBoundEarliest => self.preferred(job)[0],
            Selection::LeastBoundLatest => *self.preferred(job).last().unwrap(),
            Selection::Fifo => 0,
            Selection::Lifo => {
                let partial = |y: &Rc<Node>| !y.is_complete(&job.legs);
                self.active.iter().rposition(partial).unwrap_or(latest)
            }
        }
    }

    /// Where the active nodes of least bound stand; if some of them aren't
    /// complete, where those do.
    fn preferred(&self, job: &Job) -> Vec<usize> {
        let least = self.least_bound();
        let (complete, partial): (Vec<usize>, Vec<usize>) = (0..self.active.len())
            .filter(|&at| self.active[at].bound == least)
            .partition(|&at| self.active[at].is_complete(&job.legs));
        match partial.is_empty() {
            true => complete,
            false => partial,
        }
    }

    /// Among the active nodes.
    pub fn least_bound(&self) -> u32 {
        self.active.iter().map(|y| y.bound).min().unwrap()
    }

    /// One step, in the sequence of its seven parts.
    fn step(&self, job: &Job, b: usize) -> State {
        let mut next = self.clone();
        // 1
        let b = next.active.remove(b);
        next.branched.push(b.clone());
        let generated = b.children(&job.legs, job.bound, &job.pairs);
        let mut children: Vec<Rc<Node>> = generated.into_iter().map(Rc::new).collect();
        next.generated += children.len() as u64;
        // 2
        for child in &children {
            if child.is_complete(&job.legs) && next.upper.yields_to(child) {
                next.upper = Upper { cost: Some(child.bound), order: child.stops.clone() };
            }
        }
        next.eliminate(job.rules, &mut children);
        // 7
        next.active.append(&mut children);
        next.most = next.most.max(next.active.len() as u64);
        next
    }

    /// Parts 3 to 6 of a step.
    fn eliminate(&mut self, rules: Rules, children: &mut Vec<Rc<Node>>) {
        let State { active, branched, upper, eliminated, .. } = self;
        // 3
        if rules.upper_cost {
            *eliminated += remove(children, |z| upper.exceeded_by(z.bound));
            *eliminated += remove(active, |z| upper.exceeded_by(z.bound));
        }
        // 4
        if rules.active_child {
            *eliminated += remove(children, |z| dominated(z, active));
        }
        // 5
        if rules.branched_child {
            *eliminated += remove(children, |z| dominated(z, branched));
        }
        // 6
        if rules.child_active {
            *eliminated += remove(active, |z| dominated(z, children));
        }
    }
}

/// Some node of `by` dominates `z`; the first one found ends the search.
fn dominated(z: &Node, by: &[Rc<Node>]) -> bool {
    by.iter().any(|y| y.dominates(z))
}

/// Takes out the nodes that `goes` names and returns how many those were.
fn remove(nodes: &mut Vec<Rc<Node>>, goes: impl Fn(&Node) -> bool) -> u64 {
    let before = nodes.len();
    nodes.retain(|z| !goes(z));
    (before - nodes.len()) as u64
}
