//! What the marks in the twin gather over one run.

use crate::problem::MISSING;
use hashbrown::HashMap;
use std::cell::RefCell;

/// No loop of a sound run comes near this; a planted mistake may run for ever.
const MOST_MOVES: usize = 2_000;

#[derive(Clone, Debug, Default)]
pub struct Trace {
    /// document 01's four kinds of step
    pub opened: u64,
    pub taken: u64,
    pub adjusted: u64,
    pub closed: u64,

    pub groups: usize,
    pub deepest: usize,
    pub expanded_within: usize,
    pub expanded_at_close: usize,
    pub rerooted: usize,

    pub most_queued: usize,
    pub most_moves: usize,
    /// a cause of FAULT in document 01 that the source itself does not stop at
    pub fault: Option<&'static str>,

    pub mates: Vec<u16>,
    pub duals: Vec<i64>,
    pub parents: Vec<u16>,

    /// for every place of the source: how often it was asked and false, and asked and true or entered
    pub branches: Vec<[u32; 2]>,

    nodes: usize,
    most_steps: u64,
    depths: Vec<usize>,
}

impl Trace {
    pub fn steps(&self) -> u64 {
        self.opened + self.taken + self.adjusted + self.closed
    }
}

thread_local! {
    static TRACE: RefCell<Trace> = RefCell::default();
}

fn with(note: impl FnOnce(&mut Trace)) {
    TRACE.with(|trace| note(&mut trace.borrow_mut()));
}

/// Begins a run: everything cleared.
pub fn start(nodes: usize, places: usize, most_steps: u64) {
    with(|trace| {
        *trace = Trace {
            mates: vec![MISSING; nodes],
            duals: vec![0; 2 * nodes],
            parents: vec![MISSING; 2 * nodes],
            branches: vec![[0; 2]; places],
            depths: vec![0; 2 * nodes],
            nodes,
            most_steps,
            ..Trace::default()
        }
    });
}

/// Ends a run and gives what it gathered.
pub fn finish() -> Trace {
    TRACE.with(|trace| trace.take())
}

fn step(count: impl FnOnce(&mut Trace)) {
    let mut over = false;
    with(|trace| {
        count(trace);
        over = trace.steps() > trace.most_steps;
    });
    assert!(!over, "the run takes too many steps");
}

pub fn opened() {
    step(|trace| trace.opened += 1);
}

pub fn taken() {
    step(|trace| trace.taken += 1);
}

pub fn adjusted() {
    step(|trace| trace.adjusted += 1);
}

pub fn closed() {
    step(|trace| trace.closed += 1);
}

pub fn grouped(group: usize, children: &[usize]) {
    with(|trace| {
        let inner = children.iter().map(|&child| trace.depths[child]).max();
        trace.depths[group] = 1 + inner.unwrap_or(0);
        trace.groups += 1;
        trace.deepest = trace.deepest.max(trace.depths[group]);
        let twice = (1..children.len()).any(|at| children[..at].contains(&children[at]));
        if twice || children.len().is_multiple_of(2) || children.len() < 3 {
            trace.fault = Some("a new group's children");
        }
        if trace.deepest > trace.nodes {
            trace.fault = Some("nesting");
        }
    });
}

pub fn expanded(end_stage: bool) {
    with(|trace| match end_stage {
        true => trace.expanded_at_close += 1,
        false => trace.expanded_within += 1,
    });
}

pub fn rerooted() {
    with(|trace| trace.rerooted += 1);
}

pub fn queued(length: usize) {
    with(|trace| {
        trace.most_queued = trace.most_queued.max(length);
        if length > 2 * trace.nodes {
            trace.fault = Some("queue");
        }
    });
}

/// The moves of one run of a loop.
#[derive(Default)]
pub struct Moves(usize);

pub fn moved(moves: &mut Moves) {
    moves.0 += 1;
    assert!(moves.0 <= MOST_MOVES, "a loop runs for ever");
    with(|trace| {
        trace.most_moves = trace.most_moves.max(moves.0);
        if moves.0 > 2 * trace.nodes {
            trace.fault = Some("moves of a loop");
        }
    });
}

pub fn augmented(mate: &HashMap<usize, usize>, endpoints: &[usize]) {
    let back = |(node, end): (&usize, &usize)| {
        endpoints[end ^ 1] == *node && mate.get(&endpoints[*end]) == Some(&(end ^ 1))
    };
    if !mate.iter().all(back) {
        with(|trace| trace.fault = Some("a mate does not name back"));
    }
}

pub fn ended(mate: &HashMap<usize, usize>, dual_var: &[i128], parents: &[Option<usize>]) {
    with(|trace| {
        for (&node, &end) in mate {
            trace.mates[node] = end as u16;
        }
        trace.duals = dual_var.iter().map(|&dual| dual as i64).collect();
        let number = |parent: &Option<usize>| parent.map_or(MISSING, |group| group as u16);
        trace.parents = parents.iter().map(number).collect();
    });
}

pub fn asked(place: usize, answer: bool) -> bool {
    with(|trace| trace.branches[place][answer as usize] += 1);
    answer
}

pub fn entered(place: usize) {
    with(|trace| trace.branches[place][1] += 1);
}
