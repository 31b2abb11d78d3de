//! What document 01 says that a call answers and leaves. Written from the paper; nothing here is taken from the
//! crates. What a run finds is the oracle's.

use crate::call::{Call, Certificate, Left, Room, Verdict};
use oracle::certificate;
use oracle::problem::{Problem, MISSING, MOST_EDGES, MOST_NODES, MOST_WEIGHT};
use oracle::run::{self, Pairs};
use oracle::trace::Trace;

pub const DONE: u32 = 0;
pub const NODES: u32 = 1;
pub const EDGES: u32 = 2;
pub const END: u32 = 3;
pub const LOOP: u32 = 4;
pub const WEIGHT: u32 = 5;
pub const BUFFER: u32 = 6;
pub const STEPS: u32 = 7;

/// The oracle's answer: the pairs of the unchanged source; steps and lists of the twin.
pub struct Said {
    pub pairs: Pairs,
    pub trace: Trace,
}

impl Said {
    pub fn steps(&self) -> u32 {
        self.trace.steps() as u32
    }

    pub fn certificate(&self) -> Certificate {
        Certificate {
            mates: self.trace.mates.clone(),
            duals: self.trace.duals.clone(),
            parents: self.trace.parents.clone(),
        }
    }
}

/// Asks the oracle; or tells why it has no answer that the library could be held against.
pub fn ask(problem: &Problem) -> Result<Said, String> {
    let pairs = run::source(problem)?;
    let (twin_pairs, trace) = run::twin(problem);
    if twin_pairs.as_ref() != Ok(&pairs) {
        return Err("source and twin part".into());
    }
    if let Some(cause) = trace.fault {
        return Err(format!("cause of FAULT in the source's run: {cause}"));
    }
    if let Some(condition) =
        certificate::refused(problem, &trace.mates, &trace.duals, &trace.parents)
    {
        return Err(format!(
            "certificate of the source's run refused: {condition}"
        ));
    }
    Ok(Said { pairs, trace })
}

/// Answers 1 to 6 with their places, or none. Lists of unequal length are a list too short; the first nodes are
/// the count of edges (docs/DECISIONS.md, 25).
pub fn refusal(call: &Call, room: Room) -> Option<(u32, u32)> {
    let (nodes, edges) = (call.nodes, call.first.len());
    if nodes > MOST_NODES {
        return Some((NODES, 0));
    }
    if edges > MOST_EDGES {
        return Some((EDGES, 0));
    }
    let unequal = call.second.len() != edges || call.weight.len() != edges;
    let short = room.mates < nodes || room.duals < 2 * nodes || room.parents < 2 * nodes;
    if unequal || short {
        return Some((BUFFER, 0));
    }
    for edge in 0..edges {
        let ends = [call.first[edge], call.second[edge]];
        let weight = call.weight[edge];
        if ends.iter().any(|&end| usize::from(end) >= nodes) {
            return Some((END, edge as u32));
        }
        if ends[0] == ends[1] {
            return Some((LOOP, edge as u32));
        }
        if !(-MOST_WEIGHT..=MOST_WEIGHT).contains(&weight) {
            return Some((WEIGHT, edge as u32));
        }
    }
    None
}

/// What a plan call leaves. `said` is the oracle's answer, and is there where nothing is refused.
pub fn plan(call: &Call, said: Option<&Said>) -> Left {
    let mut left = Left {
        number: DONE,
        place: 0,
        steps: 0,
        mates: vec![MISSING; call.room.mates],
        duals: vec![0; call.room.duals],
        parents: vec![MISSING; call.room.parents],
    };
    if let Some((number, place)) = refusal(call, call.room) {
        (left.number, left.place) = (number, place);
        return left;
    }
    let said = said.expect("the oracle was asked");
    if said.steps() > call.budget {
        (left.number, left.steps) = (STEPS, call.budget);
        return left;
    }
    left.steps = said.steps();
    left.mates[..call.nodes].copy_from_slice(&said.trace.mates);
    left.duals[..2 * call.nodes].copy_from_slice(&said.trace.duals);
    left.parents[..2 * call.nodes].copy_from_slice(&said.trace.parents);
    left
}

/// What a check call answers.
pub fn check(call: &Call, judged: &Certificate) -> Verdict {
    if let Some((number, place)) = refusal(call, judged.room()) {
        return Verdict { number, place };
    }
    let nodes = call.nodes;
    let failing = certificate::refused(
        &call.problem(),
        &judged.mates[..nodes],
        &judged.duals[..2 * nodes],
        &judged.parents[..2 * nodes],
    );
    Verdict {
        number: failing.unwrap_or(0),
        place: 0,
    }
}
