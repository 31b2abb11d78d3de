//! Small changes of a certificate or of its problem, so that each of conditions 11 to 17 fails in many ways.

use crate::call::{Call, Certificate};
use oracle::problem::MISSING;
use oracle::random::Random;

/// DUAL's limit.
const MOST_DUAL: i64 = 1 << 52;

/// Changes one thing. The lists are at least as long as the nodes need, and there is a node.
pub fn change(call: &mut Call, judged: &mut Certificate, random: &mut Random) {
    let (nodes, edges) = (call.nodes, call.first.len());
    let node = random.below(nodes);
    let number = random.below(2 * nodes);
    match random.below(if edges == 0 { 9 } else { 13 }) {
        0 => judged.mates[node] = any_mate(edges, judged.mates[node], random),
        1 => judged.mates[node] = judged.mates[random.below(nodes)],
        2 => judged.parents[number] = any_parent(nodes, random),
        3 => chain(nodes, judged, random),
        4 => judged.duals[number] = any_dual(random),
        5 => add(&mut judged.duals[number], random.pick(&[-2, -1, 1, 2])),
        6 => {
            let by = random.pick(&[-1, 1]);
            judged.duals[..nodes]
                .iter_mut()
                .for_each(|dual| add(dual, by));
        }
        7 => {
            // a group that holds what no other did
            let group = nodes + random.below(nodes);
            judged.duals[group] = random.between(0, 1);
            judged.parents[node] = group as u16;
        }
        8 => call.flag = !call.flag,
        9 => call.weight[random.below(edges)] += random.pick(&[-1, 1]),
        10 => unmatch(call, judged, random.below(edges)),
        11 => pair(call, judged, random.below(edges)),
        _ => {
            // moves a matched edge to another one between the same nodes, if there is one
            let edge = random.below(edges);
            unmatch(call, judged, edge);
            pair(call, judged, random.below(edges));
        }
    }
}

/// Some duals stand at the ends of their type already.
fn add(dual: &mut i64, by: i64) {
    *dual = dual.wrapping_add(by);
}

fn any_mate(edges: usize, mate: u16, random: &mut Random) -> u16 {
    let end = random.below(2 * edges + 1) as u16;
    let past = 2 * edges as u16;
    let noise = random.draw() as u16;
    random.pick(&[MISSING, MISSING - 1, mate ^ 1, end, past, past + 1, noise])
}

fn any_parent(nodes: usize, random: &mut Random) -> u16 {
    let group = (nodes + random.below(nodes)) as u16;
    let node = random.below(nodes) as u16;
    let past = 2 * nodes as u16;
    random.pick(&[MISSING, MISSING - 1, group, group, group, node, past])
}

fn any_dual(random: &mut Random) -> i64 {
    random.pick(&[
        0,
        -1,
        1,
        MOST_DUAL,
        MOST_DUAL + 1,
        -MOST_DUAL,
        -MOST_DUAL - 1,
        i64::MAX,
        i64::MIN,
    ])
}

/// Groups in a row, each the parent of the one before: as long as may be, longer, or round.
fn chain(nodes: usize, judged: &mut Certificate, random: &mut Random) {
    for group in nodes..2 * nodes - 1 {
        judged.parents[group] = group as u16 + 1;
    }
    judged.parents[2 * nodes - 1] = match random.chance(70) {
        true => MISSING,
        false => (nodes + random.below(nodes)) as u16,
    };
    judged.parents[random.below(nodes)] = (nodes + random.below(nodes)) as u16;
}

fn unmatch(call: &Call, judged: &mut Certificate, edge: usize) {
    for node in [call.first[edge], call.second[edge]] {
        judged.mates[usize::from(node)] = MISSING;
    }
}

fn pair(call: &Call, judged: &mut Certificate, edge: usize) {
    judged.mates[usize::from(call.first[edge])] = 2 * edge as u16 + 1;
    judged.mates[usize::from(call.second[edge])] = 2 * edge as u16;
}
