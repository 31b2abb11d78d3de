//! A second opinion that shares nothing with the source: every matching of a small problem is tried.

use crate::problem::Problem;

/// The most nodes for which trying all is quick.
pub const MOST_NODES: usize = 9;

/// Pair count and total weight of the best matching: the heaviest, or under the flag the heaviest of those
/// with most pairs. Without the flag the count is 0, since it does not decide.
pub fn best(problem: &Problem) -> (usize, i64) {
    let mut heaviest = vec![vec![None; problem.nodes]; problem.nodes];
    for &(first, second, weight) in &problem.edges {
        let seat: &mut Option<i64> = &mut heaviest[first.min(second)][first.max(second)];
        *seat = Some(seat.map_or(weight, |other| other.max(weight)));
    }
    best_from(&heaviest, problem.flag, &mut vec![false; problem.nodes], 0)
}

fn best_from(
    heaviest: &[Vec<Option<i64>>],
    flag: bool,
    used: &mut [bool],
    node: usize,
) -> (usize, i64) {
    if node == used.len() {
        return (0, 0);
    }
    let mut best = best_from(heaviest, flag, used, node + 1);
    if used[node] {
        return best;
    }
    for partner in node + 1..used.len() {
        let Some(weight) = heaviest[node][partner] else {
            continue;
        };
        if !used[partner] {
            used[partner] = true;
            let (pairs, rest) = best_from(heaviest, flag, used, node + 1);
            used[partner] = false;
            best = best.max((pairs + usize::from(flag), rest + weight));
        }
    }
    best
}
