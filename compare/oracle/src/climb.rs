//! Climbing: a problem is changed at random, and the change is kept where the run gets richer.

use crate::makers::{self, Size, SHAPES, WEIGHTS};
use crate::problem::{Problem, MOST_EDGES, MOST_WEIGHT};
use crate::random::Random;
use crate::trace::Trace;

#[derive(Clone, Copy, Debug, PartialEq, Eq)]
pub enum Goal {
    Groups,
    Depth,
    Expansions,
    Branches,
    Steps,
}

pub const GOALS: [Goal; 5] = [
    Goal::Groups,
    Goal::Depth,
    Goal::Expansions,
    Goal::Branches,
    Goal::Steps,
];

fn score(goal: Goal, trace: &Trace) -> [usize; 3] {
    let (groups, depth, within) = (trace.groups, trace.deepest, trace.expanded_within);
    match goal {
        Goal::Groups => [groups, within, depth],
        Goal::Depth => [depth, groups, within],
        Goal::Expansions => [within, depth, groups],
        Goal::Branches => {
            let taken = trace.branches.iter().flatten().filter(|&&times| times > 0);
            [taken.count(), trace.rerooted, within]
        }
        Goal::Steps => [trace.steps() as usize, groups, within],
    }
}

/// Climbs from a made problem by `run`, which gives the trace of a run; the best problem is the result.
pub fn climb(
    goal: Goal,
    size: Size,
    tries: usize,
    random: &mut Random,
    mut run: impl FnMut(&Problem) -> Trace,
) -> Problem {
    let (shape, weights) = (random.pick(&SHAPES), random.pick(&WEIGHTS));
    let mut best = makers::make(shape, weights, size, random.chance(50), random);
    let mut best_score = score(goal, &run(&best));
    for _ in 0..tries {
        let mut other = best.clone();
        for _ in 0..1 + random.below(3) {
            change(&mut other, random);
        }
        let other_score = score(goal, &run(&other));
        if other_score >= best_score {
            (best, best_score) = (other, other_score);
        }
    }
    best
}

fn change(problem: &mut Problem, random: &mut Random) {
    let count = problem.edges.len();
    let at = random.below(count);
    match random.below(16) {
        0..=6 => {
            let step = random.pick(&[-4, -2, -1, 1, 2, 4]);
            let weight = (problem.edges[at].2 + step).clamp(-MOST_WEIGHT, MOST_WEIGHT);
            problem.edges[at].2 = weight;
        }
        7..=8 => problem.edges[at].2 = problem.edges[random.below(count)].2,
        9..=10 => problem.edges.swap(at, random.below(count)),
        11 => {
            problem.edges[at] = (
                problem.edges[at].1,
                problem.edges[at].0,
                problem.edges[at].2,
            )
        }
        12 => {
            let other = random.below(problem.nodes);
            if other != problem.edges[at].0 {
                problem.edges[at].1 = other;
            }
        }
        13..=14 if count < MOST_EDGES => {
            let (first, second) = (random.below(problem.nodes), random.below(problem.nodes));
            if first != second {
                problem
                    .edges
                    .insert(at, (first, second, problem.edges[at].2));
            }
        }
        _ if count > 1 => {
            problem.edges.remove(at);
        }
        _ => {}
    }
}
