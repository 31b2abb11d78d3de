//! Long comparing runs: the source against its twin, the certificate and the second opinion.

use crate::brute;
use crate::certificate;
use crate::climb::{self, Goal, GOALS};
use crate::coverage::Coverage;
use crate::makers::{self, Size, LARGE, MEDIUM, SHAPES, SMALL, WEIGHTS};
use crate::problem::{Problem, MISSING};
use crate::random::Random;
use crate::run::{self, Pairs};
use crate::trace::Trace;

/// What one maker's runs showed.
#[derive(Default)]
struct Tally {
    runs: u64,
    second_opinions: u64,
    groups: usize,
    deepest: usize,
    within: usize,
    at_close: usize,
    rerooted: usize,
    /// steps and budget of the run that took the largest share
    share: (u64, u64),
    /// queue and moves of a loop, in hundredths of n
    queued: usize,
    moves: usize,
    /// the smallest problem with each trouble
    troubles: Vec<(String, Problem)>,
}

impl Tally {
    /// Runs a problem on both sides and notes what it shows.
    fn run(&mut self, problem: &Problem, coverage: &mut Coverage) -> Trace {
        let found = run::source(problem);
        let (twin_found, trace) = run::twin(problem);
        coverage.add(&trace);
        self.measure(problem, &trace);
        if let Some(cause) = trace.fault {
            self.trouble(format!("cause of FAULT: {cause}"), problem);
        }
        if found != twin_found {
            self.trouble("source and twin part".into(), problem);
        }
        match found {
            Err(stop) => self.trouble(format!("stop: {stop}"), problem),
            Ok(pairs) => self.judge(problem, &pairs, &trace),
        }
        trace
    }

    fn measure(&mut self, problem: &Problem, trace: &Trace) {
        self.runs += 1;
        self.groups = self.groups.max(trace.groups);
        self.deepest = self.deepest.max(trace.deepest);
        self.within = self.within.max(trace.expanded_within);
        self.at_close = self.at_close.max(trace.expanded_at_close);
        self.rerooted = self.rerooted.max(trace.rerooted);
        self.queued = self.queued.max(100 * trace.most_queued / problem.nodes);
        self.moves = self.moves.max(100 * trace.most_moves / problem.nodes);
        let share = (trace.steps(), problem.budget());
        if share.0 * self.share.1 >= self.share.0 * share.1 {
            self.share = share;
        }
    }

    /// Holds an answer against the certificate and, for few nodes, against brute force.
    fn judge(&mut self, problem: &Problem, pairs: &Pairs, trace: &Trace) {
        let refused = certificate::refused(problem, &trace.mates, &trace.duals, &trace.parents);
        if let Some(condition) = refused {
            self.trouble(format!("certificate refused: {condition}"), problem);
        }
        let mated = |node: &usize| trace.mates[*node] != MISSING;
        let pair = |node: usize| (node, problem.node_at(usize::from(trace.mates[node])));
        let mates = (0..problem.nodes).filter(mated).map(pair);
        if mates
            .filter(|(low, high)| low < high)
            .ne(pairs.iter().copied())
        {
            self.trouble("pairs and mates part".into(), problem);
        }
        if problem.nodes <= brute::MOST_NODES {
            self.second_opinions += 1;
            let count = if problem.flag { pairs.len() } else { 0 };
            if (count, problem.weight_of(pairs)) != brute::best(problem) {
                self.trouble("not the best matching".into(), problem);
            }
        }
    }

    fn trouble(&mut self, kind: String, problem: &Problem) {
        let size = |problem: &Problem| (problem.edges.len(), problem.nodes);
        match self.troubles.iter_mut().find(|(other, _)| *other == kind) {
            None => self.troubles.push((kind, problem.clone())),
            Some((_, kept)) if size(problem) < size(kept) => *kept = problem.clone(),
            Some(_) => {}
        }
    }

    fn report(&self, name: &str, seed: u64) {
        println!(
            "| {name} | {seed} | {} | {} | {} | {}/{} = {:.1} % | {} | {} | {} | {} | {} | {:.2} | {:.2} |",
            self.runs,
            self.second_opinions,
            self.troubles.len(),
            self.share.0,
            self.share.1,
            100.0 * self.share.0 as f64 / self.share.1.max(1) as f64,
            self.groups,
            self.deepest,
            self.within,
            self.at_close,
            self.rerooted,
            self.queued as f64 / 100.0,
            self.moves as f64 / 100.0,
        );
        for (kind, problem) in &self.troubles {
            println!("\n{kind}: {problem:?}\n");
        }
    }
}

/// Nodes and weights of the sweeps over every graph.
const EVERY: [(usize, &[i64]); 5] = [
    (2, &[-2, -1, 0, 1, 2, 3]),
    (3, &[-2, -1, 0, 1, 2, 3]),
    (4, &[-1, 0, 1, 2, 3]),
    (5, &[1, 2, 3]),
    (5, &[-1, 0, 1]),
];

/// Runs of each shape and kind of weights, half of them with the flag: node counts and how many.
const MADE: [(Size, usize); 3] = [(SMALL, 8_000), (MEDIUM, 2_500), (LARGE, 400)];

/// Climbs for each goal: node counts, how many, and tries of each.
const CLIMBS: [(Size, usize, usize); 3] = [
    ((6, 14), 60, 2_000),
    ((15, 30), 25, 1_500),
    ((40, 64), 6, 600),
];

/// Runs of each kind of weights on as many nodes and edges as there can be.
const FULL: usize = 60;

/// A run of a problem that is noted.
type Run<'a> = &'a mut dyn FnMut(&Problem) -> Trace;

/// Runs all makers and prints the table of them, then that of the branches; whether all is sound.
pub fn report() -> bool {
    let mut coverage = Coverage::default();
    let mut sound = true;
    println!("| maker | seed | runs | by brute force | troubles | largest share of the budget | groups | deepest | expanded within | at close | re-rooted | queue/n | moves/n |");
    println!("|---|---|---|---|---|---|---|---|---|---|---|---|---|");
    let mut seed = 0;
    let mut maker = |name: String, runs: &mut dyn FnMut(&mut Random, Run)| {
        let mut tally = Tally::default();
        seed += 1;
        runs(&mut Random::new(seed), &mut |problem| {
            tally.run(problem, &mut coverage)
        });
        tally.report(&name, seed);
        sound &= tally.troubles.is_empty();
    };
    for (nodes, weights) in EVERY {
        maker(
            format!("every graph on {nodes} nodes, weights {weights:?}"),
            &mut |random, run| {
                makers::every(nodes, weights, |problem| {
                    run(&problem);
                    run(&makers::shuffled(&problem, random));
                })
            },
        );
    }
    for shape in SHAPES {
        for weights in WEIGHTS {
            maker(format!("{shape:?}, {weights:?}"), &mut |random, run| {
                for (size, count) in MADE {
                    for number in 0..count {
                        run(&makers::make(shape, weights, size, number % 2 == 1, random));
                    }
                }
            });
        }
    }
    for goal in GOALS {
        for climbs in CLIMBS {
            let (low, high) = climbs.0;
            maker(
                format!("climbing, {goal:?}, {low} to {high} nodes"),
                &mut |random, run| {
                    climb_all(goal, climbs, random, run);
                },
            );
        }
    }
    maker("64 nodes and 2,048 edges".into(), &mut |random, run| {
        for weights in WEIGHTS {
            for number in 0..FULL {
                run(&makers::full(weights, number % 2 == 1, random));
            }
        }
    });
    println!();
    sound & coverage.report()
}

fn climb_all(
    goal: Goal,
    (size, count, tries): (Size, usize, usize),
    random: &mut Random,
    run: Run,
) {
    for _ in 0..count {
        climb::climb(goal, size, tries, random, &mut *run);
    }
}
