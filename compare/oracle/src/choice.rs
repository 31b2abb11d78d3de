//! The choice of the fixed list: the same problems every time, as different from each other as can be had, and
//! some more for the planted mistakes that few of them tell.

use crate::climb::{self, GOALS};
use crate::coverage;
use crate::known::KNOWN;
use crate::list::Record;
use crate::makers::{self, Shape, Size, Weights, LARGE, SHAPES, SMALL, WEIGHTS};
use crate::planted;
use crate::problem::Problem;
use crate::random::Random;
use crate::run;
use std::collections::HashSet;

/// Problems of each shape, kind of weights and flag: node counts and how many are kept.
const MADE: [(Size, usize); 2] = [(SMALL, 18), ((10, 16), 5)];
/// How many are made for one that is kept.
const POOL: usize = 40;
/// How many graphs on few nodes are kept.
const FEW: usize = 400;
/// Climbs for each goal.
const CLIMBS: usize = 180;
const CLIMB_TRIES: usize = 600;
/// Large problems of each shape.
const LARGE_MADE: usize = 3;
/// How many records tell each planted mistake, at least, and the shapes and weights in which more are sought.
const TELLING: usize = 12;
const TELLING_SHAPES: [Shape; 3] = [Shape::Dense, Shape::Complete, Shape::Cliques];
const TELLING_SIZE: Size = (8, 14);

/// Chooses from a pool: first those whose branches no earlier problem took in the same way.
struct Chooser {
    seen: HashSet<Vec<[bool; 2]>>,
    kept: Vec<Problem>,
}

impl Chooser {
    fn choose(&mut self, pool: Vec<Problem>, count: usize) {
        let mut known = Vec::new();
        let before = self.kept.len();
        for problem in pool {
            if self.kept.len() == before + count {
                return;
            }
            let (_, trace) = run::twin(&problem);
            if self.seen.insert(coverage::signature(&trace)) {
                self.kept.push(problem);
            } else {
                known.push(problem);
            }
        }
        let missing = before + count - self.kept.len();
        self.kept.extend(known.into_iter().take(missing));
    }
}

/// The records of the fixed list.
pub fn records() -> Vec<Record> {
    let mut random = Random::new(2024);
    let mut chooser = Chooser {
        seen: HashSet::new(),
        kept: Vec::new(),
    };
    chooser
        .kept
        .extend(KNOWN.iter().map(|known| known.problem()));
    chooser.choose(few_nodes(&mut random), FEW);
    for shape in SHAPES {
        for weights in WEIGHTS {
            for (size, count) in MADE {
                for flag in [false, true] {
                    let make = |_| makers::make(shape, weights, size, flag, &mut random);
                    chooser.choose((0..POOL * count).map(make).collect(), count);
                }
            }
        }
    }
    for goal in GOALS {
        let climb = |_| {
            climb::climb(goal, (6, 13), CLIMB_TRIES, &mut random, |problem| {
                run::twin(problem).1
            })
        };
        chooser.choose((0..CLIMBS).map(climb).collect(), CLIMBS);
    }
    chooser.kept.extend(large(&mut random));
    let mut records = chooser.kept.iter().map(Record::answer).collect();
    tell_all(&mut records, &mut random);
    records
}

/// Adds problems until each planted mistake is told by enough.
fn tell_all(records: &mut Vec<Record>, random: &mut Random) {
    for &(_, runner) in planted::PLANTED {
        let mut told = records
            .iter()
            .filter(|record| planted::tells(runner, record))
            .count();
        while told < TELLING {
            let (shape, weights) = (random.pick(&TELLING_SHAPES), random.pick(&WEIGHTS));
            let problem = makers::make(shape, weights, TELLING_SIZE, random.chance(50), random);
            let record = Record::answer(&problem);
            if planted::tells(runner, &record) {
                records.push(record);
                told += 1;
            }
        }
    }
}

/// Graphs on up to five nodes.
fn few_nodes(random: &mut Random) -> Vec<Problem> {
    let mut pool = Vec::new();
    for (nodes, weights) in [
        (3, &[-1, 0, 1, 2][..]),
        (4, &[-1, 0, 2][..]),
        (5, &[1, 2][..]),
    ] {
        makers::every(nodes, weights, |problem| {
            pool.push(makers::shuffled(&problem, random))
        });
    }
    random.shuffle(&mut pool);
    pool
}

/// Problems up to the limits of nodes, edges and weights.
fn large(random: &mut Random) -> Vec<Problem> {
    let mut out = Vec::new();
    for shape in SHAPES {
        if shape != Shape::Dense && shape != Shape::Complete {
            for number in 0..LARGE_MADE {
                let weights = random.pick(&WEIGHTS);
                out.push(makers::make(shape, weights, LARGE, number % 2 == 1, random));
            }
        }
    }
    for (weights, flag) in [
        (Weights::Wide, false),
        (Weights::Small, true),
        (Weights::Sloped, false),
    ] {
        out.push(makers::full(weights, flag, random));
    }
    out
}
