//! The makers' problems, and the calls that each is run with.

use crate::call::{Call, Certificate, Room};
use crate::certificates;
use crate::expect::{self, Said};
use crate::limits::{self, Change};
use crate::tally::Tally;
use oracle::climb::{self, Goal};
use oracle::list::Record;
use oracle::makers::{self, Shape, Size, WEIGHTS};
use oracle::problem::Problem;
use oracle::random::Random;
use oracle::trace::Trace;

/// How much is run.
pub struct Extent {
    /// nodes and weights of the runs over every graph
    pub every: &'static [(usize, &'static [i64])],
    /// for each shape and kind of weights: node counts and how many
    pub made: [(Size, usize); 3],
    /// for each kind of weights, on as many nodes and edges as there can be
    pub full: usize,
    /// for each goal: node counts, climbs, and tries of each
    pub climbs: &'static [(Size, usize, usize)],
    /// problems of at most so many nodes are run with every two changes to a limit, the others with each one
    pub two_changes: usize,
}

pub const WHOLE: Extent = Extent {
    every: &[
        (0, &[]),
        (1, &[]),
        (2, &[-2, -1, 0, 1, 2, 3]),
        (3, &[-2, -1, 0, 1, 2, 3]),
        (4, &[-1, 0, 1, 2, 3]),
        (5, &[1, 2, 3]),
        (5, &[-1, 0, 1]),
        (5, &[-1_000_000_000, 999_999_999, 1_000_000_000]),
    ],
    made: [((6, 9), 1_000), ((10, 20), 600), ((21, 64), 200)],
    full: 20,
    climbs: &[((6, 14), 20, 1_000), ((15, 30), 8, 600), ((40, 64), 2, 300)],
    two_changes: 64,
};

pub const QUICK: Extent = Extent {
    every: &[
        (0, &[]),
        (1, &[]),
        (2, &[-2, -1, 0, 1, 2, 3]),
        (3, &[-2, -1, 0, 1, 2, 3]),
        (4, &[-1, 0, 2]),
        (5, &[1, 2]),
    ],
    made: [((6, 9), 40), ((10, 20), 20), ((21, 64), 5)],
    full: 2,
    climbs: &[((6, 14), 2, 300), ((15, 30), 1, 100)],
    two_changes: 5,
};

impl Tally {
    /// Runs a problem on both sides, with budgets that are enough and not, and checks certificates of it.
    pub fn problem(&mut self, problem: &Problem, changed: usize, random: &mut Random) -> Trace {
        self.problems += 1;
        let room = Room::ample(problem.nodes, random);
        let mut call = Call::new(problem, u32::MAX, room);
        let said = match expect::ask(problem) {
            Ok(said) => said,
            Err(stop) => {
                self.trouble(stop, &call);
                return Trace::default();
            }
        };
        let needed = said.steps();
        let default = problem.budget().max(needed.into()) as u32;
        call.budget = random.pick(&[needed, needed, needed + 1, default, u32::MAX]);
        self.plan(&call, Some(&said), random);
        if needed > 0 {
            call.room = Room::ample(problem.nodes, random);
            let fewer = random.below(needed as usize) as u32;
            call.budget = random.pick(&[0, needed - 1, needed - 1, fewer]);
            self.plan(&call, Some(&said), random);
        }
        self.judge(&call, &said, changed, random);
        said.trace
    }

    /// Checks the certificate of a run, and so many changed ones.
    fn judge(&mut self, call: &Call, said: &Said, changed: usize, random: &mut Random) {
        let judged = lengthened(said.certificate(), call.room, random);
        self.check(call, &judged, random);
        for _ in 0..changed {
            if call.nodes > 0 {
                let (mut call, mut judged) = (call.clone(), judged.clone());
                for _ in 0..1 + random.below(2) {
                    certificates::change(&mut call, &mut judged, random);
                }
                self.check(&call, &judged, random);
            }
        }
    }

    /// Runs a call on one side of a limit with the budgets that document 01 names.
    fn limit(&mut self, call: &mut Call, certificate: &Certificate, random: &mut Random) {
        let refused = expect::refusal(call, call.room).is_some();
        let said = match refused {
            true => None,
            false => match expect::ask(&call.problem()) {
                Ok(said) => Some(said),
                Err(stop) => return self.trouble(stop, call),
            },
        };
        let needed = said.as_ref().map_or(1, Said::steps);
        for budget in [0, needed.saturating_sub(1), needed, u32::MAX] {
            call.budget = budget;
            self.plan(call, said.as_ref(), random);
        }
        let judged = said.map_or(certificate.clone(), |said| said.certificate());
        let judged = lengthened(judged, call.room, random);
        self.check(call, &judged, random);
    }
}

/// The lists at the lengths of a room; what is longer holds garbage there.
fn lengthened(mut judged: Certificate, room: Room, random: &mut Random) -> Certificate {
    judged
        .mates
        .resize_with(room.mates, || random.draw() as u16);
    judged
        .duals
        .resize_with(room.duals, || random.draw() as i64);
    judged
        .parents
        .resize_with(room.parents, || random.draw() as u16);
    judged
}

/// Every graph on so many nodes, with both flags; each once more with its edges shuffled and turned.
pub fn every(tally: &mut Tally, nodes: usize, weights: &[i64], random: &mut Random) {
    makers::every(nodes, weights, |problem| {
        tally.problem(&problem, 1, random);
        let other = makers::shuffled(&problem, random);
        tally.problem(&other, 1, random);
    });
}

/// One shape with every kind of weights, half of them with the flag.
pub fn made(tally: &mut Tally, shape: Shape, sizes: &[(Size, usize)], random: &mut Random) {
    for weights in WEIGHTS {
        for &(size, count) in sizes {
            for number in 0..count {
                let problem = makers::make(shape, weights, size, number % 2 == 1, random);
                tally.problem(&problem, 4, random);
            }
        }
    }
}

pub fn full(tally: &mut Tally, count: usize, random: &mut Random) {
    for weights in WEIGHTS {
        for number in 0..count {
            let problem = makers::full(weights, number % 2 == 1, random);
            tally.problem(&problem, 4, random);
        }
    }
}

pub fn climbed(
    tally: &mut Tally,
    goal: Goal,
    climbs: &[(Size, usize, usize)],
    random: &mut Random,
) {
    for &(size, count, tries) in climbs {
        for _ in 0..count {
            let mut calls = Random::new(random.draw());
            climb::climb(goal, size, tries, random, |problem| {
                tally.problem(problem, 1, &mut calls)
            });
        }
    }
}

pub fn listed(tally: &mut Tally, records: &[Record], random: &mut Random) {
    for record in records {
        tally.problem(&record.problem, 4, random);
    }
}

/// Every problem of the limits with each change, and the smaller ones with each two.
pub fn limits(tally: &mut Tally, two_changes: usize, random: &mut Random) {
    let changes = limits::changes();
    for problem in limits::problems(random) {
        tally.problems += 1;
        let second = match problem.nodes <= two_changes {
            true => &changes[..],
            false => &changes[..1],
        };
        let Ok(said) = expect::ask(&problem) else {
            continue;
        };
        let plain = Call::new(&problem, 0, Room::needed(problem.nodes));
        for one in &changes {
            for other in second {
                let mut call = changed(&plain, one, other);
                tally.limit(&mut call, &said.certificate(), random);
            }
        }
    }
}

fn changed(plain: &Call, one: &Change, other: &Change) -> Call {
    let mut call = plain.clone();
    one(&mut call);
    other(&mut call);
    call
}
