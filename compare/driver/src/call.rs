//! A call of the library: what it is given, what it is lent, and all that it leaves.

use crate::library;
use oracle::problem::Problem;
use oracle::random::Random;
use std::fmt;

/// The lengths of the three lent lists.
#[derive(Clone, Copy, Debug, PartialEq, Eq)]
pub struct Room {
    pub mates: usize,
    pub duals: usize,
    pub parents: usize,
}

impl Room {
    /// What n nodes need.
    pub fn needed(nodes: usize) -> Room {
        Room {
            mates: nodes,
            duals: 2 * nodes,
            parents: 2 * nodes,
        }
    }

    /// Each list as long as needed or longer.
    pub fn ample(nodes: usize, random: &mut Random) -> Room {
        let needed = Room::needed(nodes);
        let mut more = || random.pick(&[0, 0, 1, 3, 70]);
        Room {
            mates: needed.mates + more(),
            duals: needed.duals + more(),
            parents: needed.parents + more(),
        }
    }
}

/// The edges stand in three lists, as the C interface has them.
#[derive(Clone, Debug)]
pub struct Call {
    pub nodes: usize,
    pub first: Vec<u16>,
    pub second: Vec<u16>,
    pub weight: Vec<i64>,
    pub flag: bool,
    pub budget: u32,
    pub room: Room,
}

/// All that a plan call leaves: its answer, and the lent lists over their whole length.
#[derive(Debug, PartialEq, Eq)]
pub struct Left {
    pub number: u32,
    pub place: u32,
    pub steps: u32,
    pub mates: Vec<u16>,
    pub duals: Vec<i64>,
    pub parents: Vec<u16>,
}

/// What a check call is given to judge. Its lists are as long as they are lent.
#[derive(Clone, Debug)]
pub struct Certificate {
    pub mates: Vec<u16>,
    pub duals: Vec<i64>,
    pub parents: Vec<u16>,
}

impl Certificate {
    pub fn room(&self) -> Room {
        Room {
            mates: self.mates.len(),
            duals: self.duals.len(),
            parents: self.parents.len(),
        }
    }
}

/// What a check call answers.
#[derive(Debug, PartialEq, Eq)]
pub struct Verdict {
    pub number: u32,
    pub place: u32,
}

/// What a call may never do, whatever it answers.
pub type Damage = &'static str;

const EDGES_CHANGED: Damage = "an edge list is changed";
const CERTIFICATE_CHANGED: Damage = "the certificate is changed";
const MARGIN_CHANGED: Damage = "an entry outside a lent list is changed";

impl Call {
    pub fn new(problem: &Problem, budget: u32, room: Room) -> Call {
        let edges = &problem.edges;
        Call {
            nodes: problem.nodes,
            first: edges.iter().map(|edge| edge.0 as u16).collect(),
            second: edges.iter().map(|edge| edge.1 as u16).collect(),
            weight: edges.iter().map(|edge| edge.2).collect(),
            flag: problem.flag,
            budget,
            room,
        }
    }

    /// The problem of a call; its edge lists are of one length where it matters.
    pub fn problem(&self) -> Problem {
        let ends = self.first.iter().zip(&self.second);
        let edges = ends.zip(&self.weight);
        Problem {
            nodes: self.nodes,
            flag: self.flag,
            edges: edges
                .map(|((&first, &second), &weight)| (first.into(), second.into(), weight))
                .collect(),
        }
    }

    fn same_edges(&self, other: &Call) -> bool {
        self.first == other.first && self.second == other.second && self.weight == other.weight
    }

    /// Calls lotamife_plan. The lent lists, place and steps hold garbage on entry.
    pub fn plan(&self, random: &mut Random) -> Result<Left, Damage> {
        let given = self.clone();
        let garbage = Garbage::any(random);
        let mut mates = Lent::new(self.room.mates, || garbage.draw(random) as u16);
        let mut duals = Lent::new(self.room.duals, || garbage.draw(random) as i64);
        let mut parents = Lent::new(self.room.parents, || garbage.draw(random) as u16);
        let (mut place, mut steps) = (random.draw() as u32, random.draw() as u32);
        // SAFETY: each pointer is that of a list of the length beside it, and no two lists share an entry.
        let number = unsafe {
            library::lotamife_plan(
                given.nodes,
                given.first.as_ptr(),
                given.first.len(),
                given.second.as_ptr(),
                given.second.len(),
                given.weight.as_ptr(),
                given.weight.len(),
                given.flag,
                given.budget,
                mates.lend().as_mut_ptr(),
                self.room.mates,
                duals.lend().as_mut_ptr(),
                self.room.duals,
                parents.lend().as_mut_ptr(),
                self.room.parents,
                &mut place,
                &mut steps,
            )
        };
        if !given.same_edges(self) {
            return Err(EDGES_CHANGED);
        }
        Ok(Left {
            number,
            place,
            steps,
            mates: mates.back()?,
            duals: duals.back()?,
            parents: parents.back()?,
        })
    }

    /// Calls lotamife_check. Place holds garbage on entry.
    pub fn check(&self, certificate: &Certificate, random: &mut Random) -> Result<Verdict, Damage> {
        let (given, judged) = (self.clone(), certificate.clone());
        let mut place = random.draw() as u32;
        // SAFETY: each pointer is that of a list of the length beside it.
        let number = unsafe {
            library::lotamife_check(
                given.nodes,
                given.first.as_ptr(),
                given.first.len(),
                given.second.as_ptr(),
                given.second.len(),
                given.weight.as_ptr(),
                given.weight.len(),
                given.flag,
                judged.mates.as_ptr(),
                judged.mates.len(),
                judged.duals.as_ptr(),
                judged.duals.len(),
                judged.parents.as_ptr(),
                judged.parents.len(),
                &mut place,
            )
        };
        if !given.same_edges(self) {
            return Err(EDGES_CHANGED);
        }
        let same = judged.mates == certificate.mates
            && judged.duals == certificate.duals
            && judged.parents == certificate.parents;
        if !same {
            return Err(CERTIFICATE_CHANGED);
        }
        Ok(Verdict { number, place })
    }
}

impl fmt::Display for Call {
    /// The budget and the lengths of all lists, then nodes, flag and edges as the oracle takes them.
    fn fmt(&self, out: &mut fmt::Formatter) -> fmt::Result {
        let edges = [self.first.len(), self.second.len(), self.weight.len()];
        let room = [self.room.mates, self.room.duals, self.room.parents];
        write!(
            out,
            "budget {}, edge lists {edges:?}, lent lists {room:?}, ",
            self.budget
        )?;
        write!(out, "oracle one {} {}", self.nodes, u8::from(self.flag))?;
        for (first, second, weight) in self.problem().edges {
            write!(out, " {first}-{second}:{weight}")?;
        }
        Ok(())
    }
}

/// What a lent list holds on entry.
#[derive(Clone, Copy)]
enum Garbage {
    Noise,
    Zeros,
    Ones,
    /// numbers that could be nodes, ends or groups
    Likely,
}

impl Garbage {
    fn any(random: &mut Random) -> Garbage {
        random.pick(&[
            Garbage::Noise,
            Garbage::Zeros,
            Garbage::Ones,
            Garbage::Likely,
        ])
    }

    fn draw(self, random: &mut Random) -> u64 {
        match self {
            Garbage::Noise => random.draw(),
            Garbage::Zeros => 0,
            Garbage::Ones => u64::MAX,
            Garbage::Likely => random.draw() % 130,
        }
    }
}

/// A list that is lent, between two margins that are not.
struct Lent<T> {
    all: Vec<T>,
    entered: Vec<T>,
}

const MARGIN: usize = 4;

impl<T: Copy + PartialEq> Lent<T> {
    fn new(length: usize, mut entry: impl FnMut() -> T) -> Lent<T> {
        let entered: Vec<T> = (0..length + 2 * MARGIN).map(|_| entry()).collect();
        Lent {
            all: entered.clone(),
            entered,
        }
    }

    fn lend(&mut self) -> &mut [T] {
        let end = self.all.len() - MARGIN;
        &mut self.all[MARGIN..end]
    }

    /// The list as the call left it.
    fn back(self) -> Result<Vec<T>, Damage> {
        let end = self.all.len() - MARGIN;
        let same =
            self.all[..MARGIN] == self.entered[..MARGIN] && self.all[end..] == self.entered[end..];
        match same {
            true => Ok(self.all[MARGIN..end].to_vec()),
            false => Err(MARGIN_CHANGED),
        }
    }
}
