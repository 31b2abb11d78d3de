//! The fixed list: problems with the oracle's answers, and its bytes. All numbers are little-endian.
//!
//! The file is the four bytes of MAGIC, the count of records (4 bytes) and the records. A record is
//! n (1), flag (1), m (2), m edges of two ends (1, 1) and a signed weight (4), steps (4), the count of pairs
//! (1), the pairs of lower and higher node (1, 1) ascending, n mates (2), 2n signed duals (8), 2n parents (2).

use crate::problem::Problem;
use crate::run::{self, Pairs};
use crate::trace::Trace;

const MAGIC: [u8; 4] = *b"PAIR";

#[derive(Clone, Debug, PartialEq, Eq)]
pub struct Record {
    pub problem: Problem,
    pub steps: u64,
    pub pairs: Pairs,
    pub mates: Vec<u16>,
    pub duals: Vec<i64>,
    pub parents: Vec<u16>,
}

impl Record {
    pub fn new(problem: &Problem, pairs: Pairs, trace: &Trace) -> Record {
        Record {
            problem: problem.clone(),
            steps: trace.steps(),
            pairs,
            mates: trace.mates.clone(),
            duals: trace.duals.clone(),
            parents: trace.parents.clone(),
        }
    }

    /// The record of a problem: pairs of the unchanged source, the rest of the twin.
    pub fn answer(problem: &Problem) -> Record {
        let pairs = run::source(problem).expect("the source does not stop");
        let (twin_pairs, trace) = run::twin(problem);
        assert!(twin_pairs.as_ref() == Ok(&pairs), "the twin differs");
        Record::new(problem, pairs, &trace)
    }

    fn write(&self, out: &mut Vec<u8>) {
        let problem = &self.problem;
        out.extend([problem.nodes as u8, problem.flag as u8]);
        out.extend((problem.edges.len() as u16).to_le_bytes());
        for &(first, second, weight) in &problem.edges {
            out.extend([first as u8, second as u8]);
            out.extend((weight as i32).to_le_bytes());
        }
        out.extend((self.steps as u32).to_le_bytes());
        out.push(self.pairs.len() as u8);
        for &(low, high) in &self.pairs {
            out.extend([low as u8, high as u8]);
        }
        out.extend(self.mates.iter().flat_map(|mate| mate.to_le_bytes()));
        out.extend(self.duals.iter().flat_map(|dual| dual.to_le_bytes()));
        out.extend(self.parents.iter().flat_map(|parent| parent.to_le_bytes()));
    }

    fn read(bytes: &mut Bytes) -> Record {
        let nodes = bytes.byte();
        let flag = bytes.byte() == 1;
        let edge_count = u16::from_le_bytes(bytes.take());
        let mut edge = || {
            let ends = (bytes.byte(), bytes.byte());
            (ends.0, ends.1, i64::from(i32::from_le_bytes(bytes.take())))
        };
        let edges = (0..edge_count).map(|_| edge()).collect();
        let steps = u64::from(u32::from_le_bytes(bytes.take()));
        let pair_count = bytes.byte();
        let pairs = (0..pair_count)
            .map(|_| (bytes.byte(), bytes.byte()))
            .collect();
        let mates = bytes.shorts(nodes);
        let duals = (0..2 * nodes)
            .map(|_| i64::from_le_bytes(bytes.take()))
            .collect();
        let parents = bytes.shorts(2 * nodes);
        let problem = Problem { nodes, flag, edges };
        Record {
            problem,
            steps,
            pairs,
            mates,
            duals,
            parents,
        }
    }
}

/// The bytes of a file and the place reached in them.
struct Bytes<'a> {
    all: &'a [u8],
    place: usize,
}

impl Bytes<'_> {
    fn take<const N: usize>(&mut self) -> [u8; N] {
        let from = self.place;
        self.place += N;
        self.all[from..self.place].try_into().unwrap()
    }

    fn byte(&mut self) -> usize {
        let [byte] = self.take();
        usize::from(byte)
    }

    fn shorts(&mut self, count: usize) -> Vec<u16> {
        (0..count)
            .map(|_| u16::from_le_bytes(self.take()))
            .collect()
    }
}

pub fn write(records: &[Record]) -> Vec<u8> {
    let mut out = MAGIC.to_vec();
    out.extend((records.len() as u32).to_le_bytes());
    for record in records {
        record.write(&mut out);
    }
    out
}

pub fn read(all: &[u8]) -> Vec<Record> {
    let mut bytes = Bytes { all, place: 0 };
    assert!(bytes.take() == MAGIC, "the file is a list of answers");
    let count = u32::from_le_bytes(bytes.take());
    let records = (0..count).map(|_| Record::read(&mut bytes)).collect();
    assert!(bytes.place == all.len(), "nothing stands after the records");
    records
}
