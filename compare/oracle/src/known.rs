//! Problems whose answers are written down: document 01's rows, and six worked ones on turning, expanding and
//! nesting groups.

use crate::certificate;
use crate::list::Record;
use crate::problem::{Edge, Problem, MISSING};

/// A problem and its answer. Group duals not named are 0, parents not named are missing, and mates are held
/// against the answer where they are given.
pub struct Known {
    name: &'static str,
    nodes: usize,
    flag: bool,
    edges: &'static [Edge],
    steps: u64,
    pairs: &'static [(usize, usize)],
    mates: Option<&'static [u16]>,
    node_duals: &'static [i64],
    group_duals: &'static [(usize, i64)],
    parents: &'static [(usize, u16)],
}

const PLAIN: Known = Known {
    name: "",
    nodes: 2,
    flag: false,
    edges: &[],
    steps: 0,
    pairs: &[],
    mates: None,
    node_duals: &[],
    group_duals: &[],
    parents: &[],
};

const P8_EDGES: &[Edge] = &[(0, 1, 5), (1, 2, 11), (2, 3, 5)];

#[rustfmt::skip]
pub const KNOWN: [Known; 16] = [
    Known { name: "P1", nodes: 0, ..PLAIN },
    Known { name: "P2", nodes: 3, node_duals: &[0, 0, 0], ..PLAIN },
    Known {
        name: "P3",
        edges: &[(0, 1, 5)],
        steps: 5,
        pairs: &[(0, 1)],
        node_duals: &[5, 5],
        ..PLAIN
    },
    Known {
        name: "P4",
        edges: &[(0, 1, 0)],
        steps: 5,
        pairs: &[(0, 1)],
        node_duals: &[0, 0],
        ..PLAIN
    },
    Known { name: "P5", edges: &[(0, 1, -1)], steps: 4, node_duals: &[0, 0], ..PLAIN },
    Known {
        name: "P6, P10",
        flag: true,
        edges: &[(0, 1, -1)],
        steps: 8,
        pairs: &[(0, 1)],
        node_duals: &[-1, -1],
        ..PLAIN
    },
    Known {
        name: "P7",
        nodes: 3,
        edges: &[(0, 1, 4), (1, 2, 4), (0, 2, 4)],
        steps: 8,
        pairs: &[(1, 2)],
        node_duals: &[0, 0, 0],
        group_duals: &[(5, 4)],
        parents: &[(0, 5), (1, 5), (2, 5)],
        ..PLAIN
    },
    Known {
        name: "P8",
        nodes: 4,
        edges: P8_EDGES,
        steps: 8,
        pairs: &[(1, 2)],
        node_duals: &[0, 11, 11, 0],
        ..PLAIN
    },
    Known {
        name: "P9",
        nodes: 4,
        flag: true,
        edges: P8_EDGES,
        steps: 13,
        pairs: &[(0, 1), (2, 3)],
        node_duals: &[-1, 11, 11, -1],
        ..PLAIN
    },
    Known {
        name: "P13",
        edges: &[(0, 1, 3), (0, 1, 7)],
        steps: 5,
        pairs: &[(0, 1)],
        mates: Some(&[3, 2]),
        node_duals: &[7, 7],
        ..PLAIN
    },
    Known {
        name: "w1, a group is turned and stays",
        nodes: 4,
        edges: &[(0, 1, 8), (0, 2, 9), (1, 2, 10), (2, 3, 7)],
        steps: 18,
        pairs: &[(0, 1), (2, 3)],
        mates: Some(&[1, 0, 7, 6]),
        node_duals: &[5, 7, 9, 5],
        group_duals: &[(7, 2)],
        parents: &[(0, 7), (1, 7), (2, 7)],
        ..PLAIN
    },
    Known {
        name: "w2, a group turns the group within it",
        nodes: 6,
        edges: &[
            (0, 1, 9), (0, 2, 9), (1, 2, 10), (1, 3, 8), (2, 4, 8), (3, 4, 10), (4, 5, 6),
        ],
        steps: 24,
        pairs: &[(0, 2), (1, 3), (4, 5)],
        mates: Some(&[3, 7, 2, 6, 13, 12]),
        node_duals: &[3, 5, 5, 9, 9, 3],
        group_duals: &[(10, 1), (11, 4)],
        parents: &[(0, 11), (1, 11), (2, 11), (3, 10), (4, 10), (11, 10)],
        ..PLAIN
    },
    Known {
        name: "w3, nested groups are expanded at the close of a stage",
        nodes: 8,
        edges: &[
            (0, 1, 8), (0, 2, 8), (1, 2, 10), (1, 3, 12), (2, 4, 12), (3, 4, 14), (3, 5, 12),
            (4, 6, 12), (5, 6, 14), (6, 7, 12),
        ],
        steps: 28,
        pairs: &[(0, 1), (2, 4), (3, 5), (6, 7)],
        mates: Some(&[1, 0, 9, 13, 8, 12, 19, 18]),
        node_duals: &[6, 10, 10, 14, 14, 10, 18, 6],
        ..PLAIN
    },
    Known {
        name: "w4, a label-2 group is expanded within a stage",
        nodes: 8,
        edges: &[
            (0, 1, 23), (0, 4, 22), (0, 5, 15), (1, 2, 25), (2, 3, 22), (3, 4, 25), (3, 7, 14),
            (4, 6, 13),
        ],
        steps: 43,
        pairs: &[(0, 5), (1, 2), (3, 7), (4, 6)],
        mates: Some(&[5, 7, 6, 13, 15, 4, 14, 12]),
        node_duals: &[20, 29, 21, 26, 24, 10, 2, 2],
        ..PLAIN
    },
    Known {
        name: "w5, a label-2 group of five is expanded and labelled anew",
        nodes: 10,
        edges: &[
            (0, 1, 45), (0, 4, 45), (1, 2, 50), (2, 3, 45), (3, 4, 50), (0, 5, 30), (2, 8, 35),
            (3, 7, 35), (4, 6, 26), (8, 9, 5),
        ],
        steps: 56,
        pairs: &[(0, 5), (1, 2), (3, 7), (4, 6), (8, 9)],
        mates: Some(&[11, 5, 4, 15, 17, 10, 16, 14, 19, 18]),
        node_duals: &[55, 35, 65, 59, 41, 5, 11, 11, 5, 5],
        ..PLAIN
    },
    Known {
        name: "w6, a label-2 group is expanded and the group within it stays",
        nodes: 12,
        edges: &[
            (0, 1, 45), (0, 6, 45), (1, 2, 50), (2, 3, 45), (3, 4, 95), (3, 5, 94), (4, 5, 94),
            (5, 6, 50), (0, 7, 30), (2, 10, 35), (4, 8, 36), (6, 9, 26), (10, 11, 5),
        ],
        steps: 78,
        pairs: &[(0, 7), (1, 2), (3, 5), (4, 8), (6, 9), (10, 11)],
        mates: Some(&[17, 5, 4, 11, 21, 10, 23, 16, 20, 22, 25, 24]),
        node_duals: &[55, 35, 65, 61, 61, 59, 41, 5, 11, 11, 5, 5],
        group_duals: &[(23, 34)],
        parents: &[(3, 23), (4, 23), (5, 23)],
        ..PLAIN
    },
];

impl Known {
    pub fn problem(&self) -> Problem {
        Problem {
            nodes: self.nodes,
            flag: self.flag,
            edges: self.edges.to_vec(),
        }
    }

    fn holds(&self) -> bool {
        let record = Record::answer(&self.problem());
        let mut duals = self.node_duals.to_vec();
        duals.resize(2 * self.nodes, 0);
        for &(group, dual) in self.group_duals {
            duals[group] = dual;
        }
        let mut parents = vec![MISSING; 2 * self.nodes];
        for &(number, parent) in self.parents {
            parents[number] = parent;
        }
        (record.steps, &record.pairs[..]) == (self.steps, self.pairs)
            && self.mates.is_none_or(|mates| record.mates == mates)
            && (record.duals, record.parents) == (duals, parents)
    }
}

/// Prints a line for every row; whether all hold.
pub fn report() -> bool {
    let mut all = true;
    let mut tell = |name: &str, holds: bool| {
        println!("{}: {name}", if holds { "holds" } else { "FAILS" });
        all &= holds;
    };
    for known in &KNOWN {
        tell(known.name, known.holds());
    }
    let refused = |flag: bool, checked: bool| {
        let mut problem = Problem {
            nodes: 4,
            flag,
            edges: P8_EDGES.to_vec(),
        };
        let record = Record::answer(&problem);
        problem.flag = checked;
        certificate::refused(&problem, &record.mates, &record.duals, &record.parents)
    };
    tell("P11", refused(false, true).is_none());
    tell("P12", refused(true, false) == Some(13));
    all
}
