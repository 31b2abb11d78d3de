//! A problem: nodes, the flag for most pairs, and edges in list order.

use petgraph::graph::{NodeIndex, UnGraph};

/// The largest problem that document 01 lets in.
pub const MOST_NODES: usize = 64;
pub const MOST_EDGES: usize = 2048;
pub const MOST_WEIGHT: i64 = 1_000_000_000;

/// The entry of mates and parents that names nothing.
pub const MISSING: u16 = 65_535;

pub type Edge = (usize, usize, i64);

#[derive(Clone, Debug, PartialEq, Eq)]
pub struct Problem {
    pub nodes: usize,
    pub flag: bool,
    pub edges: Vec<Edge>,
}

impl Problem {
    /// The steps that a run may take by default.
    pub fn budget(&self) -> u64 {
        8 * self.nodes as u64 * (self.nodes as u64 + 1)
    }

    /// The node at an end.
    pub fn node_at(&self, end: usize) -> usize {
        let (first, second, _) = self.edges[end / 2];
        if end.is_multiple_of(2) {
            first
        } else {
            second
        }
    }

    /// The graph that the source is given: nodes ascending, edges in list order.
    pub fn graph(&self) -> UnGraph<(), i64> {
        let mut graph = UnGraph::with_capacity(self.nodes, self.edges.len());
        for _ in 0..self.nodes {
            graph.add_node(());
        }
        for &(first, second, weight) in &self.edges {
            graph.add_edge(NodeIndex::new(first), NodeIndex::new(second), weight);
        }
        graph
    }

    /// The total weight of pairs, each by the heaviest edge between its nodes.
    pub fn weight_of(&self, pairs: &[(usize, usize)]) -> i64 {
        let heaviest = |&(low, high): &(usize, usize)| {
            let between = |edge: &&Edge| (edge.0.min(edge.1), edge.0.max(edge.1)) == (low, high);
            let weights = self.edges.iter().filter(between).map(|edge| edge.2);
            weights.max().expect("a pair is an edge")
        };
        pairs.iter().map(heaviest).sum()
    }
}
