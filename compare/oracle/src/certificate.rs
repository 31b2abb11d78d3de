//! Document 01's certificate conditions 11 to 17, read from the paper: a matching that passes is optimal.

use crate::problem::{Problem, MISSING};

/// The number of the first condition that fails, if one does.
pub fn refused(problem: &Problem, mates: &[u16], duals: &[i64], parents: &[u16]) -> Option<u32> {
    let certificate = Certificate {
        problem,
        mates,
        duals,
        parents,
    };
    let conditions: [(u32, &dyn Fn() -> bool); 7] = [
        (11, &|| certificate.mate()),
        (12, &|| certificate.parent()),
        (13, &|| certificate.dual()),
        (14, &|| certificate.edge()),
        (15, &|| certificate.tight()),
        (16, &|| certificate.free()),
        (17, &|| certificate.full()),
    ];
    let failing = conditions.iter().find(|(_, holds)| !holds());
    failing.map(|(number, _)| *number)
}

struct Certificate<'a> {
    problem: &'a Problem,
    mates: &'a [u16],
    duals: &'a [i64],
    parents: &'a [u16],
}

impl Certificate<'_> {
    fn mate(&self) -> bool {
        (0..self.problem.nodes).all(|node| {
            let end = self.mates[node] as usize;
            self.mates[node] == MISSING
                || (end < 2 * self.problem.edges.len()
                    && self.problem.node_at(end ^ 1) == node
                    && self.mates[self.problem.node_at(end)] as usize == end ^ 1)
        })
    }

    fn parent(&self) -> bool {
        let nodes = self.problem.nodes;
        let is_group =
            |&parent: &u16| parent == MISSING || (nodes..2 * nodes).contains(&(parent as usize));
        self.parents.iter().all(is_group)
            && (0..2 * nodes).all(|number| self.above(number).count() <= nodes)
    }

    fn dual(&self) -> bool {
        let within = |dual: &i64| dual.unsigned_abs() <= 1 << 52;
        let signed = if self.problem.flag {
            self.problem.nodes
        } else {
            0
        };
        self.duals.iter().all(within) && self.duals[signed..].iter().all(|&dual| dual >= 0)
    }

    fn edge(&self) -> bool {
        (0..self.problem.edges.len()).all(|edge| self.slack(edge) >= 0)
    }

    fn tight(&self) -> bool {
        (0..self.problem.edges.len()).all(|edge| !self.is_matched(edge) || self.slack(edge) == 0)
    }

    fn free(&self) -> bool {
        let nodes = self.problem.nodes;
        let least = self.duals[..nodes].iter().min().map_or(0, |&dual| dual);
        let offset = if self.problem.flag {
            (-least).max(0)
        } else {
            0
        };
        (0..nodes).all(|node| self.mates[node] != MISSING || self.duals[node] + offset == 0)
    }

    fn full(&self) -> bool {
        let nodes = self.problem.nodes;
        let mut positive = (nodes..2 * nodes).filter(|group| self.duals[*group] > 0);
        positive.all(|group| {
            let lies = |node: &usize| self.above(*node).any(|outer| outer == group);
            let size = (0..nodes).filter(lies).count();
            let inside = |edge: &usize| {
                let (first, second, _) = self.problem.edges[*edge];
                self.is_matched(*edge) && lies(&first) && lies(&second)
            };
            let matched = (0..self.problem.edges.len()).filter(inside).count();
            size % 2 == 1 && matched == (size - 1) / 2
        })
    }

    /// The groups around a number, from the inmost out; one more than n where they do not end.
    fn above(&self, number: usize) -> impl Iterator<Item = usize> + '_ {
        let outer = |of: &usize| match self.parents[*of] {
            MISSING => None,
            parent => Some(parent as usize),
        };
        std::iter::successors(outer(&number), outer).take(self.problem.nodes + 1)
    }

    fn slack(&self, edge: usize) -> i64 {
        let (first, second, weight) = self.problem.edges[edge];
        let both = self
            .above(first)
            .filter(|group| self.above(second).any(|other| other == *group));
        let shared: i64 = both.map(|group| self.duals[group]).sum();
        self.duals[first] + self.duals[second] - 2 * weight + 2 * shared
    }

    fn is_matched(&self, edge: usize) -> bool {
        self.mates[self.problem.edges[edge].0] as usize == 2 * edge + 1
    }
}
