//! Makers of problems: shapes of graphs, kinds of weights, and every graph on a few nodes.

use crate::problem::{Edge, Problem, MOST_EDGES, MOST_NODES, MOST_WEIGHT};
use crate::random::Random;

#[derive(Clone, Copy, Debug, PartialEq, Eq)]
pub enum Shape {
    Sparse,
    Dense,
    Complete,
    Path,
    OddCycle,
    Cliques,
    Triangles,
    Nested,
    Parallel,
    Isolated,
}

pub const SHAPES: [Shape; 10] = [
    Shape::Sparse,
    Shape::Dense,
    Shape::Complete,
    Shape::Path,
    Shape::OddCycle,
    Shape::Cliques,
    Shape::Triangles,
    Shape::Nested,
    Shape::Parallel,
    Shape::Isolated,
];

/// Kinds of weights. Sloped ones rise or fall along the shape, so that groups nest; wide ones reach the limits.
#[derive(Clone, Copy, Debug, PartialEq, Eq)]
pub enum Weights {
    Equal,
    ZeroOne,
    AroundZero,
    Small,
    Sloped,
    Wide,
}

pub const WEIGHTS: [Weights; 6] = [
    Weights::Equal,
    Weights::ZeroOne,
    Weights::AroundZero,
    Weights::Small,
    Weights::Sloped,
    Weights::Wide,
];

/// The node counts of a class of problems, first and last.
pub type Size = (i64, i64);
pub const SMALL: Size = (2, 9);
pub const MEDIUM: Size = (10, 20);
pub const LARGE: Size = (21, MOST_NODES as i64);

/// A problem of this shape, with nodes renamed, edges turned and their order shuffled.
pub fn make(
    shape: Shape,
    weights: Weights,
    size: Size,
    flag: bool,
    random: &mut Random,
) -> Problem {
    let nodes = random.between(size.0, size.1) as usize;
    let mut edges = weigh(&joins(shape, nodes, random), weights, random);
    let mut names: Vec<usize> = (0..nodes).collect();
    random.shuffle(&mut names);
    for edge in &mut edges {
        let (first, second) = (names[edge.0], names[edge.1]);
        (edge.0, edge.1) = if random.chance(50) {
            (first, second)
        } else {
            (second, first)
        };
    }
    random.shuffle(&mut edges);
    edges.truncate(MOST_EDGES);
    Problem { nodes, flag, edges }
}

type Joins = Vec<(usize, usize)>;

fn joins(shape: Shape, nodes: usize, random: &mut Random) -> Joins {
    match shape {
        Shape::Sparse => some(nodes, 250 / nodes + 2, random),
        Shape::Dense => {
            let percent = random.between(40, 95) as usize;
            some(nodes, percent, random)
        }
        Shape::Complete => some(nodes, 100, random),
        Shape::Path => (1..nodes).map(|node| (node - 1, node)).collect(),
        Shape::OddCycle => odd_cycle(nodes, random),
        Shape::Cliques => cliques(nodes, random),
        Shape::Triangles => triangles(nodes, random),
        Shape::Nested => nested(nodes, random),
        Shape::Parallel => parallel(nodes, random),
        Shape::Isolated => {
            let joined = 2 + random.below(nodes - 1);
            some(joined, 60, random)
        }
    }
}

/// Each pair of nodes with this chance, one at least.
fn some(nodes: usize, percent: usize, random: &mut Random) -> Joins {
    let mut out = Joins::new();
    for second in 1..nodes {
        for first in 0..second {
            if random.chance(percent) {
                out.push((first, second));
            }
        }
    }
    if out.is_empty() {
        out.push((0, 1));
    }
    out
}

fn two_nodes(nodes: usize, random: &mut Random) -> (usize, usize) {
    let first = random.below(nodes);
    (first, (first + 1 + random.below(nodes - 1)) % nodes)
}

/// One odd cycle; the other nodes hang on it, and a few chords.
fn odd_cycle(nodes: usize, random: &mut Random) -> Joins {
    let longest = (nodes - 1) / 2;
    let around = if longest == 0 {
        1
    } else {
        1 + 2 * (1 + random.below(longest))
    };
    let mut out: Joins = (1..around).map(|node| (node - 1, node)).collect();
    if around > 1 {
        out.push((around - 1, 0));
    }
    out.extend((around..nodes).map(|node| (random.below(node), node)));
    for _ in 0..random.below(4) {
        out.push(two_nodes(nodes, random));
    }
    out
}

/// Cliques of three to seven nodes, each joined to an earlier node.
fn cliques(nodes: usize, random: &mut Random) -> Joins {
    let mut out = Joins::new();
    let mut start = 0;
    while start < nodes {
        let end = nodes.min(start + random.pick(&[3, 3, 5, 5, 7]));
        for second in start..end {
            out.extend((start..second).map(|first| (first, second)));
        }
        for _ in 0..random.below(3) {
            if start > 0 {
                out.push((random.below(start), start + random.below(end - start)));
            }
        }
        start = end;
    }
    out
}

/// A chain of triangles that share a node or are joined by an edge.
fn triangles(nodes: usize, random: &mut Random) -> Joins {
    let mut out = Joins::new();
    let mut tip = 0;
    while tip + 2 < nodes {
        out.extend([(tip, tip + 1), (tip + 1, tip + 2), (tip, tip + 2)]);
        tip += 2;
        if tip + 1 < nodes && random.chance(50) {
            out.push((tip, tip + 1));
            tip += 1;
        }
    }
    out.extend((tip + 1..nodes).map(|node| (node - 1, node)));
    out
}

/// A triangle and ears of three edges on it, each over what stands so far; some nodes hang on at last.
fn nested(nodes: usize, random: &mut Random) -> Joins {
    if nodes < 3 {
        return vec![(0, 1)];
    }
    let mut out = vec![(0, 1), (1, 2), (0, 2)];
    let mut built = 3;
    let ears_to = nodes - random.below(nodes / 3 + 1);
    while built + 2 <= ears_to {
        let (from, to) = match random.chance(60) {
            true => (built - 2, built - 1),
            false => two_nodes(built, random),
        };
        out.extend([(from, built), (built, built + 1), (built + 1, to)]);
        built += 2;
    }
    out.extend((built..nodes).map(|node| (random.below(node), node)));
    out
}

/// Few pairs of nodes, each joined several times.
fn parallel(nodes: usize, random: &mut Random) -> Joins {
    let distinct = some(nodes, 200 / nodes + 5, random);
    let times = random.between(2, 5) as usize;
    (0..times * distinct.len())
        .map(|_| random.pick(&distinct))
        .collect()
}

fn weigh(joins: &[(usize, usize)], weights: Weights, random: &mut Random) -> Vec<Edge> {
    let equal = random.pick(&[1, 2, 7, 7, MOST_WEIGHT, 0, -3]);
    let rising = random.chance(50);
    let slope = random.pick(&[10, 20, 60]);
    let count = joins.len() as i64;
    let mut weight = |place: i64| match weights {
        Weights::Equal => equal,
        Weights::ZeroOne => random.between(0, 1),
        Weights::AroundZero => random.between(-4, 4),
        Weights::Small => random.between(1, 12),
        Weights::Sloped => {
            let along = if rising { place } else { count - place };
            20 + along * slope / count + random.between(0, 2)
        }
        Weights::Wide => match random.chance(10) {
            true => random.pick(&[MOST_WEIGHT, MOST_WEIGHT - 1, -MOST_WEIGHT]),
            false => random.between(-MOST_WEIGHT / 4, MOST_WEIGHT),
        },
    };
    let weighed =
        |(place, &(first, second)): (usize, &(usize, usize))| (first, second, weight(place as i64));
    joins.iter().enumerate().map(weighed).collect()
}

/// As many nodes and edges as there can be: every pair of nodes joined, and some once more.
pub fn full(weights: Weights, flag: bool, random: &mut Random) -> Problem {
    let size = (MOST_NODES as i64, MOST_NODES as i64);
    let mut problem = make(Shape::Complete, weights, size, flag, random);
    while problem.edges.len() < MOST_EDGES {
        let (first, second, _) = random.pick(&problem.edges);
        let weight = random.between(-MOST_WEIGHT, MOST_WEIGHT);
        problem.edges.push((second, first, weight));
    }
    problem
}

/// Every graph on these nodes: each pair of nodes has no edge or one of these weights. Both flags.
pub fn every(nodes: usize, weights: &[i64], mut each: impl FnMut(Problem)) {
    let pairs: Joins = (0..nodes)
        .flat_map(|high| (0..high).map(move |low| (low, high)))
        .collect();
    let choices = weights.len() + 1;
    for number in 0..choices.pow(pairs.len() as u32) {
        let mut rest = number;
        let mut edges = Vec::new();
        for &(low, high) in &pairs {
            let choice = rest % choices;
            rest /= choices;
            if choice > 0 {
                edges.push((low, high, weights[choice - 1]));
            }
        }
        for flag in [false, true] {
            each(Problem {
                nodes,
                flag,
                edges: edges.clone(),
            });
        }
    }
}

/// The same problem with its edges in another order and some of them turned.
pub fn shuffled(problem: &Problem, random: &mut Random) -> Problem {
    let mut other = problem.clone();
    random.shuffle(&mut other.edges);
    for edge in &mut other.edges {
        if random.chance(50) {
            *edge = (edge.1, edge.0, edge.2);
        }
    }
    other
}
