//! Calls on both sides of every limit of document 01: each change of a call alone, and each two together, so
//! that the order of the refusals is told too.

use crate::call::{Call, Room};
use oracle::known::KNOWN;
use oracle::makers::{self, Shape, Weights};
use oracle::problem::{Problem, MOST_EDGES, MOST_NODES, MOST_WEIGHT};
use oracle::random::Random;

pub type Change = Box<dyn Fn(&mut Call)>;

/// The problems that are changed: those of document 01, and some of 0, 1, 5 and 64 nodes.
pub fn problems(random: &mut Random) -> Vec<Problem> {
    let mut out: Vec<Problem> = KNOWN.iter().map(|known| known.problem()).collect();
    for flag in [false, true] {
        let plain = |nodes| Problem {
            nodes,
            flag,
            edges: Vec::new(),
        };
        out.extend([plain(0), plain(1), plain(2), plain(MOST_NODES)]);
        out.push(makers::make(
            Shape::Dense,
            Weights::Small,
            (5, 5),
            flag,
            random,
        ));
        out.push(makers::make(
            Shape::Sparse,
            Weights::AroundZero,
            (64, 64),
            flag,
            random,
        ));
        out.push(makers::full(Weights::Wide, flag, random));
    }
    out
}

/// Every change, the first of which changes nothing.
pub fn changes() -> Vec<Change> {
    let mut out: Vec<Change> = vec![Box::new(|_| {})];
    for nodes in [
        0,
        1,
        MOST_NODES,
        MOST_NODES + 1,
        65_536,
        usize::MAX / 2 + 1,
        usize::MAX,
    ] {
        out.push(Box::new(move |call| call.nodes = nodes));
    }
    for count in [0, MOST_EDGES, MOST_EDGES + 1] {
        out.push(Box::new(move |call| resize_edges(call, count)));
    }
    for at in [At::First, At::Middle, At::Last] {
        one_edge(&mut out, at);
    }
    room(&mut out);
    unequal(&mut out);
    out
}

#[derive(Clone, Copy)]
enum At {
    First,
    Middle,
    Last,
}

/// Each way in which one edge is fine or bad.
fn one_edge(out: &mut Vec<Change>, at: At) {
    let mut edge = |set: fn(&mut Edge)| {
        out.push(Box::new(move |call: &mut Call| change_edge(call, at, set)));
    };
    edge(|edge| edge.ends = [edge.nodes, edge.ends[1]]);
    edge(|edge| edge.ends = [edge.ends[0], edge.nodes]);
    edge(|edge| edge.ends = [edge.nodes, edge.nodes]);
    edge(|edge| edge.ends = [edge.nodes.wrapping_sub(1), edge.ends[1]]);
    edge(|edge| edge.ends = [edge.ends[0], edge.nodes.wrapping_sub(1)]);
    edge(|edge| edge.ends = [u16::MAX, edge.ends[1]]);
    edge(|edge| edge.ends = [edge.ends[0], u16::MAX]);
    edge(|edge| edge.ends = [edge.ends[1], edge.ends[1]]);
    edge(|edge| edge.weight = MOST_WEIGHT);
    edge(|edge| edge.weight = MOST_WEIGHT + 1);
    edge(|edge| edge.weight = -MOST_WEIGHT);
    edge(|edge| edge.weight = -MOST_WEIGHT - 1);
    edge(|edge| edge.weight = i64::MAX);
    edge(|edge| edge.weight = i64::MIN);
}

struct Edge {
    nodes: u16,
    ends: [u16; 2],
    weight: i64,
}

/// Changes an edge; where there is none, there is one then.
fn change_edge(call: &mut Call, at: At, set: fn(&mut Edge)) {
    let mut count = call
        .first
        .len()
        .min(call.second.len())
        .min(call.weight.len());
    if count == 0 {
        resize_edges(call, 1);
        count = 1;
    }
    let at = match at {
        At::First => 0,
        At::Middle => count / 2,
        At::Last => count - 1,
    };
    let mut edge = Edge {
        nodes: call.nodes.min(MOST_NODES + 1) as u16,
        ends: [call.first[at], call.second[at]],
        weight: call.weight[at],
    };
    set(&mut edge);
    [call.first[at], call.second[at]] = edge.ends;
    call.weight[at] = edge.weight;
}

/// So many edges, those that are there or more like them.
fn resize_edges(call: &mut Call, count: usize) {
    call.first = cycled(&call.first, 0, count);
    call.second = cycled(&call.second, 1, count);
    call.weight = cycled(&call.weight, 3, count);
}

fn cycled<T: Copy>(list: &[T], other: T, count: usize) -> Vec<T> {
    let entry = |at: usize| match list.len() {
        0 => other,
        length => list[at % length],
    };
    (0..count).map(entry).collect()
}

/// Each lent list gone, one short, of the length needed, and longer.
fn room(out: &mut Vec<Change>) {
    type Length = fn(&mut Room) -> &mut usize;
    let lists: [Length; 3] = [
        |room| &mut room.mates,
        |room| &mut room.duals,
        |room| &mut room.parents,
    ];
    for list in lists {
        let mut length = |of: fn(usize) -> usize| {
            out.push(Box::new(move |call: &mut Call| {
                let mut needed = Room::needed(call.nodes.min(MOST_NODES + 1));
                *list(&mut call.room) = of(*list(&mut needed));
            }));
        };
        length(|_| 0);
        length(|needed| needed.saturating_sub(1));
        length(|needed| needed);
        length(|needed| needed + 1);
        length(|needed| needed + 300);
    }
}

/// Each edge list one shorter than the others, one longer, gone, and past the limit.
fn unequal(out: &mut Vec<Change>) {
    let mut length = |of: fn(usize) -> usize| {
        out.push(Box::new(move |call: &mut Call| {
            call.first = cycled(&call.first, 0, of(call.first.len()));
        }));
        out.push(Box::new(move |call: &mut Call| {
            call.second = cycled(&call.second, 1, of(call.second.len()));
        }));
        out.push(Box::new(move |call: &mut Call| {
            call.weight = cycled(&call.weight, 3, of(call.weight.len()));
        }));
    };
    length(|_| 0);
    length(|count| count.saturating_sub(1));
    length(|count| count + 1);
    length(|_| MOST_EDGES + 1);
}
