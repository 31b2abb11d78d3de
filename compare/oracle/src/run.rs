//! One run of the source, or of its twin, on a problem. A stop (a panic) is caught and reported.

use crate::coverage::PLACES;
use crate::problem::Problem;
use crate::trace::{self, Trace};
use hashbrown::HashSet;
use petgraph::graph::UnGraph;
use std::cell::{Cell, RefCell};
use std::convert::Infallible;
use std::panic::{self, AssertUnwindSafe};

pub type Pairs = Vec<(usize, usize)>;
pub type Graph = UnGraph<(), i64>;
pub type Found = Result<HashSet<(usize, usize)>, Infallible>;

thread_local! {
    static RUNNING: Cell<bool> = const { Cell::new(false) };
    static STOP: RefCell<String> = RefCell::default();
}

/// From now on a stop of a run prints nothing; its message is kept for the report.
pub fn keep_stops() {
    let print = panic::take_hook();
    panic::set_hook(Box::new(move |stop| match RUNNING.get() {
        true => STOP.set(stop.to_string().replace('\n', " ")),
        false => print(stop),
    }));
}

/// The pairs, lower node first and ascending, or the message of the stop.
fn run(problem: &Problem, matching: impl FnOnce(&Graph, bool) -> Found) -> Result<Pairs, String> {
    let graph = problem.graph();
    RUNNING.set(true);
    let found = panic::catch_unwind(AssertUnwindSafe(|| matching(&graph, problem.flag)));
    RUNNING.set(false);
    let set = match found {
        Ok(Ok(set)) => set,
        Ok(Err(never)) => match never {},
        Err(_) => return Err(STOP.take()),
    };
    let turned = |(one, other): (usize, usize)| (one.min(other), one.max(other));
    let mut pairs: Pairs = set.into_iter().map(turned).collect();
    pairs.sort_unstable();
    Ok(pairs)
}

/// The call that every copy of the source answers: the check flag is off.
macro_rules! matching {
    ($module:ident) => {
        |graph, flag| {
            $module::max_weight_matching(graph, flag, |edge| Ok(i128::from(*edge.weight())), false)
        }
    };
}
#[cfg(feature = "planted")]
pub(crate) use matching;

/// The pairs of the unchanged source.
pub fn source(problem: &Problem) -> Result<Pairs, String> {
    use crate::source;
    run(problem, matching!(source))
}

/// The pairs of a marked copy, and what its marks gathered until it ended or stopped.
pub fn traced(
    problem: &Problem,
    matching: impl FnOnce(&Graph, bool) -> Found,
) -> (Result<Pairs, String>, Trace) {
    let most_steps = 4 * problem.budget();
    trace::start(problem.nodes, PLACES.len(), most_steps);
    let pairs = run(problem, matching);
    (pairs, trace::finish())
}

/// The same from the traced twin.
pub fn twin(problem: &Problem) -> (Result<Pairs, String>, Trace) {
    use crate::twin;
    traced(problem, matching!(twin))
}
