//! The copies of the source with a planted mistake, run on every record of the fixed list.

use crate::list::Record;
use crate::problem::Problem;
use crate::run::{self, matching, Pairs};
use crate::trace::Trace;

type Runner = fn(&Problem) -> (Result<Pairs, String>, Trace);

macro_rules! runner {
    ($module:ident) => {
        |problem| run::traced(problem, matching!($module))
    };
}

#[allow(warnings)]
mod copies {
    use super::*;
    include!(concat!(env!("OUT_DIR"), "/planted.rs"));
}

pub use copies::PLANTED;

/// Another answer than the record's.
enum Told {
    Nothing,
    Stop,
    Pairs,
    Other,
}

fn hold(runner: Runner, record: &Record) -> Told {
    let (found, trace) = runner(&record.problem);
    let Ok(pairs) = found else {
        return Told::Stop;
    };
    if pairs != record.pairs {
        return Told::Pairs;
    }
    match Record::new(&record.problem, pairs, &trace) == *record {
        true => Told::Nothing,
        false => Told::Other,
    }
}

/// Whether a record tells this change: its copy stops, or answers otherwise.
pub fn tells(runner: Runner, record: &Record) -> bool {
    !matches!(hold(runner, record), Told::Nothing)
}

/// Prints, for each change, how many records tell it; whether every mistake is told, and nothing harmless.
pub fn report(records: &[Record]) -> bool {
    let least = table("mistake", PLANTED, records).into_iter().min();
    let most = table("harmless change", copies::HARMLESS, records)
        .into_iter()
        .max();
    least > Some(0) && most == Some(0)
}

/// Prints the table of these changes; the records that tell each.
fn table(kind: &str, changes: &[(&str, Runner)], records: &[Record]) -> Vec<usize> {
    println!(
        "| {kind} | a stop | other pairs | other steps, mates, duals or parents only | records |"
    );
    println!("|---|---|---|---|---|");
    let mut counts = Vec::new();
    for &(name, runner) in changes {
        let (mut stops, mut pairs, mut others) = (0, 0, 0);
        for record in records {
            match hold(runner, record) {
                Told::Nothing => {}
                Told::Stop => stops += 1,
                Told::Pairs => pairs += 1,
                Told::Other => others += 1,
            }
        }
        let all = stops + pairs + others;
        println!("| {name} | {stops} | {pairs} | {others} | {all} |");
        counts.push(all);
    }
    println!();
    counts
}
