//! The commands of the oracle.

use oracle::coverage::Coverage;
use oracle::list::{self, Record};
use oracle::problem::Problem;
use oracle::{known, run, sweep};
use std::{env, fs, process};

const USAGE: &str = "\
oracle one N FLAG [A-B:W ...]   answer one problem
oracle known                    hold the written answers against the oracle
oracle sweep                    run all makers of problems
oracle check FILE               answer the list anew and hold it against its answers
oracle branches FILE            the branches of the source that the list takes
built with the feature `planted`:
oracle make FILE                make the fixed list
oracle planted FILE             the planted mistakes that the list tells";

fn main() {
    let words: Vec<String> = env::args().skip(1).collect();
    let words: Vec<&str> = words.iter().map(String::as_str).collect();
    run::keep_stops();
    let sound = match words[..] {
        ["one", nodes, flag, ref edges @ ..] => one(nodes, flag, edges),
        ["known"] => known::report(),
        ["sweep"] => sweep::report(),
        ["check", file] => check(&records(file)),
        ["branches", file] => branches(&records(file)),
        #[cfg(feature = "planted")]
        ["make", file] => {
            let bytes = list::write(&oracle::choice::records());
            fs::write(file, bytes).expect("the file can be written");
            true
        }
        #[cfg(feature = "planted")]
        ["planted", file] => oracle::planted::report(&records(file)),
        _ => {
            eprintln!("{USAGE}");
            false
        }
    };
    process::exit(if sound { 0 } else { 1 });
}

fn records(file: &str) -> Vec<Record> {
    list::read(&fs::read(file).expect("the file can be read"))
}

fn one(nodes: &str, flag: &str, edges: &[&str]) -> bool {
    let edge = |word: &&str| {
        let (ends, weight) = word.split_once(':').expect("a weight after the ends");
        let (first, second) = ends.split_once('-').expect("two ends");
        let ends = (first.parse().unwrap(), second.parse().unwrap());
        (ends.0, ends.1, weight.parse().unwrap())
    };
    let problem = Problem {
        nodes: nodes.parse().unwrap(),
        flag: flag == "1",
        edges: edges.iter().map(edge).collect(),
    };
    let (_, trace) = run::twin(&problem);
    match run::source(&problem) {
        Err(stop) => println!("{stop}"),
        Ok(pairs) => println!("pairs {pairs:?}"),
    }
    println!("steps {}", trace.steps());
    println!(
        "mates {:?}\nduals {:?}\nparents {:?}",
        trace.mates, trace.duals, trace.parents
    );
    true
}

fn check(records: &[Record]) -> bool {
    let other = records
        .iter()
        .filter(|record| Record::answer(&record.problem) != **record);
    let others = other.count();
    println!("{} records, {others} answered otherwise", records.len());
    others == 0
}

fn branches(records: &[Record]) -> bool {
    let mut coverage = Coverage::default();
    for record in records {
        coverage.add(&run::twin(&record.problem).1);
    }
    coverage.report()
}
