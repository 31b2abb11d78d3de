//! Runs the library and the oracle on the same calls and prints the tables of docs/DIFFERENCES.md.

use driver::runs::{self, Extent, QUICK, WHOLE};
use driver::tally::{grouped, plan_name, verdict_name, Tally, NUMBERS};
use oracle::climb::GOALS;
use oracle::makers::SHAPES;
use oracle::random::Random;
use oracle::{list, run};
use std::{env, fs, process};

/// Seeds are counted from here, so that the problems are others than those of the sweep.
const FIRST_SEED: u64 = 1_001;

/// The makers run so far.
struct Report {
    seed: u64,
    all: Tally,
}

impl Report {
    fn maker(&mut self, name: String, runs: impl FnOnce(&mut Tally, &mut Random)) {
        let mut tally = Tally::default();
        runs(&mut tally, &mut Random::new(self.seed));
        tally.end();
        println!("{}", tally.row(&name, &self.seed.to_string()));
        self.all.add(&tally);
        self.seed += 1;
    }

    /// The sums, how often each answer was given, and the troubles; whether all is sound.
    fn end(&self) -> bool {
        let seeds = format!("{FIRST_SEED} to {}", self.seed - 1);
        println!("{}", self.all.row("all", &seeds));
        println!("\n| no. | plan call | times | check call | times |\n|---|---|---|---|---|");
        let (plans, checks) = (&self.all.plans, &self.all.checks);
        for number in (0..NUMBERS).filter(|number| !(9..11).contains(number)) {
            let part = |name: &str, times: u64| match name {
                "" => " | ".to_string(),
                _ => format!("{name} | {}", grouped(times)),
            };
            let plan = part(plan_name(number), plans[number]);
            let check = match number {
                7 | 8 => part("", 0),
                _ => part(verdict_name(number), checks[number]),
            };
            println!("| {number} | {plan} | {check} |");
        }
        let (planned, judged) = (self.all.entries.planned, self.all.entries.judged);
        println!(
            "\non edge entries too: {} plan calls, {} check calls",
            grouped(planned),
            grouped(judged)
        );
        for trouble in &self.all.troubles {
            println!("\n{trouble}");
        }
        let missing = (0..8).any(|number| plans[number] == 0)
            || (0..7).chain(11..18).any(|number| checks[number] == 0);
        if missing {
            println!("\nan answer was never given");
        }
        self.all.troubles.is_empty() && !missing && planned > 0 && judged > 0
    }
}

fn report(extent: &Extent, records: &[list::Record]) -> bool {
    println!("| maker | seed | problems | plan calls | DONE | refused | STEPS | check calls | YES | refused | NO | troubles |");
    println!("|---|---|---|---|---|---|---|---|---|---|---|---|");
    let mut report = Report {
        seed: FIRST_SEED,
        all: Tally::default(),
    };
    report.maker("limits".into(), |tally, random| {
        runs::limits(tally, extent.two_changes, random)
    });
    report.maker("the fixed list".into(), |tally, random| {
        runs::listed(tally, records, random)
    });
    for &(nodes, weights) in extent.every {
        let name = format!("every graph, n {nodes}, weights {weights:?}");
        report.maker(name, |tally, random| {
            runs::every(tally, nodes, weights, random)
        });
    }
    for shape in SHAPES {
        report.maker(format!("{shape:?}"), |tally, random| {
            runs::made(tally, shape, &extent.made, random)
        });
    }
    report.maker("64 nodes and 2,048 edges".into(), |tally, random| {
        runs::full(tally, extent.full, random)
    });
    for goal in GOALS {
        report.maker(format!("climbing, {goal:?}"), |tally, random| {
            runs::climbed(tally, goal, extent.climbs, random)
        });
    }
    report.end()
}

fn main() {
    let words: Vec<String> = env::args().skip(1).collect();
    let words: Vec<&str> = words.iter().map(String::as_str).collect();
    let (extent, file) = match words[..] {
        [file] => (WHOLE, file),
        ["--quick", file] => (QUICK, file),
        _ => {
            eprintln!("driver [--quick] LIST    LIST is answers/list.bin");
            process::exit(1);
        }
    };
    run::keep_stops();
    let records = list::read(&fs::read(file).expect("the list can be read"));
    let sound = report(&extent, &records);
    process::exit(if sound { 0 } else { 1 });
}
