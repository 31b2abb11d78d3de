//! Times the plan call beside the source and LEMON in one run, counts their instructions, and prints the table of
//! docs/PERFORMANCE.md.

use driver::library;
use driver::tally::grouped;
use oracle::makers::{self, Shape, Weights};
use oracle::problem::{Problem, MISSING, MOST_WEIGHT};
use oracle::random::Random;
use oracle::run::Graph;
use oracle::source;
use std::convert::Infallible;
use std::ffi::c_void;
use std::hint::black_box;
use std::path::Path;
use std::process::Command;
use std::{env, fs, process};

/// Rounds of a problem: in each, every side has a turn of some calls, and the rounds' medians are compared.
const ROUNDS: usize = 101;
/// How long a turn takes, about, in seconds.
const TURN: f64 = 1e-3;
const SEED: u64 = 77;
/// The largest of the small weights.
const SMALL: i64 = 12;

extern "C" {
    fn lemon_make(
        n: usize,
        first: *const u16,
        second: *const u16,
        weight: *const i64,
        m: usize,
        most_pairs: bool,
    ) -> *mut c_void;
    fn lemon_run(problem: *mut c_void) -> i64;
    fn clock_gettime(clock: i32, time: *mut Timespec) -> i32;
}

/// Problems of one row; a turn goes through all of them.
const PROBLEMS: usize = 5;

/// A row of the table.
struct Row {
    name: String,
    cases: Vec<Case>,
}

/// A problem with all that a call of each side needs, made before anything is timed.
struct Case {
    problem: Problem,
    graph: Graph,
    first: Vec<u16>,
    second: Vec<u16>,
    weight: Vec<i64>,
    lemon: *mut c_void,
    mates: Vec<u16>,
    duals: Vec<i64>,
    parents: Vec<u16>,
    steps: u32,
}

/// One call of a side.
type Side = fn(&mut Case);
const SIDES: [Side; 3] = [Case::plan, Case::source, Case::lemon];

impl Case {
    fn new(problem: Problem) -> Case {
        let nodes = problem.nodes;
        let first: Vec<u16> = problem.edges.iter().map(|edge| edge.0 as u16).collect();
        let second: Vec<u16> = problem.edges.iter().map(|edge| edge.1 as u16).collect();
        let weight: Vec<i64> = problem.edges.iter().map(|edge| edge.2).collect();
        // SAFETY: the three lists are of the length given.
        let lemon = unsafe {
            lemon_make(
                nodes,
                first.as_ptr(),
                second.as_ptr(),
                weight.as_ptr(),
                weight.len(),
                problem.flag,
            )
        };
        Case {
            graph: problem.graph(),
            problem,
            first,
            second,
            weight,
            lemon,
            mates: vec![0; nodes],
            duals: vec![0; 2 * nodes],
            parents: vec![0; 2 * nodes],
            steps: 0,
        }
    }

    fn plan(&mut self) {
        let mut place = 0;
        // SAFETY: each pointer is that of a list of the length beside it, and no two lists share an entry.
        let answer = unsafe {
            library::lotamife_plan(
                self.problem.nodes,
                self.first.as_ptr(),
                self.first.len(),
                self.second.as_ptr(),
                self.second.len(),
                self.weight.as_ptr(),
                self.weight.len(),
                self.problem.flag,
                u32::MAX,
                self.mates.as_mut_ptr(),
                self.mates.len(),
                self.duals.as_mut_ptr(),
                self.duals.len(),
                self.parents.as_mut_ptr(),
                self.parents.len(),
                &mut place,
                &mut self.steps,
            )
        };
        assert!(answer == 0, "the plan call answers {answer}");
    }

    fn source(&mut self) {
        let flag = self.problem.flag;
        let found = source::max_weight_matching(
            &self.graph,
            flag,
            |edge| Ok::<i128, Infallible>((*edge.weight()).into()),
            false,
        );
        black_box(found).expect("the weights are there");
    }

    fn lemon(&mut self) {
        // SAFETY: the problem was made by lemon_make.
        black_box(unsafe { lemon_run(self.lemon) });
    }

    /// Weight of the plan, which LEMON's must equal.
    fn planned(&self) -> i64 {
        let matched = |&(node, &end): &(usize, &u16)| {
            end != MISSING && node < self.problem.node_at(end.into())
        };
        let pairs = self.mates.iter().enumerate().filter(matched);
        pairs
            .map(|(_, &end)| self.weight[usize::from(end / 2)])
            .sum()
    }

    fn hold(&mut self) {
        self.plan();
        // SAFETY: the problem was made by lemon_make.
        let lemon = unsafe { lemon_run(self.lemon) };
        assert!(lemon == self.planned(), "LEMON has {lemon}");
    }
}

impl Row {
    /// The median time of a call of each side.
    fn times(&mut self) -> [f64; 3] {
        let turns = SIDES.map(|side| {
            let one = self.time(side, 1) * PROBLEMS as f64;
            (TURN / one).clamp(1.0, 10_000.0) as u32
        });
        let mut rounds: [Vec<f64>; 3] = Default::default();
        for round in 0..ROUNDS {
            for turn in 0..3 {
                let side = (round + turn) % 3;
                rounds[side].push(self.time(SIDES[side], turns[side]));
            }
        }
        rounds.map(|mut times| {
            times.sort_by(f64::total_cmp);
            times[ROUNDS / 2]
        })
    }

    /// The time of a call: all problems so many times.
    fn time(&mut self, side: Side, times: u32) -> f64 {
        let start = thread_time();
        for _ in 0..times {
            self.cases.iter_mut().for_each(side);
        }
        (thread_time() - start) / f64::from(times) / PROBLEMS as f64
    }

    fn mean(&self, of: impl Fn(&Case) -> usize) -> usize {
        self.cases.iter().map(of).sum::<usize>() / PROBLEMS
    }
}

/// The seconds that this thread has had a processor: what else runs on the machine counts little.
fn thread_time() -> f64 {
    const THREAD_CLOCK: i32 = 3;
    let mut time = Timespec {
        seconds: 0,
        nanoseconds: 0,
    };
    // SAFETY: the clock is one of Linux, and the time is written to a Timespec.
    let failed = unsafe { clock_gettime(THREAD_CLOCK, &mut time) };
    assert!(failed == 0, "the thread has a clock");
    time.seconds as f64 + time.nanoseconds as f64 * 1e-9
}

#[repr(C)]
struct Timespec {
    seconds: i64,
    nanoseconds: i64,
}

/// A problem whose weights are 1 to `most`.
fn make(shape: Shape, nodes: i64, most: i64, random: &mut Random) -> Problem {
    let mut problem = makers::make(shape, Weights::Small, (nodes, nodes), false, random);
    for edge in &mut problem.edges {
        edge.2 = random.between(1, most);
    }
    problem
}

/// n 8 to 64, sparse and dense, small and large weights, both flags.
fn rows() -> Vec<Row> {
    let mut random = Random::new(SEED);
    let mut out = Vec::new();
    for nodes in [8, 16, 32, 64] {
        for (density, shape) in [("sparse", Shape::Sparse), ("dense", Shape::Complete)] {
            for (kind, most) in [("small", SMALL), ("large", MOST_WEIGHT)] {
                let mut make = |_| make(shape, nodes, most, &mut random);
                let made: Vec<Problem> = (0..PROBLEMS).map(&mut make).collect();
                for flag in [false, true] {
                    let flagged = |problem: &Problem| Problem {
                        flag,
                        ..problem.clone()
                    };
                    out.push(Row {
                        name: format!("{nodes} | {density} | {kind} | {}", u8::from(flag)),
                        cases: made.iter().map(|made| Case::new(flagged(made))).collect(),
                    });
                }
            }
        }
    }
    out
}

/// Callgrind writes the instructions since the last mark whenever this is called.
#[no_mangle]
#[inline(never)]
pub extern "C" fn bench_mark() {
    black_box(());
}

/// Under callgrind: each side's calls between two marks.
fn count() {
    for mut row in rows() {
        for side in SIDES {
            row.cases.iter_mut().for_each(side);
            bench_mark();
            row.cases.iter_mut().for_each(side);
            bench_mark();
        }
    }
}

/// Runs `count` under callgrind and reads the instructions of a call of each side, row by row.
fn instructions(folder: &Path) -> Vec<[u64; 3]> {
    let file = folder.join("marks");
    let ended = Command::new("valgrind")
        .args(["-q", "--tool=callgrind", "--dump-before=bench_mark"])
        .args(["--combine-dumps=yes", "--compress-strings=no"])
        .arg(format!("--callgrind-out-file={}", file.display()))
        .arg(env::current_exe().expect("the program has a path"))
        .arg("count")
        .status()
        .expect("valgrind can be run");
    assert!(ended.success(), "valgrind failed");
    let text = fs::read_to_string(&file).expect("callgrind wrote its counts");
    let parts: Vec<u64> = text
        .lines()
        .filter_map(|line| line.strip_prefix("totals: "))
        .map(|total| total.trim().parse().expect("a count"))
        .collect();
    // part 0 is what came before the first mark; then the calls counted, and what came between, in turn
    let counted: Vec<u64> = parts
        .iter()
        .skip(1)
        .step_by(2)
        .map(|part| part / PROBLEMS as u64)
        .collect();
    counted
        .chunks_exact(3)
        .map(|sides| [sides[0], sides[1], sides[2]])
        .collect()
}

fn table() {
    let folder = env::temp_dir().join(format!("bench-{}", process::id()));
    fs::create_dir_all(&folder).expect("a folder can be made");
    let counts = instructions(&folder);
    fs::remove_dir_all(&folder).expect("the folder can be removed");
    println!("| n | edges | weights | flag | m | steps | plan µs | source µs | plan/source | LEMON µs | plan/LEMON | plan instr. | source instr. | plan/source | LEMON instr. | plan/LEMON |");
    println!("|---|---|---|---|---|---|---|---|---|---|---|---|---|---|---|---|");
    for (mut row, [plan, source, lemon]) in rows().into_iter().zip(counts) {
        row.cases.iter_mut().for_each(Case::hold);
        let times = row.times().map(|time| time * 1e6);
        let ratio = |one: u64, other: u64| one as f64 / other as f64;
        println!(
            "| {} | {} | {} | {:.1} | {:.1} | {:.2} | {:.1} | {:.2} | {} | {} | {:.2} | {} | {:.2} |",
            row.name,
            row.mean(|case| case.weight.len()),
            row.mean(|case| case.steps as usize),
            times[0],
            times[1],
            times[0] / times[1],
            times[2],
            times[0] / times[2],
            grouped(plan),
            grouped(source),
            ratio(plan, source),
            grouped(lemon),
            ratio(plan, lemon),
        );
    }
}

fn main() {
    match env::args().nth(1).as_deref() {
        Some("count") => count(),
        _ => table(),
    }
}
