//! The calls on edge entries. C has none, so two programs of the gate make them: crates/plan_limits plans each call that it is given on
//! three lists and on edge entries and tells what differs from what is expected; crates/check_replay judges in both forms.

use crate::call::{Call, Certificate, Left, Verdict};
use std::io::Write;
use std::process::{Command, Stdio};
use std::thread;

const PLANS: &str = concat!(
    env!("CARGO_MANIFEST_DIR"),
    "/../../crates/plan_limits/out/plan_limits"
);
const CHECKS: &str = concat!(
    env!("CARGO_MANIFEST_DIR"),
    "/../../crates/check_replay/out/check_replay"
);

/// So many calls of a maker are all made on edge entries too, and then each one of SHARE.
const ALL: u64 = 5_000;
const SHARE: u64 = 17;
/// So many calls are given to a program at once.
const BATCH: usize = 10_000;
/// The programs have room for lists of so many entries.
const ENTRIES: usize = 2_112;

/// Calls that wait to be made, as bytes and as they are.
#[derive(Default)]
pub struct Waiting {
    asked: u64,
    bytes: Vec<u8>,
    calls: Vec<(Call, Option<(Certificate, Verdict)>)>,
}

/// A call that was answered otherwise than expected, and how.
pub type Other = (String, Call, Option<Certificate>);

impl Waiting {
    /// Whether this call is one of those that are made. Three lists of unequal length are no list of entries, and the programs' form has no
    /// n past 65,535 and no -2^63.
    fn takes(&mut self, call: &Call, lengths: [usize; 3], duals: &[i64]) -> bool {
        self.asked += 1;
        let edges = call.first.len();
        let amounts = call.weight.iter().chain(duals);
        (self.asked <= ALL || self.asked % SHARE == 0)
            && call.second.len() == edges
            && call.weight.len() == edges
            && call.nodes <= usize::from(u16::MAX)
            && lengths.iter().chain([&edges]).all(|&length| length <= ENTRIES)
            && amounts.into_iter().all(|&amount| amount != i64::MIN)
    }

    fn head(&mut self, call: &Call, budget: Option<u32>, lengths: [usize; 3]) {
        self.numbers(&[call.nodes as u16, u16::from(call.flag)]);
        self.bytes.extend(budget.map(u32::to_le_bytes).iter().flatten());
        let edges = call.first.len();
        for length in [edges, edges, edges].iter().chain(&lengths) {
            self.numbers(&[*length as u16]);
        }
        self.numbers(&call.first);
        self.numbers(&call.second);
        self.amounts(&call.weight);
    }

    fn numbers(&mut self, numbers: &[u16]) {
        let bytes = numbers.iter().flat_map(|number| number.to_le_bytes());
        self.bytes.extend(bytes);
    }

    /// An amount is its distance from zero, and in the highest bit whether it lies below.
    fn amounts(&mut self, amounts: &[i64]) {
        for amount in amounts {
            let below = u64::from(*amount < 0) << 63;
            self.bytes
                .extend((amount.unsigned_abs() | below).to_le_bytes());
        }
    }

    fn lists(&mut self, mates: &[u16], duals: &[i64], parents: &[u16]) {
        self.numbers(mates);
        self.amounts(duals);
        self.numbers(parents);
    }
}

/// The plan calls and the check calls of a maker, and how many of them were made on edge entries.
#[derive(Default)]
pub struct Entries {
    plans: Waiting,
    checks: Waiting,
    pub planned: u64,
    pub judged: u64,
}

impl Entries {
    /// Has a plan call made that must leave this; answers what was answered otherwise, of those that were waiting.
    pub fn plan(&mut self, call: &Call, expected: &Left) -> Vec<Other> {
        let room = [call.room.mates, call.room.duals, call.room.parents];
        let waiting = &mut self.plans;
        if waiting.takes(call, room, &expected.duals) {
            waiting.head(call, Some(call.budget), room);
            waiting.numbers(&[expected.number as u16, expected.place as u16]);
            waiting.bytes.extend(expected.steps.to_le_bytes());
            waiting.lists(&expected.mates, &expected.duals, &expected.parents);
            waiting.calls.push((call.clone(), None));
        }
        match self.plans.calls.len() < BATCH {
            true => Vec::new(),
            false => self.run_plans(),
        }
    }

    /// The same of a check call.
    pub fn check(&mut self, call: &Call, judged: &Certificate, expected: Verdict) -> Vec<Other> {
        let room = judged.room();
        let room = [room.mates, room.duals, room.parents];
        let waiting = &mut self.checks;
        if waiting.takes(call, room, &judged.duals) {
            waiting.head(call, None, room);
            waiting.lists(&judged.mates, &judged.duals, &judged.parents);
            let kept = Some((judged.clone(), expected));
            waiting.calls.push((call.clone(), kept));
        }
        match self.checks.calls.len() < BATCH {
            true => Vec::new(),
            false => self.run_checks(),
        }
    }

    /// Makes all calls that are waiting.
    pub fn end(&mut self) -> Vec<Other> {
        let mut others = self.run_plans();
        others.extend(self.run_checks());
        others
    }

    /// The program writes a line for each difference, the call's place and the number of what differs, and how many there were in each form.
    fn run_plans(&mut self) -> Vec<Other> {
        let calls = std::mem::take(&mut self.plans.calls);
        let count = calls.len();
        let mut bytes = (count as u32).to_le_bytes().to_vec();
        bytes.append(&mut self.plans.bytes);
        let said = run(PLANS, bytes);
        let mut lines: Vec<&str> = said.lines().collect();
        let last = format!("{count} problems on three lists, {count} on edge entries");
        assert_eq!(lines.pop(), Some(&*last), "plan_limits has planned all");
        self.planned += count as u64;
        let other = |line: &str| {
            let (place, what) = line.split_once(' ').expect("a place and what differs");
            let (call, _) = &calls[place.parse::<usize>().expect("a place")];
            let kind = format!("plan on edge entries: plan_limits says {what}");
            (kind, call.clone(), None)
        };
        lines.into_iter().map(other).collect()
    }

    /// The program writes each verdict, number and place, in both forms, and how many there were in each.
    fn run_checks(&mut self) -> Vec<Other> {
        let calls = std::mem::take(&mut self.checks.calls);
        let count = calls.len();
        let said = run(CHECKS, std::mem::take(&mut self.checks.bytes));
        let mut lines: Vec<&str> = said.lines().collect();
        let last = format!("{count} on three lists, {count} on edge entries");
        assert_eq!(lines.pop(), Some(&*last), "check_replay has judged all");
        self.judged += count as u64;
        let other = |(line, (call, kept)): (&str, (Call, Option<(Certificate, Verdict)>))| {
            let (judged, expected) = kept.expect("a certificate");
            let once = format!("{} {}", expected.number, expected.place);
            let kind = format!("on edge entries: {once} expected, {line} given");
            (line != format!("{once} {once}")).then_some((kind, call, Some(judged)))
        };
        lines.into_iter().zip(calls).filter_map(other).collect()
    }
}

/// What a program writes of this input.
fn run(program: &str, input: Vec<u8>) -> String {
    let mut started = Command::new(program)
        .stdin(Stdio::piped())
        .stdout(Stdio::piped())
        .spawn()
        .expect("compare/drive has built the program");
    let mut given = started.stdin.take().expect("its input");
    let writer = thread::spawn(move || given.write_all(&input));
    let ended = started.wait_with_output().expect("it ends");
    assert!(ended.status.success(), "{program} failed");
    writer.join().unwrap().expect("it reads all");
    String::from_utf8(ended.stdout).expect("it writes lines")
}
