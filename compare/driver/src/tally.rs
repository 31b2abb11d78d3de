//! One maker's calls: each held against what is expected, counted, and noted where it differs.

use crate::call::{Call, Certificate, Left};
use crate::entries::{Entries, Other};
use crate::expect::{self, Said, DONE, STEPS};
use oracle::problem::MISSING;
use oracle::random::Random;
use oracle::run::Pairs;
use std::fmt;

/// Answers are counted by number: 0 to 8, and 11 to 17.
pub const NUMBERS: usize = 18;

#[derive(Default)]
pub struct Tally {
    pub problems: u64,
    pub plans: [u64; NUMBERS],
    pub checks: [u64; NUMBERS],
    pub troubles: Vec<Trouble>,
    pub entries: Entries,
}

/// A way in which calls differ from what is expected, and the smallest such call.
#[derive(Clone)]
pub struct Trouble {
    pub kind: String,
    pub call: Call,
    /// what a check call judged
    pub judged: Option<Certificate>,
}

impl Trouble {
    fn size(&self) -> (usize, usize) {
        (self.call.first.len(), self.call.nodes)
    }
}

impl fmt::Display for Trouble {
    fn fmt(&self, out: &mut fmt::Formatter) -> fmt::Result {
        write!(out, "{}: {}", self.kind, self.call)?;
        match &self.judged {
            Some(judged) => write!(out, ", {judged:?}"),
            None => Ok(()),
        }
    }
}

impl Tally {
    /// Runs a plan call and holds all that it leaves against what is expected.
    pub fn plan(&mut self, call: &Call, said: Option<&Said>, random: &mut Random) {
        let expected = expect::plan(call, said);
        let others = self.entries.plan(call, &expected);
        self.note_all(others);
        let left = match call.plan(random) {
            Ok(left) => left,
            Err(damage) => return self.trouble(format!("plan: {damage}"), call),
        };
        count(&mut self.plans, left.number);
        if let Some(part) = differing(&left, &expected) {
            let numbers = (expected.number, left.number);
            let kind = format!(
                "plan: {part} (answer {} expected, {} given)",
                numbers.0, numbers.1
            );
            return self.trouble(kind, call);
        }
        let pairs = said.map(|said| &said.pairs);
        if left.number == DONE && pairs != pairs_of(call, &left).as_ref() {
            self.trouble("plan: pairs".into(), call);
        }
    }

    /// Runs a check call and holds its answer against what is expected.
    pub fn check(&mut self, call: &Call, judged: &Certificate, random: &mut Random) {
        let expected = expect::check(call, judged);
        match call.check(judged, random) {
            Err(damage) => self.misjudged(damage.into(), call, judged),
            Ok(given) => {
                count(&mut self.checks, given.number);
                if given != expected {
                    let kind = format!("{expected:?} expected, {given:?} given");
                    self.misjudged(kind, call, judged);
                }
            }
        }
        let others = self.entries.check(call, judged, expected);
        self.note_all(others);
    }

    /// Makes the calls on edge entries that are waiting.
    pub fn end(&mut self) {
        let others = self.entries.end();
        self.note_all(others);
    }

    fn note_all(&mut self, others: Vec<Other>) {
        for (kind, call, judged) in others {
            self.note(Trouble { kind, call, judged });
        }
    }

    pub fn trouble(&mut self, kind: String, call: &Call) {
        self.note(Trouble {
            kind,
            call: call.clone(),
            judged: None,
        });
    }

    fn misjudged(&mut self, kind: String, call: &Call, judged: &Certificate) {
        self.note(Trouble {
            kind: format!("check: {kind}"),
            call: call.clone(),
            judged: Some(judged.clone()),
        });
    }

    fn note(&mut self, trouble: Trouble) {
        let same = |other: &&mut Trouble| other.kind == trouble.kind;
        match self.troubles.iter_mut().find(same) {
            None => self.troubles.push(trouble),
            Some(kept) if trouble.size() < kept.size() => *kept = trouble,
            Some(_) => {}
        }
    }

    pub fn add(&mut self, other: &Tally) {
        self.problems += other.problems;
        for number in 0..NUMBERS {
            self.plans[number] += other.plans[number];
            self.checks[number] += other.checks[number];
        }
        self.entries.planned += other.entries.planned;
        self.entries.judged += other.entries.judged;
        for trouble in &other.troubles {
            self.note(trouble.clone());
        }
    }

    pub fn row(&self, name: &str, seeds: &str) -> String {
        let (plans, checks) = (&self.plans, &self.checks);
        let figures = [
            self.problems,
            plans.iter().sum(),
            plans[0],
            plans[1..7].iter().sum(),
            plans[STEPS as usize],
            checks.iter().sum(),
            checks[0],
            checks[1..7].iter().sum(),
            checks[11..].iter().sum(),
            self.troubles.len() as u64,
        ];
        let figures: Vec<String> = figures.iter().map(|figure| grouped(*figure)).collect();
        format!("| {name} | {seeds} | {} |", figures.join(" | "))
    }
}

fn count(counts: &mut [u64; NUMBERS], number: u32) {
    if let Some(times) = counts.get_mut(number as usize) {
        *times += 1;
    }
}

/// The first part in which two outcomes differ.
fn differing(left: &Left, expected: &Left) -> Option<&'static str> {
    let parts = [
        ("answer", left.number != expected.number),
        ("place", left.place != expected.place),
        ("steps", left.steps != expected.steps),
        ("mates", left.mates != expected.mates),
        ("duals", left.duals != expected.duals),
        ("parents", left.parents != expected.parents),
    ];
    let part = parts.iter().find(|(_, differ)| *differ);
    part.map(|(name, _)| *name)
}

/// The pairs that the mates name, lower node first and ascending; none where an end is no end.
fn pairs_of(call: &Call, left: &Left) -> Option<Pairs> {
    let mut pairs = Pairs::new();
    for (node, &end) in left.mates.iter().enumerate() {
        if end != MISSING {
            let ends = [&call.first, &call.second][usize::from(end % 2)];
            let other = usize::from(*ends.get(usize::from(end / 2))?);
            if node < other {
                pairs.push((node, other));
            }
        }
    }
    Some(pairs)
}

/// A number with commas.
pub fn grouped(number: u64) -> String {
    let digits = number.to_string();
    let mut out = String::new();
    for (place, digit) in digits.chars().enumerate() {
        if place > 0 && (digits.len() - place).is_multiple_of(3) {
            out.push(',');
        }
        out.push(digit);
    }
    out
}

/// What a verdict is called in the tables.
pub fn verdict_name(number: usize) -> &'static str {
    match number {
        0 => "YES",
        11 => "MATE",
        12 => "PARENT",
        13 => "DUAL",
        14 => "EDGE",
        15 => "TIGHT",
        16 => "FREE",
        17 => "FULL",
        _ => plan_name(number),
    }
}

/// What a plan's answer is called in the tables.
pub fn plan_name(number: usize) -> &'static str {
    let names = [
        "DONE", "NODES", "EDGES", "END", "LOOP", "WEIGHT", "BUFFER", "STEPS", "FAULT",
    ];
    names.get(number).copied().unwrap_or("")
}
