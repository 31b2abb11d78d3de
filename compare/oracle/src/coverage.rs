//! Which branches of the source the runs take, and why some are never taken.

use crate::trace::Trace;

/// A place of the source that the twin tells of: a condition, or the body of a loop.
pub struct Place {
    pub line: usize,
    pub function: &'static str,
    pub text: &'static str,
    pub is_condition: bool,
}

include!(concat!(env!("OUT_DIR"), "/branches.rs"));

/// A branch that no run can take: line, text, outcome, and why.
type Never = (usize, &'static str, bool, &'static str);

const NEVER: [Never; 9] = [
    (93, "t == 2", false, "the labels given are 1 and 2"),
    (
        136,
        "w.is_some()",
        true,
        "asked where v is none, and a move leaves v none only if w is none too",
    ),
    (
        139,
        "labels[blossom].is_none()",
        true,
        "only a freed group's label is none, and no node lies in a freed group",
    ),
    (
        369,
        "labels[blossom] == Some(2)",
        false,
        "within a stage only label-2 groups are expanded (type 4)",
    ),
    (
        448,
        "j < 0",
        true,
        "j is 0 where the walk to the base has ended",
    ),
    (
        1028,
        "labels[in_blossoms[v]] == Some(0)",
        false,
        "a group holds at most one unmatched node, so no other gave it a label",
    ),
    (1298, "delta_type == 4", false, "the type is 1, 2, 3 or 4"),
    (
        1356,
        "verify_optimum_flag",
        true,
        "the source's own check is off",
    ),
    (
        1385,
        "!seen.contains(&rev_tmp)",
        false,
        "both turns of a pair are put in together",
    ),
];

/// How often each place came out false, and true or entered.
pub struct Coverage(Vec<[u64; 2]>);

impl Default for Coverage {
    fn default() -> Coverage {
        Coverage(vec![[0; 2]; PLACES.len()])
    }
}

impl Coverage {
    pub fn add(&mut self, trace: &Trace) {
        for (sum, count) in self.0.iter_mut().zip(&trace.branches) {
            sum[0] += u64::from(count[0]);
            sum[1] += u64::from(count[1]);
        }
    }

    /// Prints the table; whether exactly the branches without a reason are taken.
    pub fn report(&self) -> bool {
        let mut sound = true;
        println!("| line | function | branch | true or entered | false | never, because |");
        println!("|---|---|---|---|---|---|");
        for (place, count) in PLACES.iter().zip(&self.0) {
            let mut why = String::new();
            for outcome in [true, false] {
                if !place.is_condition && !outcome {
                    continue;
                }
                let reason = NEVER
                    .iter()
                    .find(|never| (never.0, never.1, never.2) == (place.line, place.text, outcome));
                sound &= reason.is_some() == (count[outcome as usize] == 0);
                why += reason.map_or("", |never| never.3);
            }
            let missed = if place.is_condition {
                count[0].to_string()
            } else {
                String::new()
            };
            let text = place.text.replace('|', "\\|");
            println!(
                "| {} | {} | `{text}` | {} | {missed} | {why} |",
                place.line, place.function, count[1]
            );
        }
        sound
    }
}

/// The branches that one run takes.
pub fn signature(trace: &Trace) -> Vec<[bool; 2]> {
    trace
        .branches
        .iter()
        .map(|count| count.map(|times| times > 0))
        .collect()
}
