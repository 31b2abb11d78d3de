//! The marks that tell which branches a run takes. Every `if` and `while` is asked apart for each of the
//! conditions that `&&` and `||` join in it; `match base` is asked whether there is one; every `for` and
//! `loop` tells when its body is entered. Only `verify_optimum` has none, since it is never called.

use crate::marks::function_at;

const UNMARKED: &str = "verify_optimum";
const MATCH: &str = "match base {";
/// How many places the source has.
const CONDITIONS: usize = 108;
const LOOPS: usize = 27;

/// One place of the source: its line, its function, its text and whether it is a condition.
struct Place {
    line: usize,
    function: String,
    text: String,
    is_condition: bool,
}

#[derive(Default)]
struct Places(Vec<Place>);

impl Places {
    fn add(&mut self, line: usize, function: &str, text: &str, is_condition: bool) -> usize {
        self.0.push(Place {
            line,
            function: function.to_string(),
            text: text.to_string(),
            is_condition,
        });
        self.0.len() - 1
    }

    fn count(&self, conditions: bool) -> usize {
        self.0
            .iter()
            .filter(|place| place.is_condition == conditions)
            .count()
    }

    /// The table of the places as Rust text.
    fn table(&self) -> String {
        let mut out = String::from("pub const PLACES: &[Place] = &[\n");
        for place in &self.0 {
            out += &format!(
                "Place {{ line: {}, function: {:?}, text: {:?}, is_condition: {} }},\n",
                place.line, place.function, place.text, place.is_condition
            );
        }
        out + "];\n"
    }
}

/// The text with the marks in, and the table of the places marked.
pub fn put(text: &str) -> (String, String) {
    let mut places = Places::default();
    let mut out = String::new();
    let mut function = "";
    let mut number = 0;
    let mut lines = text.lines();
    while let Some(line) = lines.next() {
        if line.contains("crate::trace::") {
            out += &format!("{line}\n");
            continue;
        }
        number += 1;
        function = function_at(line).unwrap_or(function);
        let code = line.trim();
        if code.starts_with("//") || function == UNMARKED {
            out += &format!("{line}\n");
        } else if let Some(start) = condition_start(line) {
            let first = number;
            let mut head = line[start..].to_string();
            while !head.ends_with('{') {
                head += &format!(" {}", lines.next().expect("a condition ends").trim());
                number += 1;
            }
            let condition = head[..head.len() - 1].trim();
            let asked = ask(condition, &mut |atom| {
                let place = places.add(first, function, atom, true);
                format!("crate::trace::asked({place}, {atom})")
            });
            out += &format!("{}{asked} {{\n", &line[..start]);
        } else if code == MATCH {
            let place = places.add(number, function, MATCH, true);
            out += &format!("crate::trace::asked({place}, base.is_some());\n{line}\n");
        } else if code.ends_with('{') && (code.starts_with("for ") || code == "loop {") {
            let place = places.add(number, function, code.trim_end_matches(" {"), false);
            out += &format!("{line}\ncrate::trace::entered({place});\n");
        } else {
            out += &format!("{line}\n");
        }
    }
    let found = (places.count(true), places.count(false));
    assert!(
        found == (CONDITIONS, LOOPS),
        "conditions and loops {found:?}, not {:?}",
        (CONDITIONS, LOOPS)
    );
    (out, places.table())
}

/// Where the condition begins on a line that has one.
fn condition_start(line: &str) -> Option<usize> {
    let indent = line.len() - line.trim_start().len();
    for word in ["if ", "while ", "} else if "] {
        if line[indent..].starts_with(word) {
            return Some(indent + word.len());
        }
    }
    line.find("= if ").map(|at| at + "= if ".len())
}

/// The condition with every part of it that is not joined from others turned over to `mark`.
fn ask(condition: &str, mark: &mut impl FnMut(&str) -> String) -> String {
    for joint in [" || ", " && "] {
        let parts = split(condition, joint);
        if parts.len() > 1 {
            let asked: Vec<String> = parts.iter().map(|part| ask(part, mark)).collect();
            return asked.join(joint);
        }
    }
    match condition
        .strip_prefix('(')
        .and_then(|rest| rest.strip_suffix(')'))
    {
        Some(inner) => format!("({})", ask(inner, mark)),
        None => mark(condition),
    }
}

/// The parts of the text at the joints that stand outside all brackets.
fn split<'a>(text: &'a str, joint: &str) -> Vec<&'a str> {
    let mut parts = Vec::new();
    let (mut depth, mut start) = (0, 0);
    for (at, sign) in text.char_indices() {
        match sign {
            '(' | '[' => depth += 1,
            ')' | ']' => depth -= 1,
            _ if depth == 0 && text[at..].starts_with(joint) => {
                parts.push(&text[start..at]);
                start = at + joint.len();
            }
            _ => {}
        }
    }
    parts.push(&text[start..]);
    parts
}
