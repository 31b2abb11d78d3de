//! The marks that tell the steps of a run, what its groups do, how long its loops run and how it ends.

use crate::swap;

/// Lines put before a line of the source that stands there once.
const BEFORE: [(&str, &str); 8] = [
    (
        "        labels = vec![Some(0); 2 * num_nodes];",
        "crate::trace::opened();",
    ),
    (
        "                let v = queue.pop().unwrap();",
        "crate::trace::taken();",
    ),
    (
        "            let mut delta_type = -1;",
        "crate::trace::adjusted();",
    ),
    (
        "        // End of a stage; expand all S-blossoms which have a dual_var == 0",
        "crate::trace::closed();",
    ),
    (
        "    // Set dual variable to 0",
        "crate::trace::grouped(blossom, &blossom_children[blossom]);",
    ),
    (
        "    // Convert sub-blossoms into top-level blossoms.",
        "crate::trace::expanded(end_stage);",
    ),
    (
        "    // Bubble up through the blossom tree from vertex v to an immediate",
        "crate::trace::rerooted();",
    ),
    (
        "    if verify_optimum_flag {",
        "crate::trace::ended(&mate, &dual_var, &blossom_parents);",
    ),
];

/// Lines put after a line of the source, with the number of times that it stands there.
const AFTER: [(&str, &str, usize); 4] = [
    (
        "queue.append(&mut blossom_leaves(b, num_nodes, blossom_children)?);",
        "crate::trace::queued(queue.len());",
        1,
    ),
    ("queue.push(node);", "crate::trace::queued(queue.len());", 1),
    ("queue.push(i);", "crate::trace::queued(queue.len());", 2),
    (
        "augmented = true;",
        "crate::trace::augmented(&mate, &endpoints);",
        1,
    ),
];

/// The functions whose loops are bounded in moves, and the number of `while` and `loop` in them.
const BOUNDED: [&str; 5] = [
    "scan_blossom",
    "add_blossom",
    "expand_blossom",
    "augment_blossom",
    "augment_matching",
];
const BOUNDED_LOOPS: usize = 8;

pub fn put(source: &str) -> String {
    let mut text = source.to_string();
    for (line, mark) in BEFORE {
        text = swap(&text, &format!("{line}\n"), &format!("{mark}\n{line}\n"), 1);
    }
    for (line, mark, times) in AFTER {
        text = swap(
            &text,
            &format!("{line}\n"),
            &format!("{line}\n{mark}\n"),
            times,
        );
    }
    count_moves(&text)
}

/// The name of the function that begins on this line, if one does.
pub fn function_at(line: &str) -> Option<&str> {
    let head = line.strip_prefix("pub ").unwrap_or(line);
    head.strip_prefix("fn ")?.split(['<', '(']).next()
}

fn count_moves(text: &str) -> String {
    let mut out = String::new();
    let mut function = "";
    let mut loops = 0;
    for line in text.lines() {
        function = function_at(line).unwrap_or(function);
        let code = line.trim();
        let is_loop = code == "loop {" || (code.starts_with("while ") && code.ends_with('{'));
        if is_loop && BOUNDED.contains(&function) {
            loops += 1;
            out += &format!(
                "let mut moves = crate::trace::Moves::default();\n{line}\ncrate::trace::moved(&mut moves);\n"
            );
        } else {
            out += &format!("{line}\n");
        }
    }
    assert!(
        loops == BOUNDED_LOOPS,
        "{loops} bounded loops, not {BOUNDED_LOOPS}"
    );
    out
}
