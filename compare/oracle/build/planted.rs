//! Mistakes planted in copies of the marked source, to see which of them the fixed list tells apart.

use crate::swap;

/// A change: what it does, and the texts that are put in place of texts standing there once.
type Change = (&'static str, &'static [(&'static str, &'static str)]);

const MISTAKES: [Change; 30] = [
    (
        "queue first in first out",
        &[("let v = queue.pop().unwrap();", "let v = queue.remove(0);")],
    ),
    (
        "candidate edges of a new group sorted by edge number",
        &[(
            "best_edge_to.values().copied().collect();",
            "{ let mut sorted: Vec<usize> = best_edge_to.values().copied().collect(); sorted.sort(); sorted };",
        )],
    ),
    (
        "a replaced candidate edge moves to the end",
        &[(
            "best_edge_to.insert(blossom_j, edge_index);",
            "best_edge_to.shift_remove(&blossom_j); best_edge_to.insert(blossom_j, edge_index);",
        )],
    ),
    (
        "an equal candidate edge replaces the first",
        &[(
            "< slack(best_edge_to[&blossom_j], dual_var, edges))",
            "<= slack(best_edge_to[&blossom_j], dual_var, edges))",
        )],
    ),
    (
        "the last of a new group's equal best edges is chosen",
        &[(
            "< slack(best_edge[blossom].unwrap(), dual_var, edges)",
            "<= slack(best_edge[blossom].unwrap(), dual_var, edges)",
        )],
    ),
    (
        "the old base stays after re-rooting",
        &[
            (
                "blossom_base[blossom] = blossom_base[blossom_children[blossom][0]];",
                "",
            ),
            ("assert!(blossom_base[blossom] == Some(node));", ""),
        ],
    ),
    (
        "the base after re-rooting is that of the last child",
        &[(
            "blossom_base[blossom] = blossom_base[blossom_children[blossom][0]];",
            "blossom_base[blossom] = blossom_base[*blossom_children[blossom].last().unwrap()];",
        )],
    ),
    (
        "re-rooting leaves the ends unturned",
        &[("blossom_endpoints[blossom] = endpoint;", "")],
    ),
    (
        "re-rooting does not go into the child entered by",
        &[("if tmp >= num_nodes {", "if false {")],
    ),
    (
        "nodes of a group listed from the last child",
        &[("for c in child_blossom {", "for c in child_blossom.iter().rev() {")],
    ),
    (
        "nodes that turn to label 1 in a new group are not queued",
        &[("            queue.push(node);\n", "")],
    ),
    (
        "a freed group number goes to the front",
        &[(
            "unused_blossoms.push(blossom);",
            "unused_blossoms.insert(0, blossom);",
        )],
    ),
    (
        "the first free group number is taken",
        &[(
            "unused_blossoms.pop().unwrap();",
            "unused_blossoms.remove(0);",
        )],
    ),
    (
        "expansion at the close of a stage leaves inner groups",
        &[("} else if end_stage && dual_var[s] == 0 {", "} else if false {")],
    ),
    (
        "groups of any label are expanded at the close of a stage",
        &[("                && labels[blossom] == Some(1)\n                && dual_var[blossom] == 0\n", "                && dual_var[blossom] == 0\n")],
    ),
    (
        "expansion within a stage takes the first node, reached or not",
        &[("if labels[v].unwrap() != 0 {", "if true {")],
    ),
    (
        "nodes reached in a label-2 group are not kept",
        &[("                            labels[w] = Some(2);\n", "")],
    ),
    (
        "least slack to a free node: the last of equals",
        &[(
            "kslack < slack(best_edge[w].unwrap(), &dual_var, &edges)",
            "kslack <= slack(best_edge[w].unwrap(), &dual_var, &edges)",
        )],
    ),
    (
        "least slack between label-1 groups: the last of equals",
        &[(
            "kslack < slack(best_edge[blossom].unwrap(), &dual_var, &edges)",
            "kslack <= slack(best_edge[blossom].unwrap(), &dual_var, &edges)",
        )],
    ),
    (
        "adjustment of type 2 wins a tie",
        &[("Some(d) < delta {", "Some(d) <= delta {")],
    ),
    (
        "adjustment of type 3 wins a tie",
        &[("|| d < delta {", "|| d <= delta {")],
    ),
    (
        "adjustment of type 4 wins a tie",
        &[(
            "dual_var[blossom] < delta.unwrap())",
            "dual_var[blossom] <= delta.unwrap())",
        )],
    ),
    (
        "the last adjustment under the flag may be below 0",
        &[(
            "delta = Some(max(0, *dual_var[..num_nodes].iter().min().unwrap()));",
            "delta = Some(*dual_var[..num_nodes].iter().min().unwrap());",
        )],
    ),
    (
        "starting duals are the largest weight even below 0",
        &[(
            "let mut max_weight: i128 = 0;",
            "let mut max_weight: i128 = i128::MIN;",
        )],
    ),
    (
        "a new group's joining edge is noted by its other end",
        &[(
            "blossom_endpoints[blossom].push(2 * edge);",
            "blossom_endpoints[blossom].push(2 * edge + 1);",
        )],
    ),
    (
        "a child's own list of candidate edges is not used",
        &[("if blossom_best_edges[bv].is_empty() {", "if true {")],
    ),
    (
        "lists of candidate edges outlive their stage",
        &[(
            "blossom_best_edges.splice(num_nodes.., (0..num_nodes).map(|_| Vec::new()));",
            "",
        )],
    ),
    (
        "a stage gives its first labels from the last node down",
        &[(
            "for v in 0..num_nodes {\n            if mate",
            "for v in (0..num_nodes).rev() {\n            if mate",
        )],
    ),
    (
        "neighbours gone through from the last",
        &[(
            "for p in &neighbor_endpoints[v] {",
            "for p in neighbor_endpoints[v].iter().rev() {",
        )],
    ),
    (
        "groups expanded at the close of a stage from the last down",
        &[(
            "for blossom in num_nodes..2 * num_nodes {\n            if blossom_parents",
            "for blossom in (num_nodes..2 * num_nodes).rev() {\n            if blossom_parents",
        )],
    ),
];

/// Changes that change no answer: the base is the same whichever path is walked first, edges without slack
/// are allowed when they are met, and group n is never taken, since n groups never stand at once.
const HARMLESS: [Change; 3] = [
    (
        "scanning walks one path to its end before the other",
        &[
            ("        if w.is_some() {\n", "        if v.is_none() {\n"),
        ],
    ),
    (
        "expansion within a stage does not allow the edges it walks",
        &[("            allowed_edge[p / 2] = true;\n", "")],
    ),
    (
        "re-rooting goes into group n too",
        &[
            (
                "if tmp > num_nodes {\n            augment_blossom(\n                tmp,\n                endpoints[p],",
                "if tmp >= num_nodes {\n            augment_blossom(\n                tmp,\n                endpoints[p],",
            ),
            (
                "if tmp > num_nodes {\n            augment_blossom(\n                tmp,\n                endpoints[p ^ 1],",
                "if tmp >= num_nodes {\n            augment_blossom(\n                tmp,\n                endpoints[p ^ 1],",
            ),
        ],
    ),
];

/// Every copy as a module of its own, and the two tables of them, as Rust text.
pub fn copies(marked: &str) -> String {
    tables("PLANTED", &MISTAKES, marked) + &tables("HARMLESS", &HARMLESS, marked)
}

fn tables(name: &str, changes: &[Change], marked: &str) -> String {
    let mut out = String::new();
    let mut table = format!("pub const {name}: &[(&str, Runner)] = &[\n");
    for (number, (what, edits)) in changes.iter().enumerate() {
        let mut text = marked.to_string();
        for (old, new) in *edits {
            text = swap(&text, old, new, 1);
        }
        let module = format!("{}_{number}", name.to_lowercase());
        out += &format!("mod {module} {{\n{text}}}\n");
        table += &format!("({what:?}, runner!({module})),\n");
    }
    out + &table + "];\n"
}
