//! Makes the traced twin of the source, and its copies with a planted mistake, from the source's own text.
//! Nothing of the algorithm is written here: every change is at a stated place of the text, and the build
//! stops where a place is not found as often as stated.

mod branches;
mod marks;
mod planted;

use std::{env, fs, path::PathBuf};

const SOURCE: &str = "../../docs/src/rustworkx-core/src/max_weight_matching.rs";

fn main() {
    println!("cargo:rerun-if-changed={SOURCE}");
    println!("cargo:rerun-if-changed=build");
    let source = fs::read_to_string(SOURCE).expect("the source is in docs/src");
    let out = PathBuf::from(env::var("OUT_DIR").unwrap());
    let marked = marks::put(&source);
    let (twin, table) = branches::put(&marked);
    fs::write(out.join("twin.rs"), format!("pub mod twin {{\n{twin}}}\n")).unwrap();
    fs::write(out.join("branches.rs"), table).unwrap();
    if env::var("CARGO_FEATURE_PLANTED").is_ok() {
        fs::write(out.join("planted.rs"), planted::copies(&marked)).unwrap();
    }
}

/// Puts `new` in place of `old`, which must stand in the text exactly `times` times.
fn swap(text: &str, old: &str, new: &str, times: usize) -> String {
    let found = text.matches(old).count();
    assert!(
        found == times,
        "stands in the text {found} times, not {times}: {old}"
    );
    text.replace(old, new)
}
