//! Links the archive, which `compare/archive` makes, and for `bench` the call of LEMON.
//! LOTAMIFE_LIB names another folder that the archive is taken from.

use std::path::Path;
use std::process::Command;
use std::{env, fs};

fn main() {
    println!("cargo:rerun-if-env-changed=LOTAMIFE_LIB");
    let given = env::var("LOTAMIFE_LIB").unwrap_or("../../target/staticlib".into());
    let folder = fs::canonicalize(given).expect("the archive's folder is there");
    link(&folder, "lotamife");
    println!(
        "cargo:rerun-if-changed={}",
        folder.join("liblotamife.a").display()
    );
    if env::var("CARGO_FEATURE_LEMON").is_ok() {
        let out = env::var("OUT_DIR").unwrap();
        compile("lemon.cpp", Path::new(&out));
        link(Path::new(&out), "lemon_call");
        println!("cargo:rustc-link-lib=stdc++");
    }
}

fn link(folder: &Path, name: &str) {
    println!("cargo:rustc-link-search=native={}", folder.display());
    println!("cargo:rustc-link-lib=static={name}");
}

fn compile(source: &str, out: &Path) {
    println!("cargo:rerun-if-changed={source}");
    let (object, archive) = (out.join("lemon_call.o"), out.join("liblemon_call.a"));
    run(Command::new("c++")
        .args(["-O3", "-DNDEBUG", "-c", source, "-o"])
        .arg(&object));
    run(Command::new("ar").arg("rcs").arg(&archive).arg(&object));
}

fn run(command: &mut Command) {
    let ended = command.status().expect("the command can be run");
    assert!(ended.success(), "{command:?} failed");
}
