//! Links libplanner.a: the one in the folder that `PLANNER_LIB` names, else that of this repository, made where it is missing or old.

use std::env;
use std::fs;
use std::path::PathBuf;
use std::process::Command;

fn main() {
    println!("cargo:rerun-if-env-changed=PLANNER_LIB");
    let folder = env::var("PLANNER_LIB").map_or_else(|_| made_here(), PathBuf::from);
    println!("cargo:rustc-link-search=native={}", folder.display());
    println!("cargo:rustc-link-lib=static=planner");
}

fn made_here() -> PathBuf {
    let home = PathBuf::from(env::var("CARGO_MANIFEST_DIR").expect("set by cargo"));
    let script = home.join("../archive");
    for part in ["../archive", "../c/version.c", "../../include/planner.h", "../../crates.txt"] {
        println!("cargo:rerun-if-changed={}", home.join(part).display());
    }
    // Of a crate the code alone: what rt makes beside it, in out/, is large.
    for part in fs::read_dir(home.join("../../crates")).expect("a folder").flatten() {
        println!("cargo:rerun-if-changed={}", part.path().join("src").display());
    }
    let done = Command::new(&script)
        .output()
        .unwrap_or_else(|error| panic!("{}: {error}", script.display()));
    assert!(done.status.success(), "{}", String::from_utf8_lossy(&done.stderr));
    let archive = PathBuf::from(String::from_utf8(done.stdout).expect("a path").trim_end());
    println!("cargo:rerun-if-changed={}", archive.display());
    archive.parent().expect("it lies in a folder").to_path_buf()
}
