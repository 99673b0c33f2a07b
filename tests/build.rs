//! Links the planner's static libraries: from PLANNER_LIB_DIR, else from ../target/staticlib.

use std::env;
use std::path::{Path, PathBuf};

fn main() {
    let folder = match (
        env::var_os("PLANNER_LIB_DIR"),
        env::var_os("CARGO_MANIFEST_DIR"),
    ) {
        (Some(folder), _) => PathBuf::from(folder),
        (None, Some(here)) => Path::new(&here).join("../target/staticlib"),
        (None, None) => panic!("cargo sets CARGO_MANIFEST_DIR"),
    };
    println!("cargo:rustc-link-search=native={}", folder.display());
    println!("cargo:rustc-env=PLANNER_LIBRARIES={}", folder.display());
    for subject in ["table", "plan", "probe", "fleet", "wake_log", "script"] {
        println!("cargo:rustc-link-lib=static={subject}_exports");
        let archive = folder.join(format!("lib{subject}_exports.a"));
        println!("cargo:rerun-if-changed={}", archive.display());
    }
    println!("cargo:rerun-if-env-changed=PLANNER_LIB_DIR");
}
