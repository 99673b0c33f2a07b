//! The repository's files, for the tests that hold one to another.

use std::env;
use std::fs::{read_dir, read_to_string};
use std::path::{Path, PathBuf};

pub fn top() -> PathBuf {
    Path::new(env!("CARGO_MANIFEST_DIR")).join("..")
}

/// Where a built program stands: in PLANNER_BIN_DIR, else in the folder out/ of its crate.
pub fn program(name: &str) -> PathBuf {
    let folder = env::var_os("PLANNER_BIN_DIR").map(PathBuf::from);
    folder
        .unwrap_or_else(|| top().join("crates").join(name).join("out"))
        .join(name)
}

pub fn text(path: &Path) -> String {
    read_to_string(path).unwrap_or_else(|e| panic!("{}: {e}", path.display()))
}

pub fn document(path: &str) -> String {
    text(&top().join(path))
}

/// The files at or below a path that end in one of the suffixes. What the prover keeps in the
/// folders out/ is no part of the repository.
pub fn files(path: &Path, suffixes: &[&str]) -> Vec<PathBuf> {
    if path.ends_with("out") {
        return Vec::new();
    }
    if path.is_dir() {
        let entries = read_dir(path).expect("a folder that can be read");
        let paths = entries.map(|entry| entry.expect("an entry").path());
        return paths.flat_map(|path| files(&path, suffixes)).collect();
    }
    let name = path.to_string_lossy();
    let wanted = suffixes.iter().any(|suffix| name.ends_with(suffix));
    Vec::from_iter(wanted.then(|| path.to_owned()))
}

/// What stands between backticks.
pub fn quoted(text: &str) -> impl Iterator<Item = &str> {
    text.split('`').skip(1).step_by(2)
}

/// The cells of each row of the tables below a heading, without the tables' own headings.
pub fn rows<'a>(text: &'a str, heading: &str) -> Vec<Vec<&'a str>> {
    let start = text.find(heading).expect("the heading") + heading.len();
    let part = text[start..].split("\n## ").next().expect("a part");
    let lines: Vec<&str> = part.lines().collect();
    let below = |i: &usize| {
        !lines
            .get(i + 1)
            .is_some_and(|next| next.starts_with("|---"))
    };
    let row = |i: &usize| lines[*i].starts_with("| ") && below(i);
    let cells = |i: usize| {
        lines[i]
            .trim_matches('|')
            .split(" | ")
            .map(str::trim)
            .collect()
    };
    (0..lines.len()).filter(row).map(cells).collect()
}
