//! The documents say what stands in the repository: imports, layers, claims, must-fail edits.

use planner_tests::repository::{document, files, quoted, rows, text, top};
use planner_tests::tally::CODES;
use std::collections::{BTreeMap, BTreeSet};
use std::path::Path;

/// Each crate with the crates of the repository that its line in crates.txt has.
fn listed() -> BTreeMap<String, BTreeSet<String>> {
    // A static library says so behind its name.
    let text = document("crates.txt").replace(" staticlib:", ":");
    let lines: Vec<_> = text.lines().filter_map(|l| l.split_once(':')).collect();
    let own: BTreeSet<&str> = lines.iter().map(|line| line.0).collect();
    let words = |list: &str| {
        let words = list.split_whitespace().filter(|word| own.contains(word));
        words.map(str::to_owned).collect()
    };
    let line = |&(name, list): &(&str, &str)| (name.to_owned(), words(list));
    lines.iter().map(line).collect()
}

/// The words that a file of Rattle or antt has where a crate can stand.
fn crate_words(path: &Path) -> BTreeSet<String> {
    let text = text(path);
    let words = |text: &str| -> Vec<String> {
        let words = text.split(|c: char| !c.is_alphanumeric() && c != '_');
        words.map(str::to_owned).collect()
    };
    let mut found = BTreeSet::new();
    found.extend(
        text.split("Rattle.")
            .skip(1)
            .map(|rest| words(rest).swap_remove(0)),
    );
    if path.extension().is_some_and(|suffix| suffix == "rt") {
        // A part that is one word stands inside a path, as the module does in `output::refusals::put`.
        let starts = text.split("::").filter(|&part| words(part).len() > 1);
        found.extend(starts.filter_map(|part| words(part).pop()));
    }
    found
}

#[test]
fn crates_list_what_they_import() {
    let crates = listed();
    for (name, list) in &crates {
        let sources = files(&top().join("crates").join(name), &[".rt", ".antt"]);
        let words = sources.iter().flat_map(|path| crate_words(path));
        let imports = words.filter(|word| crates.contains_key(word) && word != name);
        assert_eq!(&imports.collect::<BTreeSet<_>>(), list, "{name}");
    }
}

#[test]
fn layers() {
    let crates = listed();
    let readme = document("README.md");
    let layers = rows(&readme, "\n## How the crates stand on each other\n");
    let mut layer_of = BTreeMap::new();
    for layer in &layers {
        for name in quoted(layer[1]) {
            assert_eq!(layer_of.insert(name, layer[0]), None, "{name} stands twice");
        }
    }
    assert!(layer_of.keys().eq(crates.keys()));
    for layer in &layers {
        let below: BTreeSet<_> = layer[2]
            .split(", ")
            .filter(|name| !name.is_empty())
            .collect();
        let imports = quoted(layer[1]).flat_map(|name| &crates[name]);
        let others = imports.map(|name| layer_of[name.as_str()]);
        let others: BTreeSet<_> = others.filter(|&other| other != layer[0]).collect();
        assert_eq!(others, below, "{}", layer[0]);
    }
}

/// Each name that states a sentence stands in one of the files beside it.
#[test]
fn claims() {
    let claims = document("docs/CLAIMS.md");
    let mut names = 0;
    let headings = claims.lines().filter(|line| line.starts_with("## "));
    for row in headings.flat_map(|heading| rows(&claims, heading)) {
        let [_, stated, place] = row[..] else {
            continue;
        };
        let paths: Vec<_> = quoted(place).map(|path| top().join(path)).collect();
        assert!(paths.iter().all(|path| path.exists()), "{place}");
        let found: String = paths
            .iter()
            .flat_map(|path| files(path, &[""]))
            .map(|path| text(&path))
            .collect();
        let ends = |c: char| c.is_whitespace() || "(){}[],;.:<".contains(c);
        let tokens: BTreeSet<&str> = found.split(ends).collect();
        for name in quoted(stated).filter(|_| !paths.is_empty()) {
            let name = name.rsplit("::").next().expect("a last part");
            assert!(tokens.contains(name), "{name} is not in {place}");
            names += 1;
        }
    }
    assert!(names > 200, "{names}");
}

/// The must-fail edits are those among the claims, each under its crate.
#[test]
fn edits() {
    let claims = document("docs/CLAIMS.md");
    let mut named = BTreeSet::new();
    for row in rows(
        &claims,
        "\n## Promises, and wrong answers that they rule out\n",
    ) {
        for answers in row[1]
            .split("; ")
            .filter(|part| !part.starts_with("and those of"))
        {
            let (of, edits) = answers.split_once(": ").expect("a crate and its edits");
            let of = of.trim_matches('`');
            named.extend(quoted(edits).map(|edit| format!("{of}/must-fail/{edit}.edit")));
        }
    }
    let crates = top().join("crates");
    let stand = files(&crates, &[".edit"]);
    let stand = stand
        .iter()
        .map(|path| path.strip_prefix(&crates).expect("a crate's"));
    let stand: BTreeSet<_> = stand
        .map(|path| path.to_string_lossy().into_owned())
        .collect();
    assert_eq!(named, stand);
}

/// Each name among the claims stands in some file of a crate or of the tests, or is that of a crate or
/// of a must-fail edit.
#[test]
fn names() {
    let claims = document("docs/CLAIMS.md");
    let mut sources = files(&top().join("crates"), &[".rt", ".antt"]);
    sources.extend(files(&top().join("tests/tests"), &[".rs"]));
    let ends = |c: char| c.is_whitespace() || "(){}[],;.:<".contains(c);
    let all: Vec<String> = sources.iter().map(|path| text(path)).collect();
    let mut known: BTreeSet<&str> = all.iter().flat_map(|one| one.split(ends)).collect();
    let edits = files(&top().join("crates"), &[".edit"]);
    let edits = edits.iter().filter_map(|path| path.file_stem()?.to_str());
    let crates = listed();
    known.extend(edits.chain(crates.keys().map(String::as_str)));
    let plain = |name: &&str| !name.contains(['/', ' ', '.']);
    let mut names = 0;
    for name in claims.lines().flat_map(quoted).filter(plain) {
        let name = name.rsplit("::").next().expect("a last part");
        assert!(known.contains(name), "{name}");
        names += 1;
    }
    assert!(names > 800, "{names}");
}

/// The README's table and the header's list have each code of what can befall a probe once.
#[test]
fn codes() {
    let readme = document("README.md");
    let (_, table) = readme.split_once("\n| What | |\n").expect("a table");
    let cells = table.lines().take_while(|line| line.starts_with('|'));
    let listed: Vec<&str> = cells.filter_map(|row| quoted(row).next()).collect();
    assert_eq!(listed, CODES);
    let header = document("include/planner.h");
    let (_, list) = header.split_once("What befell the probe:").expect("a list");
    let (list, _) = list.split_once(". */").expect("its end");
    let parts = list
        .split(',')
        .map(|part| part.trim_matches([' ', '\n', '*']));
    let numbers = parts.filter_map(|part| part.split_once(' ')?.0.parse().ok());
    let numbers: Vec<usize> = numbers.collect();
    assert_eq!(numbers, Vec::from_iter(0..CODES.len()));
}

/// The refusals that calls make; 7 and 25 are withdrawn.
const REFUSALS: [u8; 16] = [1, 2, 3, 4, 5, 6, 8, 9, 20, 21, 22, 23, 24, 26, 27, 32];

/// The README's table and the header's list have each of them once, and no other.
#[test]
fn refusals() {
    let readme = document("README.md");
    let cells = rows(&readme, "\n## The library\n").into_iter();
    let listed: Vec<u8> = cells.filter_map(|row| row[0].parse().ok()).collect();
    assert_eq!(listed, REFUSALS);
    let header = document("include/planner.h");
    let (_, list) = header
        .split_once("A refusal is its number")
        .expect("a list");
    let (list, _) = list.split_once("*/").expect("its end");
    let parts = list
        .split("  ")
        .filter_map(|part| part.trim().split_once(' '));
    let numbers = parts.filter_map(|(number, _)| number.parse().ok());
    assert_eq!(numbers.collect::<BTreeSet<u8>>(), BTreeSet::from(REFUSALS));
}
