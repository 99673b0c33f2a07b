//! Public functions ask nothing of their caller, and each states its result.

use planner_tests::repository::{text, top};
use std::fs::read_dir;

/// The functions with a `pub` at the root of a crate, each up to its body.
fn public_functions(root: &str) -> Vec<&str> {
    let starts = root.match_indices("\npub ").map(|(place, _)| place + 1);
    let function = |place: usize| {
        // The body's `{` starts a line; where there is no clause, its `}` is the first that does.
        let head = root[place..].split("\n{").next()?;
        let head = head.split("\n}").next()?;
        let words = head.split(['(', '<', '\n']).next()?;
        let named = words.split_whitespace().any(|word| word == "fn");
        named.then_some(head)
    };
    starts.filter_map(function).collect()
}

#[test]
fn public_functions_ask_nothing_and_state_their_result() {
    let (mut seen, mut bad) = (0, Vec::new());
    for folder in read_dir(top().join("crates")).expect("the crates") {
        let path = folder.expect("a crate").path().join("src/lib.rt");
        if !path.exists() {
            continue; // a program
        }
        let root = text(&path);
        for head in public_functions(&root) {
            // A clause can have a name, as `ensures low {`.
            let clause = |word: &str| head.contains(&format!("\n    {word}"));
            if clause("requires ") || clause("requires* ") || !clause("ensures ") {
                bad.push(head.to_owned());
            }
            seen += 1;
        }
    }
    assert!(seen > 40, "{seen}");
    assert!(bad.is_empty(), "{}", bad.join("\n\n"));
}
