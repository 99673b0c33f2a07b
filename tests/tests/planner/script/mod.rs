//! The script program: whole outputs, and the same in pieces.

mod named;
mod pieces;
mod random;

use planner_tests::compare_script::text;
use planner_tests::random::Random;

/// What both print for it, line by line.
#[track_caller]
fn printed(input: &[u8]) -> Vec<String> {
    let output = text(input, &mut Random::new(input.len() as u64));
    let output = String::from_utf8(output).expect("only digits are printed");
    assert!(output.ends_with('\n'));
    output.lines().map(str::to_owned).collect()
}
