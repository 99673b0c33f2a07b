//! Both programs' functions on many random, mutated and cut inputs, and what these reach.

use planner_tests::fuzz::{self, Tally};
use planner_tests::random::Random;
use planner_tests::tally::CODES;

/// Compares so many inputs. The shares asserted below are at most half of those reached.
fn reached(seed: u64, inputs: usize, more: fn(&mut Random, &mut Tally)) -> Tally {
    let (mut random, mut tally) = (Random::new(seed), Tally::default());
    for _ in 0..inputs {
        more(&mut random, &mut tally);
    }
    tally
}

#[test]
fn fuzz_plans() {
    let tally = reached(71, 1_550_000, fuzz::plan);
    tally.assert_share(&["some kept and some rested"], 1_500);
    tally.assert_share(&["none kept", "all kept"], 150);
    let short = ["no short probe", "one short probe", "several short probes"];
    tally.assert_share(&short, 500);
    let refusals = ["e001", "e002", "e003", "e004", "e005", "e006"];
    tally.assert_share(&refusals, 100);
    let display = ["the same from the display", "3 from the display alone"];
    tally.assert_share(&display, 1_000);
    tally.assert_none("e007");
}

#[test]
fn fuzz_scripts() {
    let tally = reached(72, 350_000, fuzz::script);
    let [others @ .., restarted] = CODES;
    tally.assert_share(&others, 1_000);
    tally.assert_share(&["not finished"], 1_000);
    tally.assert_share(&[restarted, "finished after changes"], 800);
    tally.assert_share(&["finished from the start"], 300);
    let refusals = ["e001", "e002", "e009", "e023", "e024", "e027"];
    tally.assert_share(&refusals, 300);
    tally.assert_share(&["e026"], 80);
    tally.assert_share(&["short probes"], 2_500);
    let refusals = ["e001", "e002", "e003", "e004", "e005", "e006"];
    let of_tables = refusals.map(|refusal| format!("table {refusal}"));
    tally.assert_share(&of_tables.each_ref().map(|refused| &refused[..]), 25);
    tally.assert_none("table e007");
    tally.assert_none("e007");
    tally.assert_none("e025");
}
