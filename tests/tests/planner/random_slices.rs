//! Random and damaged tables in slices, checked, planned and written by both.

use planner_tests::compare;
use planner_tests::random::{each_seed, Random};
use planner_tests::reference::{text_length, Behind, Caller};
use planner_tests::sites::{self, Numbers};

const CASES: u64 = 12_000;

/// A length for the text: right, one too short, longer, or any up to right.
fn out_length(numbers: &Numbers, random: &mut Random) -> usize {
    let right = text_length(numbers.probes.into(), numbers.links.into());
    let (longer, shorter) = (random.below(40), random.below(right));
    random.pick(&[right, right, right, right - 1, right + longer, shorter])
}

/// Plans with a plan and working bytes that fit, are one too short, or are longer.
fn plan(numbers: &Numbers, random: &mut Random) {
    let lengths = [1, 4].map(|bytes| {
        let right = bytes * numbers.links as usize;
        let longer = right + random.below(40);
        random.pick(&[right, right, right.saturating_sub(1), longer])
    });
    let by_turns = compare::plan_turns(Caller::Full, numbers.slices(), lengths, random);
    let by_slse = compare::plan_slse(Caller::Full, numbers.slices(), lengths[0], random);
    assert!(by_turns == by_slse || by_turns == Err(8));
}

/// Checks, plans and writes; a written text is read back as the same table.
fn check_plan_and_write(numbers: &Numbers, random: &mut Random) -> (Result<(), u8>, bool) {
    let checked = compare::check(Caller::Full, numbers.slices());
    plan(numbers, random);
    let length = out_length(numbers, random);
    let written = compare::write(Caller::Full, numbers.slices(), length, random);
    if let Ok(text) = &written {
        let (probes, links) = (numbers.probes.into(), numbers.links.into());
        let fit = [probes, links, links, links];
        let read = compare::read(Caller::Full, text, Behind::Nothing, fit, random);
        let back = Numbers::of(&read.expect("a written text can be read"));
        assert_eq!(back.number, numbers.number);
        assert_eq!((back.probes, back.links), (numbers.probes, numbers.links));
        for (read, given) in back.entries.iter().zip(&numbers.entries) {
            assert!(given.starts_with(read));
        }
    }
    (checked, written.is_ok())
}

#[test]
fn legal_tables() {
    let (mut fine, mut writes, mut short) = (0, 0, 0);
    each_seed(4, CASES, |random| {
        let table = sites::legal(random);
        let (probes, links) = (table.needs.len(), table.links.len());
        let mut numbers = Numbers::of(&table);
        numbers.lend(sites::lengths(probes, links, random), random);
        let (checked, written) = check_plan_and_write(&numbers, random);
        assert!(matches!(checked, Ok(()) | Err(8)));
        assert!(checked.is_ok() || !written);
        fine += checked.is_ok() as usize;
        writes += written as usize;
        short += usize::from(written && table.has_short());
    });
    let reached = [fine, writes, short];
    assert!(
        fine > 6_000 && writes > 3_000 && short > 1_000,
        "{reached:?}"
    );
}

#[test]
fn damaged_tables() {
    let mut tally = [0; 9];
    each_seed(5, CASES, |random| {
        let (table, times) = (sites::legal(random), random.below(3));
        let numbers = Numbers::damaged(&table, times, random);
        let (checked, _) = check_plan_and_write(&numbers, random);
        tally[checked.err().unwrap_or(0) as usize] += 1;
    });
    assert_eq!(tally[7], 0);
    let often = |answer: usize| tally[answer] > 300;
    assert!([0, 3, 4, 5, 8].into_iter().all(often), "{tally:?}");
}
