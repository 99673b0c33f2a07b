//! Small tables from both callers, read, checked, written and planned: the same from both.

use planner_tests::compare;
use planner_tests::random::Random;
use planner_tests::reference::{Behind, Table};
use planner_tests::sites::{every_table, marked, Numbers};

/// The same table, text and plan for both callers.
#[track_caller]
fn same(table: &Table, random: &mut Random) {
    let (text, numbers) = (table.text(), Numbers::of(table));
    let (given, lent) = (numbers.slices(), numbers.lent);
    let read =
        compare::by_both(|caller| compare::read(caller, &text, Behind::Nothing, lent, random));
    assert_eq!(read.as_ref(), Ok(table));
    let checked = compare::by_both(|caller| compare::check(caller, given));
    assert_eq!(checked, Ok(()));
    let written = compare::by_both(|caller| compare::write(caller, given, text.len(), random));
    assert_eq!(written.as_ref(), Ok(&text));
    compare::by_both(|caller| compare::plan_table(caller, table, random));
}

/// Costs 0 and 1; `plan_small` plans with cost 2 too.
#[test]
fn every_table_of_up_to_four_probes() {
    let mut random = Random::new(100);
    let tables = [1, 2, 3, 4].map(|probes| {
        let mut tables = 0;
        every_table(probes, 2, |table| {
            same(table, &mut random);
            tables += 1;
        });
        tables
    });
    assert_eq!(tables, [3, 41, 2_275, 480_033]);
}

#[test]
fn marked_sites() {
    let mut random = Random::new(101);
    for place in 0..8 {
        same(&marked(place), &mut random);
    }
}
