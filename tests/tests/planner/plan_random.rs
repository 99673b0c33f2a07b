//! Random larger tables with many equal costs: both methods and the plan's text.

use planner_tests::compare;
use planner_tests::random::Random;
use planner_tests::reference::{rest_in_order, Caller, Table};
use planner_tests::sites::{banded, crowded, lower_first};
use std::cmp::Reverse;

/// Plans so many tables, more than half of which would show another order of equal costs, and more
/// than a quarter have a short probe.
#[track_caller]
fn plan_each(seed: u64, tables: usize, table: fn(&mut Random) -> Table) {
    let mut random = Random::new(seed);
    let (mut kept, mut rested, mut shown) = (0, 0, 0);
    let (mut short_lines, mut with_short) = (0, 0);
    for _ in 0..tables {
        let table = table(&mut random);
        let plan = compare::plan_table(Caller::Full, &table, &mut random);
        kept += plan.count;
        rested += table.links.len() - plan.count;
        let lower_first = lower_first(&table.links, Reverse);
        shown += (rest_in_order(&lower_first, &table) != plan) as usize;
        let short = table.short_probes().len();
        short_lines += short;
        with_short += usize::from(short > 0);
    }
    assert!(kept > 20 * tables && rested > 20 * tables && 2 * shown > tables);
    let short = [short_lines, with_short];
    assert!(short_lines > tables && 4 * with_short > tables, "{short:?}");
}

#[test]
fn crowded_tables() {
    plan_each(21, 10_000, crowded);
}

#[test]
fn more_crowded_tables() {
    plan_each(22, 10_000, crowded);
}

#[test]
fn banded_tables() {
    plan_each(35, 1_000, banded);
}
