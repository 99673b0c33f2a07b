//! The Rust methods that the library is timed against, held to the definition.

use planner_tests::methods::{slse, turns, Cover};
use planner_tests::random::Random;
use planner_tests::reference::{falling, plan, Table};
use planner_tests::sites::{banded, crowded, every_table, legal, marked};

#[track_caller]
fn agree(table: &Table) {
    let expected = plan(table);
    assert!(slse(table) == expected, "S-LSE: {table:?}");
    assert!(turns(table) == expected, "by turns: {table:?}");
}

#[test]
fn every_small_table() {
    for probes in 1..=4 {
        every_table(probes, 3, agree);
    }
}

#[test]
fn random_tables() {
    let mut random = Random::new(20);
    for _ in 0..3_000 {
        agree(&legal(&mut random));
        agree(&crowded(&mut random));
        agree(&banded(&mut random));
    }
}

/// The links that S-LSE adds, and those of them that it then removes.
fn added_and_removed(table: &Table) -> [Vec<bool>; 2] {
    let order = falling(&table.links);
    let mut cover = Cover::none(table);
    cover.add_wanted(order.iter().rev().copied());
    let added = cover.added.clone();
    cover.remove_spare(order.into_iter());
    let both = added.iter().zip(&cover.added);
    let removed = both.map(|(&added, &left)| added && !left).collect();
    [added, removed]
}

#[test]
fn m9_and_m10() {
    let m9 = [vec![true, false, true], vec![false; 3]];
    assert_eq!(added_and_removed(&marked(1)), m9);
    let m10 = [vec![true, true, false], vec![true, false, false]];
    assert_eq!(added_and_removed(&marked(0)), m10);
}
