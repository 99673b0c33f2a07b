//! Every record that any list of lines leads to, on small sites: each line from each record, by the
//! library too, and demand 3's claims of them.

use planner_tests::compare_fleet::Fleet;
use planner_tests::reach::{Reach, Reached};
use planner_tests::reference::{falling, Table};
use planner_tests::sites::{every_order_of_three, marked, site};
use std::collections::BTreeSet;

#[track_caller]
fn explore(table: &Table, restarts: bool) -> Reached {
    Reach::of(table, restarts, &mut Fleet::fresh(table)).check()
}

/// Without restarts exactly one record is finished, and no frame alters it.
#[track_caller]
fn explore_unwiped(table: &Table) -> usize {
    let reached = explore(table, false);
    assert_eq!([reached.finished, reached.late], [1, 0]);
    reached.records
}

/// Every set of links in every order from dearest to cheapest: 1, 3, 3 and 1 sets of 0 to 3 links, in
/// 1, 1, 2 and 6 orders. One order of three links takes three costs.
#[test]
fn every_order_of_three_probes() {
    let (mut tables, mut none_short, mut records) = (0, 0, 0);
    let mut orders = BTreeSet::new();
    every_order_of_three(|table| {
        let ends = |place: usize| table.links[place].ends();
        let order: Vec<_> = falling(&table.links).into_iter().map(ends).collect();
        orders.insert(order);
        tables += 1;
        none_short += usize::from(!table.has_short());
        records += explore_unwiped(table);
    });
    assert_eq!(orders.len(), 1 + 3 + 3 * 2 + 6);
    assert_eq!([tables, none_short, records], [2_400, 412, 39_924]);
}

#[test]
fn every_order_of_three_probes_with_restarts() {
    let mut reached = Reached::default();
    every_order_of_three(|table| reached.add(explore(table, true)));
    let expected = Reached {
        records: 426_633,
        finished: 5_823,
        late: 4_368,
        changes: 4,
    };
    assert_eq!(reached, expected);
}

#[test]
fn marked_sites() {
    let records = [0, 1, 2, 3, 4, 5, 6, 7].map(|place| explore_unwiped(&marked(place)));
    assert_eq!(records, [108, 100, 1, 9, 4, 37, 37, 108]);
    let with_restarts = [0, 1, 2, 3, 4, 5, 6, 7].map(|place| {
        let reached = explore(&marked(place), true);
        [reached.records, reached.finished]
    });
    let expected = [
        [2_725, 2],
        [2_025, 4],
        [1, 1],
        [25, 1],
        [9, 2],
        [929, 4],
        [929, 4],
        [2_725, 2],
    ];
    assert_eq!(with_restarts, expected);
}

/// A ring of four probes, and four probes with five links, where displaced offers go far.
#[test]
fn four_probes() {
    let ring = [[0, 1, 5], [0, 3, 6], [1, 2, 7], [2, 3, 8]];
    let more = [[0, 1, 5], [0, 2, 5], [0, 3, 5], [1, 2, 5], [2, 3, 5]];
    for (table, records) in [
        (site(&ring, &[1, 1, 1, 1]), [144, 11_881]),
        (site(&more, &[2, 1, 2, 1]), [168, 49_129]),
    ] {
        assert_eq!(explore_unwiped(&table), records[0]);
        let reached = explore(&table, true);
        assert_eq!(reached.records, records[1]);
        assert!(reached.finished > 1 && reached.late > 1);
    }
}
