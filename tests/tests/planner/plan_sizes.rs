//! Sites at the limits of a table: no links, no spare, all spare, long chains, very many links.

use planner_tests::compare;
use planner_tests::random::Random;
use planner_tests::reference::{Caller, Plan, Table};
use planner_tests::sites::{hubs, legal_of_size, set_costs, set_needs, site, Numbers};

fn plan(table: &Table) -> Plan {
    compare::plan_table(Caller::Full, table, &mut Random::new(27))
}

#[test]
fn no_links() {
    let mut random = Random::new(28);
    for probes in [1, 2, 255, 256] {
        let table = site(&[], &vec![0; probes]);
        let output = b"0001000000000000\nffff\n".to_vec();
        for length in [22, 30] {
            let printed = compare::plan_text(Caller::Full, &table.text(), length, &mut random);
            assert_eq!(printed.as_ref(), Ok(&output));
        }
        for longer in [0, 50] {
            let numbers = Numbers::of(&table);
            let plan = compare::plan(Caller::Full, numbers.slices(), longer, &mut random)
                .expect("a legal table");
            assert_eq!((plan.count, plan.cost), (0, 0));
        }
    }
}

#[test]
fn every_need_is_the_number_of_links() {
    let mut random = Random::new(29);
    let mut table = legal_of_size(256, 2048, &mut random);
    set_costs(&mut table, || 65_535);
    set_needs(&mut table, |_, degree| degree);
    let plan = plan(&table);
    assert_eq!((plan.count, plan.cost), (2048, 134_215_680));
}

#[test]
fn every_need_is_0() {
    let mut random = Random::new(30);
    for probes in [65, 256] {
        let mut table = legal_of_size(probes, 2048, &mut random);
        set_needs(&mut table, |_, _| 0);
        let plan = plan(&table);
        assert_eq!((plan.count, plan.cost), (0, 0));
    }
}

#[test]
fn probes_without_spare_among_others() {
    let mut random = Random::new(31);
    for case in 0..300 {
        let mut table = legal_of_size(20, 60 + random.below(60), &mut random);
        let with_spare = random.word();
        set_needs(&mut table, |probe, degree| match with_spare >> probe & 1 {
            0 => degree,
            _ => degree * (case % 3) / 3,
        });
        for (link, kept) in table.links.iter().zip(plan(&table).kept) {
            let both = link.ends().iter().all(|end| with_spare >> end & 1 == 1);
            assert!(kept || both);
        }
    }
}

/// Probes in a row; each inner one needs one of its two links.
fn row(cost: impl Fn(u16) -> u16) -> Table {
    let links: Vec<[u16; 3]> = (0..255).map(|low| [low, low + 1, cost(low)]).collect();
    let mut table = site(&links, &[0; 256]);
    set_needs(&mut table, |_, degree| degree - 1);
    table
}

#[test]
fn rows_with_long_chains_of_displaced_offers() {
    // Every second link is rested, from the dearer end.
    for table in [row(|_| 7), row(|low| low), row(|low| 1_000 - low)] {
        let expected: Vec<bool> = (0..255).map(|place| place % 2 == 1).collect();
        assert_eq!(plan(&table).kept, expected);
    }
    // Dearer towards the middle: displaced offers run both ways.
    for middle in [1, 2, 127, 128, 253] {
        let plan = plan(&row(|low| 300 - low.abs_diff(middle)));
        assert_eq!(plan.count, 127 + middle as usize % 2);
        assert!(!plan.kept[middle as usize]);
    }
}

#[test]
fn hubs_joined_to_all_others() {
    let mut random = Random::new(32);
    for (count, links) in [(1, 255), (8, 2012)] {
        let mut table = hubs(256, count);
        assert_eq!(table.links.len(), links);
        for range in [1, 3, 65_536] {
            set_costs(&mut table, || random.below(range) as u16);
            for thirds in 0..=4 {
                set_needs(&mut table, |_, degree| degree * thirds / 3);
                assert_eq!(plan(&table).count == links, thirds >= 3);
            }
        }
    }
}

#[test]
fn all_pairs_of_64_probes() {
    let mut random = Random::new(33);
    let mut table = legal_of_size(64, 2016, &mut random);
    for range in [1, 2, 65_536] {
        set_costs(&mut table, || random.below(range) as u16);
        for need in [0, 1, 2, 31, 62, 63, 64, 65_535] {
            set_needs(&mut table, |_, _| need);
            assert!(2 * plan(&table).count >= 64 * need.min(63));
        }
    }
}
