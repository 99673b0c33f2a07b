//! Every table of up to four probes with costs 0, 1 and 2 and needs up to two above the links: both
//! methods and the plan's text, the same for the display.

use planner_tests::compare;
use planner_tests::random::Random;
use planner_tests::reference::Table;
use planner_tests::sites::every_table;

/// Plans the tables picked for both callers and answers how many there were, and how many without a short probe.
fn plan_each(probes: usize, picked: impl Fn(&Table) -> bool) -> [usize; 2] {
    let mut random = Random::new(19);
    let (mut tables, mut none_short) = (0, 0);
    every_table(probes, 3, |table| {
        if picked(table) {
            compare::by_both(|caller| compare::plan_table(caller, table, &mut random));
            tables += 1;
            none_short += usize::from(!table.has_short());
        }
    });
    [tables, none_short]
}

#[test]
fn up_to_three_probes() {
    let tables = [1, 2, 3].map(|probes| plan_each(probes, |_| true));
    assert_eq!(tables, [[3, 1], [57, 13], [5_994, 1_090]]);
}

#[test]
fn four_probes_with_all_six_links() {
    let tables = plan_each(4, |table| table.links.len() == 6);
    assert_eq!(tables, [944_784, 186_624]);
}

#[test]
fn four_probes_with_five_links() {
    let tables = plan_each(4, |table| table.links.len() == 5);
    assert_eq!(tables, [1_312_200, 209_952]);
}

#[test]
fn four_probes_with_fewer_links() {
    let tables = plan_each(4, |table| table.links.len() < 5);
    assert_eq!(tables, [982_152, 109_504]);
}
