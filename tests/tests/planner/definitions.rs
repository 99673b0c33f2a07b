//! The second implementation's own definitions, against the words of 01 and 02.

use planner_tests::random::Random;
use planner_tests::reference::{dearer, falling, plan, Link, Plan, Table};
use planner_tests::sites::{banded, crowded, every_table, legal, legal_of_size, marked, site};

#[test]
fn dearer_by_cost_then_low_then_high() {
    let link = |low, high, cost| Link { low, high, cost };
    let rising = [
        link(3, 9, 4),
        link(0, 1, 5),
        link(0, 2, 5),
        link(1, 2, 5),
        link(0, 1, 6),
    ];
    for (place, one) in rising.iter().enumerate() {
        for (other_place, other) in rising.iter().enumerate() {
            assert_eq!(dearer(*one, *other), place > other_place);
        }
    }
}

#[test]
fn of_two_links_exactly_one_is_dearer() {
    let mut random = Random::new(15);
    for _ in 0..500 {
        let table = legal(&mut random);
        for (place, &link) in table.links.iter().enumerate().take(50) {
            assert!(!dearer(link, link));
            for &other in &table.links[place + 1..] {
                assert!(dearer(link, other) != dearer(other, link));
            }
        }
    }
}

#[test]
fn degrees_and_spares_of_marked_sites() {
    let expected: [Vec<usize>; 8] = [
        vec![1, 1, 1, 1],
        vec![1, 1, 1, 1],
        vec![0],
        vec![1, 1],
        vec![0, 1],
        vec![1, 1, 1],
        vec![1, 1, 1],
        vec![1, 1, 1, 1],
    ];
    for (place, expected) in expected.iter().enumerate() {
        assert_eq!(&marked(place).spares(), expected);
    }
    assert_eq!(marked(0).degrees(), [1, 2, 2, 1]);
}

#[test]
fn degrees_count_each_link_twice() {
    let mut random = Random::new(16);
    for _ in 0..500 {
        let table = legal(&mut random);
        assert_eq!(table.degrees().iter().sum::<usize>(), 2 * table.links.len());
    }
}

#[test]
fn counted_needs_spares_and_short_probes_of_a_row() {
    let row = site(&[[0, 1, 5], [1, 2, 6], [2, 3, 5]], &[0, 3, 2, 65_535]);
    assert_eq!(row.counted_needs(), [0, 2, 2, 1]);
    assert_eq!(row.spares(), [1, 0, 0, 0]);
    assert_eq!(row.short_probes(), [(1, 1), (3, 65_534)]);
    let alone = site(&[], &[2]);
    assert_eq!((alone.counted_needs(), alone.spares()), (vec![0], vec![0]));
    assert_eq!(alone.short_probes(), [(0, 2)]);
}

/// Which links a choice has.
fn has(choice: u32, place: usize) -> bool {
    choice >> place & 1 == 1
}

/// Whether each probe is an end of at least its counted need of the links.
fn meets(table: &Table, counted: &[usize], chosen: impl Fn(usize) -> bool) -> bool {
    let mut ends = vec![0; counted.len()];
    for (place, link) in table.links.iter().enumerate() {
        let [low, high] = link.ends();
        ends[low] += usize::from(chosen(place));
        ends[high] += usize::from(chosen(place));
    }
    ends.iter().zip(counted).all(|(ends, need)| ends >= need)
}

/// By 02, for every probe: what its need counts as, its spare, whether it is short and what it is
/// missing. Answers how many are short.
#[track_caller]
fn assert_counted(table: &Table) -> usize {
    let (degrees, counted, spares) = (table.degrees(), table.counted_needs(), table.spares());
    let mut short = table.short_probes().into_iter().peekable();
    let count = short.len();
    for (probe, &need) in table.needs.iter().enumerate() {
        let (need, degree) = (usize::from(need), degrees[probe]);
        assert_eq!(counted[probe], if need < degree { need } else { degree });
        assert_eq!(spares[probe] + counted[probe], degree);
        let listed = short.next_if(|&(short, _)| short == probe);
        assert_eq!(
            listed.map(|(_, missing)| missing + degree),
            (need > degree).then_some(need)
        );
        assert!(listed.is_none() || spares[probe] == 0);
    }
    assert_eq!(short.next(), None);
    count
}

/// The plan meets the counted needs, and a short probe keeps all its links.
#[track_caller]
fn assert_planned(table: &Table) {
    let kept = plan(table).kept;
    assert!(meets(table, &table.counted_needs(), |place| kept[place]));
    let short = table.short_probes();
    for (link, kept) in table.links.iter().zip(kept) {
        let keeps = |end: &usize| short.iter().any(|(probe, _)| probe == end);
        assert!(kept || !link.ends().iter().any(keeps));
    }
}

#[test]
fn counted_needs_are_met() {
    let (mut random, mut short) = (Random::new(36), 0);
    for _ in 0..1_000 {
        for table in [
            legal(&mut random),
            crowded(&mut random),
            banded(&mut random),
        ] {
            short += assert_counted(&table);
            assert_planned(&table);
        }
    }
    assert!(short > 10_000, "{short}");
    let mut short = 0;
    for probes in 1..=4 {
        every_table(probes, 3, |table| {
            short += assert_counted(table);
            assert_planned(table);
        });
    }
    assert!(short > 500_000, "{short}");
}

/// What the chosen links cost together.
fn cost_of(table: &Table, chosen: impl Fn(usize) -> bool) -> u64 {
    let links = table.links.iter().enumerate();
    let chosen = links.filter(|&(place, _)| chosen(place));
    chosen.map(|(_, link)| u64::from(link.cost)).sum()
}

/// Every choice of links that meets the counted needs.
fn choices_that_meet(table: &Table) -> impl Iterator<Item = u32> + '_ {
    let counted = table.counted_needs();
    let choices = 0..1_u32 << table.links.len();
    choices.filter(move |&choice| meets(table, &counted, |place| has(choice, place)))
}

/// What all choices that meet the counted needs of some tables have shown of their plans.
#[derive(Debug, Default)]
struct Bounds {
    /// Tables whose plan costs more than the best choice, just twice as much, and that with a
    /// short probe.
    dearer: usize,
    twice: usize,
    twice_with_short: usize,
    /// Choices with a cost of their own: what only the plan keeps costs just twice as much, though
    /// the plan does not.
    apart: usize,
}

impl Bounds {
    /// By demand 3, the plan costs at most twice as much as any choice that meets the counted
    /// needs; by 02, so do the links that only the plan keeps against those that only the choice
    /// keeps.
    #[track_caller]
    fn assert(&mut self, table: &Table) {
        let Plan { kept, cost, .. } = plan(table);
        let mut least = u64::MAX;
        for choice in choices_that_meet(table) {
            let chosen = cost_of(table, |place| has(choice, place));
            let only_plan = cost_of(table, |place| kept[place] && !has(choice, place));
            let only_choice = cost_of(table, |place| !kept[place] && has(choice, place));
            assert!(cost <= 2 * chosen, "{table:?} {choice}");
            assert!(only_plan <= 2 * only_choice, "{table:?} {choice}");
            let twice_apart = only_choice > 0 && only_plan == 2 * only_choice;
            self.apart += usize::from(twice_apart && cost < 2 * chosen);
            least = least.min(chosen);
        }
        assert!(least <= cost, "the plan is such a choice: {table:?}");
        self.dearer += usize::from(cost > least);
        if cost > least && cost == 2 * least {
            self.twice += 1;
            self.twice_with_short += usize::from(table.has_short());
        }
    }
}

#[test]
fn plan_against_every_choice() {
    let mut small = Bounds::default();
    for probes in 1..=4 {
        every_table(probes, 3, |table| small.assert(table));
    }
    assert!(small.dearer > 1_000 && small.twice > 100, "{small:?}");
    assert!(small.twice_with_short > 0, "{small:?}");
    assert!(small.apart > 1_000, "{small:?}");
    let (mut random, mut larger) = (Random::new(115), Bounds::default());
    for _ in 0..5_000 {
        let (probes, links) = (5 + random.below(2), 4 + random.below(7));
        larger.assert(&legal_of_size(probes, links, &mut random));
    }
    assert!(larger.dearer > 50 && larger.twice > 0, "{larger:?}");
    assert!(larger.apart > 20, "{larger:?}");
}

/// By 02, without any one of the links that the plan keeps, an end of that link has less than its
/// counted need. Answers at how many links one end has, and at how many both have.
#[track_caller]
fn assert_each_needed(table: &Table) -> [usize; 2] {
    let (kept, counted) = (plan(table).kept, table.counted_needs());
    let mut reached = [0; 2];
    let links = table.links.iter().enumerate();
    for (rested, link) in links.filter(|&(place, _)| kept[place]) {
        let has_less = |end: usize| {
            let links = table.links.iter().enumerate();
            let others = links.filter(|&(place, _)| kept[place] && place != rested);
            others
                .filter(|(_, other)| other.ends().contains(&end))
                .count()
                < counted[end]
        };
        let ends = link.ends().into_iter().filter(|&end| has_less(end)).count();
        assert!(ends > 0, "{table:?} {rested}");
        reached[ends - 1] += 1;
    }
    reached
}

#[test]
fn no_link_is_awake_for_nothing() {
    let mut small = [0; 2];
    for probes in 1..=4 {
        every_table(probes, 3, |table| {
            add(&mut small, assert_each_needed(table))
        });
    }
    assert!(small[0] > 100_000 && small[1] > 100_000, "{small:?}");
    let (mut random, mut larger) = (Random::new(116), [0; 2]);
    for _ in 0..300 {
        add(&mut larger, assert_each_needed(&legal(&mut random)));
        add(&mut larger, assert_each_needed(&crowded(&mut random)));
        add(&mut larger, assert_each_needed(&banded(&mut random)));
    }
    assert!(larger[0] > 1_000 && larger[1] > 1_000, "{larger:?}");
}

fn add(sums: &mut [usize; 2], reached: [usize; 2]) {
    for (sum, reached) in sums.iter_mut().zip(reached) {
        *sum += reached;
    }
}

/// A triangle 0-1-2 and the link 1-3, each at cost 1: the plan and the best choice share 1-3.
#[test]
fn what_only_the_plan_keeps_costs_twice() {
    let table = site(&[[0, 1, 1], [0, 2, 1], [1, 2, 1], [1, 3, 1]], &[0, 2, 1, 1]);
    let (kept, other) = (plan(&table).kept, 0b1100);
    assert_eq!(kept, [true, true, false, true]);
    let cost = |choice| cost_of(&table, |place| has(choice, place));
    assert!(choices_that_meet(&table).any(|choice| choice == other));
    assert!(choices_that_meet(&table).all(|choice| cost(other) <= cost(choice)));
    let only_plan = cost_of(&table, |place| kept[place] && !has(other, place));
    let only_other = cost_of(&table, |place| !kept[place] && has(other, place));
    assert_eq!([only_plan, only_other], [2, 1]);
    assert_eq!(assert_each_needed(&table), [2, 1]);
}

#[test]
fn falling_goes_from_each_link_to_a_cheaper_one() {
    let mut random = Random::new(17);
    for _ in 0..500 {
        let links = legal(&mut random).links;
        let order = falling(&links);
        assert_eq!(order.len(), links.len());
        let falls = |pair: &[usize]| dearer(links[pair[0]], links[pair[1]]);
        assert!(order.windows(2).all(falls));
    }
}

/// A link is rested exactly when each end has fewer dearer links rested than it has spare.
#[test]
fn each_link_is_rested_by_the_rule() {
    let mut random = Random::new(18);
    for _ in 0..300 {
        let table = crowded(&mut random);
        let (kept, spares) = (plan(&table).kept, table.spares());
        for (place, &link) in table.links.iter().enumerate() {
            let has_spare_left = |&end: &usize| {
                let rested_before = |&(other, dear): &(usize, &Link)| {
                    dearer(*dear, link) && !kept[other] && dear.ends().contains(&end)
                };
                let links = table.links.iter().enumerate();
                spares[end] > links.filter(rested_before).count()
            };
            assert_eq!(!kept[place], link.ends().iter().all(has_spare_left));
        }
    }
}
