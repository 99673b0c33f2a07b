//! Where planners slip, by 01: each slip gives a site another plan here, and the library does not.

use planner_tests::compare;
use planner_tests::methods::Cover;
use planner_tests::random::Random;
use planner_tests::reference::{falling, plan, rest_in_order, Caller, Link, Plan, Table};
use planner_tests::sites::{lower_first, marked, site};
use std::cmp::Reverse;

/// The library keeps to the definition, from which the slipped plan differs.
#[track_caller]
fn assert_shows(table: &Table, slipped: &Plan) {
    let by_library = compare::plan_table(Caller::Full, table, &mut Random::new(23));
    assert_eq!(by_library, plan(table));
    assert_ne!(by_library, *slipped);
}

fn slse_with_lower_first(table: &Table) -> Plan {
    let mut cover = Cover::none(table);
    cover.add_wanted(lower_first(&table.links, |cost| cost).into_iter());
    cover.remove_spare(lower_first(&table.links, Reverse).into_iter());
    Plan::keeping(cover.added, table)
}

#[test]
fn one_tie_rule_for_adding_and_resting() {
    let m7 = marked(6);
    let resting = rest_in_order(&lower_first(&m7.links, Reverse), &m7);
    assert_shows(&m7, &resting);
    // The methods then differ.
    assert_ne!(slse_with_lower_first(&m7), resting);
    let star = site(&[[0, 3, 4], [1, 3, 4], [2, 3, 4]], &[0, 0, 1, 2]);
    assert_shows(&star, &slse_with_lower_first(&star));
}

#[test]
fn ties_that_alter_the_cost() {
    let m1 = marked(0);
    let middle_first = rest_in_order(&[1, 0, 2], &m1);
    assert_shows(&m1, &middle_first);
    assert_eq!((plan(&m1).cost, middle_first.cost), (5, 10));
}

#[test]
fn spare_0_that_takes_an_offer() {
    // 0 has no spare, or is short; if it takes the offer of 1, then 1 makes none to 2.
    for need in [1, 2, 65_535] {
        let row = site(&[[0, 1, 7], [1, 2, 5]], &[need, 1, 0]);
        assert_slip_shows(&row, Slip::SpareZeroTakes);
    }
}

#[test]
fn matching_by_increasing_weight() {
    for m in [1, 5] {
        let rising: Vec<usize> = falling(&marked(m).links).into_iter().rev().collect();
        assert_shows(&marked(m), &rest_in_order(&rising, &marked(m)));
        assert_slip_shows(&marked(m), Slip::IncreasingWeight);
    }
}

#[test]
fn displaced_probe_that_offers_the_same_link_again() {
    // 2 displaces 0 at 1 after the turn of 0, which then has 0-3 to offer.
    let row = site(&[[0, 1, 6], [0, 3, 5], [1, 2, 7]], &[1, 1, 0, 0]);
    assert_slip_shows(&row, Slip::SameLinkAgain);
}

#[test]
fn keeping_every_link_or_resting_in_the_first_turn_alone() {
    for m in [0, 1, 3, 5, 6, 7] {
        let every = Plan::keeping(vec![true; marked(m).links.len()], &marked(m));
        assert_shows(&marked(m), &every);
        assert_slip_shows(&marked(m), Slip::FirstTurnAlone);
    }
}

#[derive(Clone, Copy, PartialEq)]
enum Slip {
    None,
    SpareZeroTakes,
    IncreasingWeight,
    SameLinkAgain,
    FirstTurnAlone,
}

#[track_caller]
fn assert_slip_shows(table: &Table, slip: Slip) {
    assert_eq!(by_turns(table, Slip::None), plan(table));
    assert_shows(table, &by_turns(table, slip));
}

/// By turns, small and slow, with a slip.
struct Turns<'a> {
    links: &'a [Link],
    /// From dearest to cheapest.
    order: Vec<usize>,
    /// How many offers each probe may make, and how many it takes.
    spares: Vec<usize>,
    rooms: Vec<usize>,
    /// The links each probe has tried, and those whose offer it holds.
    tried: Vec<Vec<usize>>,
    held: Vec<Vec<usize>>,
    slip: Slip,
}

fn by_turns(table: &Table, slip: Slip) -> Plan {
    let mut order = falling(&table.links);
    if slip == Slip::IncreasingWeight {
        order.reverse();
    }
    let spares = table.spares();
    let least = (slip == Slip::SpareZeroTakes) as usize;
    let mut turns = Turns {
        links: &table.links,
        order,
        rooms: spares.iter().map(|&spare| spare.max(least)).collect(),
        spares,
        tried: vec![Vec::new(); table.needs.len()],
        held: vec![Vec::new(); table.needs.len()],
        slip,
    };
    let last = match slip {
        Slip::FirstTurnAlone => 1,
        _ => table.needs.len(),
    };
    for probe in 0..last {
        while turns.standing(probe) < turns.spares[probe] && turns.offer(probe) {}
    }
    let kept = |place: usize| {
        let [low, high] = table.links[place].ends();
        !turns.held[low].contains(&place) || !turns.held[high].contains(&place)
    };
    Plan::keeping((0..table.links.len()).map(kept).collect(), table)
}

impl Turns<'_> {
    fn other_end(&self, place: usize, end: usize) -> usize {
        let [low, high] = self.links[place].ends();
        low + high - end
    }

    fn standing(&self, probe: usize) -> usize {
        let tried = self.tried[probe].iter();
        let stands = |&&place: &&usize| self.held[self.other_end(place, probe)].contains(&place);
        tried.filter(stands).count()
    }

    /// The cheapest has the highest rank.
    fn rank(&self, place: usize) -> Option<usize> {
        self.order.iter().position(|&other| other == place)
    }

    fn would_take(&self, end: usize, place: usize) -> bool {
        let held = &self.held[end];
        let dearer = |&other: &usize| self.rank(place) < self.rank(other);
        held.len() < self.rooms[end] || held.iter().any(dearer)
    }

    fn offer(&mut self, probe: usize) -> bool {
        let next = self.order.iter().copied().find(|&place| {
            self.links[place].ends().contains(&probe)
                && !self.tried[probe].contains(&place)
                && self.would_take(self.other_end(place, probe), place)
        });
        let Some(place) = next else {
            return false;
        };
        let end = self.other_end(place, probe);
        self.tried[probe].push(place);
        self.held[end].push(place);
        if self.held[end].len() > self.rooms[end] {
            self.displace(end);
        }
        true
    }

    fn displace(&mut self, end: usize) {
        let held = self.held[end].iter().copied();
        let Some(place) = held.max_by_key(|&place| self.rank(place)) else {
            return;
        };
        self.held[end].retain(|&other| other != place);
        // If it offers the same link again, that is refused and was its offer.
        if self.slip != Slip::SameLinkAgain {
            self.offer(self.other_end(place, end));
        }
    }
}
