//! The largest sizes, and one more.

use planner_tests::compare;
use planner_tests::random::Random;
use planner_tests::reference::{Behind, Caller, Link, Table};
use planner_tests::sites::{legal_of_size, Numbers};

const LENT: [usize; 4] = [300, 2100, 2100, 2100];

/// The legal table is read from its text, planned and written back the same, with slices that
/// just fit and with longer ones.
#[track_caller]
pub fn round_trip(caller: Caller, table: &Table, random: &mut Random) {
    let text = table.text();
    let mut numbers = Numbers::of(table);
    for &behind in Behind::of(caller) {
        for lengths in [numbers.lent, LENT] {
            assert_eq!(
                compare::read(caller, &text, behind, lengths, random).as_ref(),
                Ok(table)
            );
        }
    }
    for lengths in [numbers.lent, LENT] {
        numbers.lend(lengths, random);
        assert_eq!(compare::check(caller, numbers.slices()), Ok(()));
        for length in [text.len(), text.len() + 1, 30_000] {
            let written = compare::write(caller, numbers.slices(), length, random);
            assert_eq!(written.as_ref(), Ok(&text));
        }
        let short = compare::write(caller, numbers.slices(), text.len() - 1, random);
        assert_eq!(short, Err(8));
        assert!(compare::plan(caller, numbers.slices(), 7, random).is_ok());
    }
    compare::plan_table(caller, table, random);
}

/// The table is legal but for its size.
#[track_caller]
pub fn refused_by_3(caller: Caller, table: &Table, random: &mut Random) {
    let text = table.text();
    for &behind in Behind::of(caller) {
        assert_eq!(compare::read(caller, &text, behind, LENT, random), Err(3));
        // The header alone decides.
        assert_eq!(
            compare::read(caller, &text[..13], behind, LENT, random),
            Err(3)
        );
    }
    let numbers = Numbers::of(table);
    assert_eq!(compare::check(caller, numbers.slices()), Err(3));
    let written = compare::write(caller, numbers.slices(), text.len(), random);
    assert_eq!(written, Err(3));
    assert_eq!(compare::plan(caller, numbers.slices(), 0, random), Err(3));
    let printed = compare::plan_text(caller, &text, 5, random);
    assert_eq!(printed, Ok(b"e003\n".to_vec()));
}

#[test]
fn longest_text() {
    let mut random = Random::new(6);
    for _ in 0..20 {
        let table = legal_of_size(256, 2048, &mut random);
        assert_eq!(table.text().len(), 27_922);
        round_trip(Caller::Full, &table, &mut random);
    }
}

#[test]
fn longest_text_without_its_last_bytes() {
    let mut random = Random::new(7);
    let text = legal_of_size(256, 2048, &mut random).text();
    for behind in Behind::BOTH {
        for (length, refusal) in [(27_921, 6), (27_917, 6), (27_916, 1), (27_904, 1)] {
            let read = compare::read(Caller::Full, &text[..length], behind, LENT, &mut random);
            assert_eq!(read, Err(refusal));
        }
        for short in [[255, 2048, 2048, 2048], [256, 2047, 2047, 2047]] {
            assert_eq!(
                compare::read(Caller::Full, &text, behind, short, &mut random),
                Err(8)
            );
        }
    }
}

#[test]
fn one_probe_more() {
    let mut random = Random::new(8);
    for links in [0, 1, 2048] {
        round_trip(
            Caller::Full,
            &legal_of_size(256, links, &mut random),
            &mut random,
        );
        refused_by_3(
            Caller::Full,
            &legal_of_size(257, links, &mut random),
            &mut random,
        );
    }
}

#[test]
fn one_link_more() {
    let mut random = Random::new(9);
    for probes in [65, 100, 256] {
        round_trip(
            Caller::Full,
            &legal_of_size(probes, 2048, &mut random),
            &mut random,
        );
        refused_by_3(
            Caller::Full,
            &legal_of_size(probes, 2049, &mut random),
            &mut random,
        );
    }
}

#[test]
fn small_sizes() {
    let mut random = Random::new(10);
    for probes in 1..=12 {
        for links in 0..=probes * (probes - 1) / 2 {
            round_trip(
                Caller::Full,
                &legal_of_size(probes, links, &mut random),
                &mut random,
            );
        }
    }
}

/// A star: probe 0 has 255 links, each other probe one.
fn star(last_need: u16) -> Table {
    let cost = 65_535;
    let links = (1..256).map(|high| Link { low: 0, high, cost });
    let mut needs = vec![1; 256];
    (needs[0], needs[255]) = (255, last_need);
    Table {
        number: 65_535,
        needs,
        links: links.collect(),
    }
}

/// One above the links is read, written back and planned too; the plan's text has a line more.
#[test]
fn need_equal_to_the_links_and_one_above() {
    let mut random = Random::new(11);
    let [equal, above] = [1, 2].map(|need| {
        let table = star(need);
        round_trip(Caller::Full, &table, &mut random);
        compare::plan_text(Caller::Full, &table.text(), LENT[1] * 13, &mut random)
            .expect("a legal table")
    });
    assert_eq!(equal.len(), 17 + 13 * 255 + 5);
    let (kept, closing) = equal.split_at(equal.len() - 5);
    assert!(above == [kept, b"00ff0001\n", closing].concat());
}

#[test]
fn highest_counts_a_header_can_hold() {
    let mut random = Random::new(12);
    let mut numbers = Numbers::of(&star(1));
    (numbers.probes, numbers.links) = (65_535, 65_535);
    let length = 13 + 18 * 65_535 + 5;
    for (lent, refusal) in [(65_535, 3), (65_534, 8)] {
        numbers.lend([lent; 4], &mut random);
        assert_eq!(compare::check(Caller::Full, numbers.slices()), Err(refusal));
        let written = compare::write(Caller::Full, numbers.slices(), length, &mut random);
        assert_eq!(written, Err(refusal));
        let short = compare::write(Caller::Full, numbers.slices(), length - 1, &mut random);
        assert_eq!(short, Err(8));
        let plan = compare::plan(Caller::Full, numbers.slices(), 0, &mut random);
        assert_eq!(plan, Err(refusal));
    }
}
