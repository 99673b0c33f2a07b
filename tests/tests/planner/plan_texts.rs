//! The plan's text for the longest texts and longer ones, in slices that just fit and shorter.

use planner_tests::compare;
use planner_tests::random::Random;
use planner_tests::reference::{Caller, Table};
use planner_tests::sites::{crowded, legal_of_size, marked, set_needs};

/// The longest table, with every link kept: each probe needs so many more links than it has.
fn longest(more: usize, random: &mut Random) -> Table {
    let mut table = legal_of_size(256, 2048, random);
    set_needs(&mut table, |_, degree| degree + more);
    table
}

/// A slice that just fits the output is filled, a shorter one is refused.
#[track_caller]
fn fits(table: &Table, random: &mut Random) -> usize {
    let text = table.text();
    let output = compare::plan_table(Caller::Full, table, random).text(table);
    let right = output.len();
    for length in [right, right + 1, right + 5_000] {
        let printed = compare::plan_text(Caller::Full, &text, length, random);
        assert_eq!(printed.as_ref(), Ok(&output));
    }
    let cut = [1, 5, 6, 9, 13, 14].map(|less| right - less);
    for short in [0, 1, 5, 16, 17].into_iter().chain(cut) {
        let printed = compare::plan_text(Caller::Full, &text, short.min(right - 1), random);
        assert_eq!(printed, Err(8));
    }
    right
}

#[test]
fn outputs_that_just_fit() {
    let (mut random, mut short) = (Random::new(25), 0);
    for place in 0..8 {
        fits(&marked(place), &mut random);
    }
    for _ in 0..500 {
        let table = crowded(&mut random);
        let length = fits(&table, &mut random);
        let probes = table.short_probes().len();
        assert_eq!((length - 22 - 9 * probes) % 13, 0);
        short += usize::from(probes > 0);
    }
    assert!(short > 100, "{short}");
}

/// All links kept, and no probe short or all.
#[test]
fn longest_outputs() {
    let mut random = Random::new(37);
    for (more, length) in [(0, 26_646), (1, 28_950), (65_280, 28_950)] {
        let table = longest(more, &mut random);
        assert_eq!(fits(&table, &mut random), length);
    }
}

#[test]
fn texts_longer_than_the_longest_table() {
    let mut random = Random::new(26);
    let text = longest(1, &mut random).text();
    let (need, link) = (13, 13 + 5 * 256 + 13 * 1_000);
    let faults: [(usize, &[u8], u8); 7] = [
        (0, b"0001", 6),
        (0, b"000\n", 1),
        (4, b"0101", 3),
        (need, b"ffff", 6),
        (need, b"fffF", 2),
        (link, b"0100", 4),
        (link, b"0000", 5),
    ];
    for (place, fault, refusal) in faults {
        for behind in [b"\n", &b"ffff\n"[..], &[0; 70_000], &text] {
            let mut longer = [&text[..], behind].concat();
            longer[place..place + 4].copy_from_slice(fault);
            let output = format!("e{refusal:03}\n").into_bytes();
            let printed = compare::plan_text(Caller::Full, &longer, 5, &mut random);
            assert_eq!(printed, Ok(output));
        }
    }
}
