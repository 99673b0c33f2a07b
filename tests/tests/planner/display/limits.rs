//! 16 probes and 17, 40 links and 41, as texts and as slices, from both callers.

use super::SMALL;
use crate::sizes::{refused_by_3, round_trip};
use planner_tests::compare;
use planner_tests::random::Random;
use planner_tests::reference::{refusal_line, text_length, Behind, Caller, Table};
use planner_tests::sites::{legal_of_size, Numbers};

/// Probes and links within the display's limits.
const WITHIN: [[usize; 2]; 7] = [
    [16, 40],
    [16, 39],
    [15, 40],
    [10, 40],
    [16, 1],
    [16, 0],
    [1, 0],
];

/// A probe more, a link more, or both; then the most of the full caller.
const BEYOND: [[usize; 2]; 7] = [
    [17, 0],
    [17, 1],
    [17, 40],
    [16, 41],
    [10, 41],
    [17, 41],
    [256, 2048],
];

fn tables<const N: usize>(sizes: [[usize; 2]; N], random: &mut Random) -> [Table; N] {
    sizes.map(|[probes, links]| legal_of_size(probes, links, random))
}

#[test]
fn within_the_limits() {
    let mut random = Random::new(102);
    for _ in 0..50 {
        for table in tables(WITHIN, &mut random) {
            for caller in Caller::BOTH {
                round_trip(caller, &table, &mut random);
            }
        }
    }
}

#[test]
fn beyond_the_limits() {
    let mut random = Random::new(103);
    for _ in 0..20 {
        for table in tables(BEYOND, &mut random) {
            round_trip(Caller::Full, &table, &mut random);
            refused_by_3(Caller::Display, &table, &mut random);
        }
    }
}

/// The longest texts that the display reads and prints.
#[test]
fn longest_texts() {
    let mut random = Random::new(104);
    let mut table = legal_of_size(16, 40, &mut random);
    table.needs.fill(65_535);
    assert_eq!(table.text().len(), 618);
    let printed = compare::by_both(|caller| compare::plan_table(caller, &table, &mut random));
    assert_eq!(printed.text(&table).len(), 686);
}

/// Reads into slices that the display's limits need, and into none.
#[track_caller]
fn display_refuses(text: &[u8], refusal: u8, random: &mut Random) {
    for lengths in [SMALL, [0; 4]] {
        let read = compare::read(Caller::Display, text, Behind::Nothing, lengths, random);
        assert_eq!(read, Err(refusal));
    }
    let printed = compare::plan_text(Caller::Display, text, 5, random);
    assert_eq!(printed, Ok(refusal_line(refusal)));
}

/// What the full caller answers: 0, or the refusal.
fn full_answers(text: &[u8], random: &mut Random) -> usize {
    let lengths = [300, 2100, 2100, 2100];
    let read = compare::read(Caller::Full, text, Behind::Nothing, lengths, random);
    read.err().unwrap_or(0).into()
}

/// The text cut anywhere, and each byte behind the header changed: the display says 3 as soon as the
/// header line is whole, whatever the full caller says of the lines behind it.
#[test]
fn the_header_line_decides() {
    let mut random = Random::new(105);
    let mut full = [0; 9];
    // All but the largest.
    for table in tables(BEYOND, &mut random).into_iter().take(6) {
        let text = table.text();
        for cut in 0..text.len() {
            let refusal = if cut < 13 { 1 } else { 3 };
            display_refuses(&text[..cut], refusal, &mut random);
            full[full_answers(&text[..cut], &mut random)] += 1;
        }
        for place in 13..text.len() {
            for byte in *b"X\n0f" {
                let mut broken = text.clone();
                broken[place] = byte;
                display_refuses(&broken, 3, &mut random);
                full[full_answers(&broken, &mut random)] += 1;
            }
        }
        display_refuses(&[&text[..], b"\n"].concat(), 3, &mut random);
    }
    let often = |answer: usize| full[answer] > 20;
    assert!([0, 1, 2, 4, 5, 6].into_iter().all(often), "{full:?}");
    assert_eq!([full[3], full[7], full[8]], [0; 3]);
}

/// In the header itself 1 and 2 come before 3.
#[test]
fn faults_of_the_header_line() {
    let mut random = Random::new(106);
    for header in ["00010011000", "0001001100000", "", "0001 0011 0000"] {
        display_refuses(format!("{header}\n").as_bytes(), 1, &mut random);
    }
    for header in [
        "00010011000G",
        "G00100110000",
        "0001001 0000",
        "00010010002A",
    ] {
        display_refuses(format!("{header}\n").as_bytes(), 2, &mut random);
    }
    for header in [
        "000100110000",
        "000100100029",
        "000100000000",
        "0001ffffffff",
    ] {
        display_refuses(format!("{header}\n").as_bytes(), 3, &mut random);
    }
    display_refuses(b"000100100028\n", 1, &mut random);
}

/// Texts with slices of the display's sizes: beyond the limits 3 by the display, 8 by the full caller.
#[test]
fn three_and_not_eight_for_texts() {
    let mut random = Random::new(107);
    let mut read = |caller, [probes, links]: [usize; 2]| {
        let text = legal_of_size(probes, links, &mut random).text();
        let read = compare::read(caller, &text, Behind::Nothing, SMALL, &mut random);
        read.err()
    };
    for size in [[17, 0], [17, 40], [16, 41], [17, 41]] {
        assert_eq!(read(Caller::Display, size), Some(3));
        assert_eq!(read(Caller::Full, size), Some(8));
    }
    for caller in Caller::BOTH {
        assert_eq!(read(caller, [16, 40]), None);
    }
}

/// Checks, writes and plans with slices for the output that just fit; then with each of these one byte
/// too short, which is 8 before all else.
#[track_caller]
fn judged(caller: Caller, numbers: &Numbers, random: &mut Random) -> Option<u8> {
    let given = numbers.slices();
    let (probes, links) = (given.probes.into(), given.links.into());
    let length = text_length(probes, links);
    let refusal = compare::check(caller, given).err();
    let written = compare::write(caller, given, length, random);
    assert_eq!(written.err(), refusal);
    assert_eq!(compare::plan(caller, given, 0, random).err(), refusal);
    let short = compare::write(caller, given, length - 1, random);
    assert_eq!(short, Err(8));
    if links > 0 {
        let short = compare::plan_slse(caller, given, links - 1, random);
        assert_eq!(short, Err(8));
        for lengths in [[links - 1, 4 * links], [links, 4 * links - 1]] {
            let short = compare::plan_turns(caller, given, lengths, random);
            assert_eq!(short, Err(8));
        }
    }
    refusal
}

/// Needs, lows, highs and costs of these lengths: the answers of the full caller and of the display.
fn both_judged(table: &Table, lengths: [usize; 4], random: &mut Random) -> [Option<u8>; 2] {
    let mut numbers = Numbers::of(table);
    numbers.lend(lengths, random);
    Caller::BOTH.map(|caller| judged(caller, &numbers, random))
}

#[test]
fn eight_before_three_for_slices() {
    let random = &mut Random::new(108);
    let probe_more = legal_of_size(17, 40, random);
    let link_more = legal_of_size(16, 41, random);
    let most = legal_of_size(16, 40, random);
    for (table, lengths, expected) in [
        (&most, SMALL, [None, None]),
        (&most, [17, 41, 41, 41], [None, None]),
        (&most, [15, 40, 40, 40], [Some(8), Some(8)]),
        (&probe_more, SMALL, [Some(8), Some(8)]),
        (&probe_more, [17, 40, 40, 40], [None, Some(3)]),
        (&probe_more, [300, 2100, 2100, 2100], [None, Some(3)]),
        (&probe_more, [17, 40, 40, 41], [Some(8), Some(8)]),
        (&link_more, SMALL, [Some(8), Some(8)]),
        (&link_more, [16, 41, 41, 41], [None, Some(3)]),
        (&link_more, [300, 2100, 2100, 2100], [None, Some(3)]),
        (&link_more, [16, 41, 40, 41], [Some(8), Some(8)]),
        (&link_more, [15, 41, 41, 41], [Some(8), Some(8)]),
    ] {
        assert_eq!(both_judged(table, lengths, random), expected, "{lengths:?}");
    }
}

/// 3 comes before 4 and 5 of the links.
#[test]
fn three_before_the_links() {
    let random = &mut Random::new(109);
    for (spoil, refusal) in [([5, 5], 4), ([0, 300], 4), ([0, 1], 5)] {
        for ([probes, links], by_display) in [([17, 40], 3), ([16, 41], 3), ([16, 40], refusal)] {
            let mut table = legal_of_size(probes, links, random);
            let lengths = Numbers::of(&table).lent;
            let last = &mut table.links[links - 1];
            [last.low, last.high] = spoil;
            let answers = both_judged(&table, lengths, random);
            assert_eq!(answers, [Some(refusal), Some(by_display)]);
        }
    }
}
