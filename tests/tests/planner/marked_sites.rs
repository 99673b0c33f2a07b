//! The marked sites M1 to M8 of 01: read, written back the same, and planned.

use planner_tests::compare;
use planner_tests::ffi;
use planner_tests::random::Random;
use planner_tests::reference::{Behind, Caller, Lent, Table};
use planner_tests::sites::{self, Numbers, MARKED};

/// A row of 01's table of sites: links (low, high, cost), needs, places of kept links, cost.
type Row = (&'static [[u16; 3]], &'static [u16], &'static [usize], u64);

const ROWS: [Row; 8] = [
    (&[[0, 1, 5], [1, 2, 5], [2, 3, 5]], &[0, 1, 1, 0], &[1], 5),
    (
        &[[0, 1, 5], [1, 2, 6], [2, 3, 5]],
        &[0, 1, 1, 0],
        &[0, 2],
        10,
    ),
    (&[], &[0], &[], 0),
    (&[[0, 1, 7]], &[0, 0], &[], 0),
    (&[[0, 1, 7]], &[1, 0], &[0], 7),
    (&[[0, 1, 1], [0, 2, 2], [1, 2, 3]], &[1, 1, 1], &[0, 1], 3),
    (&[[0, 1, 4], [0, 2, 4], [1, 2, 4]], &[1, 1, 1], &[0, 1], 8),
    (&[[0, 1, 0], [1, 2, 0], [2, 3, 0]], &[0, 1, 1, 0], &[1], 0),
];

fn site(place: usize) -> Table {
    let (links, needs, ..) = ROWS[place];
    sites::site(links, needs)
}

#[test]
fn marked_texts_are_read() {
    let mut random = Random::new(13);
    for (place, text) in MARKED.iter().enumerate() {
        let expected = site(place);
        let fit = Numbers::of(&expected).lent;
        for lengths in [fit, fit.map(|length| length + 3)] {
            for behind in Behind::BOTH {
                let read =
                    compare::read(Caller::Full, text.as_bytes(), behind, lengths, &mut random);
                assert_eq!(read.as_ref(), Ok(&expected));
            }
        }
    }
}

#[test]
fn marked_sites_are_written_back_the_same() {
    let mut random = Random::new(14);
    for (place, text) in MARKED.iter().enumerate() {
        let numbers = Numbers::of(&site(place));
        assert_eq!(compare::check(Caller::Full, numbers.slices()), Ok(()));
        for length in [text.len(), text.len() + 20] {
            let written = compare::write(Caller::Full, numbers.slices(), length, &mut random);
            assert_eq!(written.as_deref(), Ok(text.as_bytes()));
        }
        let short = compare::write(Caller::Full, numbers.slices(), text.len() - 1, &mut random);
        assert_eq!(short, Err(8));
    }
}

#[test]
fn marked_sites_are_planned() {
    let mut random = Random::new(24);
    for (place, (links, _, kept, cost)) in ROWS.into_iter().enumerate() {
        let plan = compare::plan_table(Caller::Full, &site(place), &mut random);
        let kept_of = |link: usize| kept.contains(&link);
        let expected: Vec<bool> = (0..links.len()).map(kept_of).collect();
        assert_eq!(
            (plan.kept, plan.count, plan.cost),
            (expected, kept.len(), cost)
        );
    }
}

#[test]
fn plan_of_m2_as_bytes() {
    let numbers = Numbers::of(&site(1));
    let answer = 0x0001_0002_0000_000a;
    let (mut plan, mut work) = ([9; 4], [9; 14]);
    let by_slse = ffi::plan_by_slse(Caller::Full, numbers.slices(), &mut plan);
    assert_eq!((by_slse, plan), (answer, [1, 0, 1, 9]));
    plan = [8; 4];
    let by_turns = ffi::plan_by_turns(Caller::Full, numbers.slices(), &mut plan, &mut work);
    assert_eq!((by_turns, plan), (answer, [1, 0, 1, 8]));
    assert_eq!(work, [0; 14]);
}

#[test]
fn output_of_m2() {
    let output = b"000100020000000a\n000000010005\n000200030005\nffff\n";
    let mut out = [9; 50];
    let answer = ffi::print_plan(Caller::Full, MARKED[1].as_bytes(), &mut out);
    assert_eq!(answer, 0x0001_0000_0000_0030);
    assert_eq!(out[..48], output[..]);
    assert_eq!(out[48..], [9; 2]);
}

#[test]
fn answers_about_m2_as_numbers() {
    let numbers = Numbers::of(&site(1));
    let mut out = [0; 77];
    assert_eq!(ffi::check(Caller::Full, numbers.slices()), 0);
    let written = ffi::write(Caller::Full, numbers.slices(), &mut out);
    assert_eq!(written, 0x0001_0000_0000_004d);
    assert_eq!(
        ffi::write(Caller::Full, numbers.slices(), &mut out[..76]),
        8
    );
    let read = |text: &[u8]| {
        let lent = Lent {
            needs: &mut [9; 4],
            lows: &mut [9; 3],
            highs: &mut [9; 3],
            costs: &mut [9; 3],
        };
        ffi::read(Caller::Full, text, Behind::Nothing, lent)
    };
    assert_eq!(read(&out), 0x0001_0001_0004_0003);
    assert_eq!(read(&out[..76]), 6);
}
