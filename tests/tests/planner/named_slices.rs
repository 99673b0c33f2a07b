//! The named bad tables in slices, each with its refusal, for checking, writing and planning by both
//! callers.

use planner_tests::compare;
use planner_tests::faults::{each_choice, of_table};
use planner_tests::random::Random;
use planner_tests::reference::{text_length, Caller, Plan};
use planner_tests::sites::{marked, Numbers, M2};

fn m2() -> Numbers {
    Numbers::of(&marked(1))
}

/// M2 after a change.
fn m2_with(change: impl Fn(&mut Numbers)) -> Numbers {
    let mut numbers = m2();
    change(&mut numbers);
    numbers
}

fn written(caller: Caller, numbers: &Numbers, length: usize) -> Result<Vec<u8>, u8> {
    compare::write(caller, numbers.slices(), length, &mut Random::new(3))
}

/// By both methods, with so many bytes more than are needed.
fn planned(caller: Caller, numbers: &Numbers, longer: usize) -> Result<Plan, u8> {
    compare::plan(caller, numbers.slices(), longer, &mut Random::new(3))
}

/// A plan or working bytes one byte too short come among the first, 8.
#[track_caller]
fn refused_for_short_bytes(caller: Caller, numbers: &Numbers) {
    let (given, random) = (numbers.slices(), &mut Random::new(3));
    let (plan, work) = (numbers.links as usize, 4 * numbers.links as usize);
    assert_eq!(compare::plan_slse(caller, given, plan - 1, random), Err(8));
    for lengths in [[plan - 1, work], [plan, work - 1], [plan + 9, work - 1]] {
        assert_eq!(compare::plan_turns(caller, given, lengths, random), Err(8));
    }
}

fn right_length(numbers: &Numbers) -> usize {
    text_length(numbers.probes.into(), numbers.links.into())
}

/// By both callers.
#[track_caller]
fn refused(numbers: Numbers, refusal: u8) {
    for caller in Caller::BOTH {
        assert_eq!(compare::check(caller, numbers.slices()), Err(refusal));
        let length = right_length(&numbers);
        assert_eq!(written(caller, &numbers, length), Err(refusal));
        assert_eq!(written(caller, &numbers, length + 9), Err(refusal));
        assert_eq!(written(caller, &numbers, length - 1), Err(8));
        assert_eq!(planned(caller, &numbers, 0), Err(refusal));
        assert_eq!(planned(caller, &numbers, 9), Err(refusal));
        refused_for_short_bytes(caller, &numbers);
    }
}

/// By both callers.
#[track_caller]
fn accepted(numbers: Numbers) {
    for caller in Caller::BOTH {
        assert_eq!(compare::check(caller, numbers.slices()), Ok(()));
        let length = right_length(&numbers);
        for longer in [0, 1, 100] {
            let text = written(caller, &numbers, length + longer).expect("a legal table");
            assert_eq!(text.len(), length);
        }
        for short in [0, 1, 12, 13, length - 6, length - 5, length - 1] {
            assert_eq!(written(caller, &numbers, short), Err(8));
        }
        for longer in [0, 1, 100] {
            assert!(planned(caller, &numbers, longer).is_ok());
        }
        refused_for_short_bytes(caller, &numbers);
    }
}

/// Lends slices of other lengths; entries beyond the table's own are random.
fn lend(numbers: &mut Numbers, lengths: [usize; 4]) {
    numbers.lend(lengths, &mut Random::new(4));
}

#[test]
fn m2_is_written() {
    accepted(m2());
    assert_eq!(written(Caller::Full, &m2(), 77), Ok(M2.as_bytes().to_vec()));
}

#[test]
fn slices_too_short_or_unequal() {
    for lengths in [[3, 3, 3, 3], [4, 2, 3, 3], [4, 3, 2, 3], [4, 3, 3, 2]] {
        refused(m2_with(|m2| lend(m2, lengths)), 8);
    }
    for lengths in [[0, 0, 0, 0], [4, 2, 2, 2], [0, 3, 3, 3], [4, 0, 0, 0]] {
        refused(m2_with(|m2| lend(m2, lengths)), 8);
    }
    for lengths in [[4, 4, 3, 3], [4, 3, 4, 3], [4, 3, 3, 4], [9, 9, 9, 8]] {
        refused(m2_with(|m2| lend(m2, lengths)), 8);
    }
    for lengths in [[5, 3, 3, 3], [4, 4, 4, 4], [300, 3000, 3000, 3000]] {
        accepted(m2_with(|m2| lend(m2, lengths)));
    }
}

#[test]
fn counts_out_of_range() {
    let long = |m2: &mut Numbers| lend(m2, [65_535; 4]);
    for probes in [0, 257, 300, 65_535] {
        refused(
            m2_with(|m2| {
                long(m2);
                m2.probes = probes;
            }),
            3,
        );
    }
    // Four times the links, the working bytes, may pass 16 bits.
    for links in [2049, 4096, 16_384, 65_535] {
        refused(
            m2_with(|m2| {
                long(m2);
                m2.links = links;
            }),
            3,
        );
    }
    refused(
        m2_with(|m2| {
            long(m2);
            (m2.probes, m2.links) = (65_535, 65_535);
        }),
        3,
    );
}

#[test]
fn ends_of_a_link() {
    for (low, high) in [
        (2, 2),
        (3, 2),
        (2, 4),
        (4, 5),
        (65_534, 65_535),
        (65_535, 0),
    ] {
        refused(m2_with(|m2| m2.set_link(2, low, high)), 4);
        refused(m2_with(|m2| m2.set_link(0, low, high)), 4);
    }
}

#[test]
fn links_equal_or_falling() {
    for (low, high) in [(1, 2), (0, 1), (0, 2), (0, 3)] {
        refused(m2_with(|m2| m2.set_link(2, low, high)), 5);
    }
    refused(m2_with(|m2| m2.set_link(0, 1, 2)), 5);
    refused(m2_with(|m2| m2.set_link(0, 1, 3)), 5);
    accepted(m2_with(|m2| m2.set_link(2, 1, 3)));
    // More links than there are pairs is no fault of the counts.
    let many = m2_with(|m2| {
        m2.lent = [4, 7, 7, 7];
        m2.links = 7;
        for entries in &mut m2.entries[1..] {
            entries.resize(7, entries[2]);
        }
    });
    refused(many, 5);
}

#[test]
fn need_equal_to_the_links_and_one_above() {
    for (probe, links) in [1, 2, 2, 1].into_iter().enumerate() {
        for need in [links, links + 1, 256, 65_535] {
            let changed = m2_with(|m2| m2.entries[0][probe] = need);
            let text =
                written(Caller::Full, &changed, right_length(&changed)).expect("a legal table");
            assert_eq!(
                text[13 + 5 * probe..][..5],
                *format!("{need:04x}\n").as_bytes()
            );
            accepted(changed);
        }
    }
}

#[test]
fn entries_beyond_the_table_count_for_nothing() {
    // The third link falls and the fourth need is above, but both are beyond the counts.
    let fewer = m2_with(|m2| {
        m2.set_link(2, 0, 0);
        m2.entries[0][3] = 9;
        (m2.probes, m2.links) = (3, 2);
    });
    let text = written(Caller::Full, &fewer, right_length(&fewer)).expect("a legal table");
    assert!(text.starts_with(b"000100030002\n0000\n0001\n0001\n000000010005\n"));
    accepted(fewer);
}

/// Also where a need is above the links, which is no fault.
#[test]
fn order_8_3_4_5() {
    let short: fn() -> Numbers = || m2_with(|m2| m2.entries[0][0] = 9);
    for fresh in [m2, short] {
        each_choice(&of_table(), fresh, |damaged, refusals| match refusals {
            [] => accepted(damaged),
            [first, ..] => refused(damaged, *first),
        });
    }
}

#[test]
fn order_of_4_and_5_link_by_link() {
    let both_in_one = m2_with(|m2| m2.set_link(2, 0, 0));
    refused(both_in_one, 4);
    let high_and_falling = m2_with(|m2| m2.set_link(2, 0, 4));
    refused(high_and_falling, 4);
    let ends_first = m2_with(|m2| {
        m2.set_link(0, 0, 0);
        m2.set_link(2, 1, 2);
    });
    refused(ends_first, 4);
}

#[test]
fn order_of_8_and_3_with_many_probes() {
    // 300 probes with 256 needs: 8; with 300: 3.
    let lent = |needs: usize| {
        m2_with(|m2| {
            lend(m2, [needs, 3, 3, 3]);
            m2.probes = 300;
        })
    };
    refused(lent(256), 8);
    refused(lent(299), 8);
    refused(lent(300), 3);
}

#[test]
fn every_small_table() {
    let mut random = Random::new(5);
    let mut accepted = 0;
    for case in 0..4 * 3 * 256 * 27 {
        let digits =
            |from: u32, base: u32, place: u32| (case / from / base.pow(place) % base) as u16;
        let [low, high] = [[0, 2], [1, 3]].map(|of| of.map(|place| digits(12, 4, place)));
        let needs = [0, 1, 2].map(|place| digits(12 * 256, 3, place));
        let numbers = Numbers {
            number: 1,
            probes: digits(1, 4, 0),
            links: digits(4, 3, 0),
            entries: [needs.to_vec(), low.to_vec(), high.to_vec(), vec![7, 7]],
            lent: [3, 2, 2, 2],
        };
        let given = numbers.slices();
        let checked = compare::by_both(|caller| compare::check(caller, given));
        let length = right_length(&numbers);
        let text = compare::by_both(|caller| compare::write(caller, given, length, &mut random));
        assert_eq!(text.as_ref().err(), checked.as_ref().err());
        let plan = compare::by_both(|caller| compare::plan(caller, given, 0, &mut random));
        assert_eq!(plan.err(), checked.err());
        accepted += text.is_ok() as usize;
    }
    assert!(accepted > 100);
}
