//! The calls with a lent log, on the record as it was before the same calls without one, answer the
//! same and leave the same record; their entries are read back.

use planner_tests::buffer::Buffer;
use planner_tests::channel::{any_mix, Channel};
use planner_tests::compare_ends::{Buffers, End};
use planner_tests::compare_fleet::Fleet;
use planner_tests::compare_log::Log;
use planner_tests::ends::Entry;
use planner_tests::events::{any_bag, any_frame, any_probe, damaged_line, each_table};
use planner_tests::ffi;
use planner_tests::random::Random;
use planner_tests::repository::document;
use planner_tests::samples::{text, M11_PRINTED};
use planner_tests::tally::Tally;

/// Of several lengths; some are full, and some have a count of used entries above their length.
fn any_log(random: &mut Random) -> Log {
    let length = random.pick(&[0, 1, 5, 12, 60, 60, 60, 60]);
    let below = random.below(length / 4 + 1);
    let used = random.pick(&[0, 0, below, below, below, below, length, length + 1]);
    Log::of(length, used, random)
}

#[test]
fn lines_of_a_fleet() {
    let mut tally = Tally::default();
    each_table(96, 3_000, |table, random| {
        let (mut fleet, mut log) = (Fleet::fresh(table), any_log(random));
        fleet.numbers.lend_longer(random);
        let mut channel = Channel::over(table, any_mix(random));
        for line in (0..40).flat_map(|_| channel.next(random)) {
            let before = fleet.record().to_vec();
            let expected = fleet.event(&line, log.used, log.length());
            let (given, mut record) = (fleet.numbers.slices(), Buffer::holding(&before, || 7));
            log.lend(expected, |log, used| {
                ffi::fleet_event_logged(given, record.lend(), &line, log, used)
            });
            let after = Buffer::holding(fleet.record(), || 7);
            assert!(record == after, "another record");
            tally.count(expected.map(|entry| entry.what));
        }
        log.read();
    });
    tally.assert_often(&[1, 2, 9, 23, 24, 26, 27]);
    tally.assert_each_befell(300);
}

#[test]
fn openings_and_frames_of_an_end() {
    let mut tally = Tally::default();
    each_table(97, 4_000, |table, random| {
        let probe = any_probe(table, random);
        let (mut end, mut log) = (End::fresh(table, probe), any_log(random));
        end.numbers.lend_longer(random);
        for _ in 0..20 {
            let free = log.length().saturating_sub(log.used);
            let mut lent = Buffers::holding(end.maps.slices(), &mut Random::new(98));
            let damages = random.pick(&[[0, 0], [0, 0], [0, 0], [1, 0], [0, 1]]);
            let frame = any_frame(table, probe, random);
            let line = damaged_line(frame, damages, table, random);
            let opens = random.one_in(3);
            let befell = match opens {
                true => end.open(free),
                false => end.hear(&line, free),
            };
            let (given, maps) = (end.numbers.slices(), lent.lend());
            let expected = befell.map(|what| Entry { probe, what });
            log.lend(expected, |log, used| match opens {
                true => ffi::probe_open_logged(given, probe, maps, log, used),
                false => ffi::probe_hear_logged(given, probe, maps, &line, log, used),
            });
            let after = Buffers::holding(end.maps.slices(), &mut Random::new(98));
            assert!(lent == after, "another record");
            tally.count(befell);
        }
        log.read();
    });
    tally.assert_often(&[1, 2, 9, 23, 24, 26]);
    tally.assert_each_befell_an_end(300);
}

/// Openings and bags in a row with one log: the entries of a bag stand behind one another.
#[test]
fn bags_of_an_end() {
    let (mut tally, mut in_a_row) = (Tally::default(), 0);
    each_table(137, 3_000, |table, random| {
        let probe = any_probe(table, random);
        let (mut end, mut log) = (End::fresh(table, probe), any_log(random));
        for _ in 0..8 {
            let mut lent = end.maps.clone();
            let opened = end.open(log.free());
            let (given, maps) = (end.numbers.slices(), lent.lend());
            let expected = opened.map(|what| Entry { probe, what });
            log.lend(expected, |log, used| {
                ffi::probe_open_logged(given, probe, maps, log, used)
            });
            assert_eq!(lent, end.maps);
            tally.count(opened);
            let before = log.used;
            let bag = any_bag(table, probe, random).concat();
            tally.count_bag(&end.hear_bag(&bag, &mut log));
            in_a_row += usize::from(log.used > before + 1);
        }
        log.read();
    });
    tally.assert_often(&[24, 26, 32]);
    tally.assert_each_befell_an_end(300);
    assert!(in_a_row > 2_000, "{in_a_row}");
}

/// What the gate has the program over lent logs print: M11's entries, then those of probe 1.
#[test]
fn m11_over_lent_logs() {
    let alone = [1, 2, 5].map(|place| M11_PRINTED[place]);
    let expected = [&M11_PRINTED[..10], &alone].concat();
    assert_eq!(
        document("crates/script_m11/stdout").as_bytes(),
        text(&expected)
    );
}
