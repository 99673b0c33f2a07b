//! 02's "A probe that restarts in the middle": what a restart wipes and leaves, and late frames.

use super::{befell, m2, m2_with, m2_with_bytes};
use planner_tests::compare_fleet::Fleet;
use planner_tests::compare_log::Log;
use planner_tests::ends::What;
use planner_tests::ffi;
use planner_tests::fleet::{changes, rested, BYTES, MARKS};
use planner_tests::lines::{offer, opening, refusal, restart};
use planner_tests::random::Random;
use planner_tests::reference::{table_of_text, Behind, Caller, Table};
use planner_tests::samples::{text, LATE, LATE_BEFORE, LATE_PRINTED, LATE_SCRIPT};
use planner_tests::samples::{M11, M11_PRINTED, RESTARTED, RESTARTED_PRINTED};
use planner_tests::script::entry_line;
use planner_tests::sites::{marked, site};

/// A record of M2 with no byte 0; each probe has one offer standing and holds one.
const FULL: [u8; 24] = [
    1, 2, 2, 1, 1, 1, 1, 1, 1, 1, 1, 1, 1, 1, 1, 1, 2, 1, 1, 2, 1, 1, 1, 1,
];

/// The places of each probe's own bytes in it.
const OWN: [&[usize]; 4] = [&[0, 3], &[1, 2, 8, 11], &[9, 10, 16, 19], &[17, 18]];

#[test]
fn own_bytes_are_wiped_and_all_marks_stay() {
    for (probe, own) in (0..4).zip(OWN) {
        let mut fleet = m2_with(&FULL);
        let mut expected = FULL;
        own.iter().for_each(|&place| expected[place] = 0);
        for _ in 0..2 {
            let restarted = befell(probe, What::Restarted);
            assert_eq!(fleet.event(&restart(probe), 0, 1), restarted);
            assert_eq!(fleet.record(), expected);
        }
    }
}

#[test]
fn fresh_probes_restart_too() {
    for table in (0..8).map(marked) {
        let mut fleet = Fleet::fresh(&table);
        let finished = fleet.finished();
        for probe in 0..table.needs.len() as u16 {
            let restarted = befell(probe, What::Restarted);
            assert_eq!(fleet.event(&restart(probe), 0, 1), restarted);
        }
        assert_eq!(fleet.record(), vec![0; BYTES * table.links.len()]);
        assert_eq!(fleet.finished(), finished);
    }
}

/// A restarted probe opens what it opened before, from the dearest on.
#[test]
fn opens_again() {
    let mut fleet = m2();
    for _ in 0..3 {
        assert_eq!(fleet.event(&opening(1), 0, 1), befell(1, What::Opened(1)));
        assert_eq!(fleet.event(&opening(1), 0, 1), befell(1, What::Enough));
        assert_eq!(fleet.event(&restart(1), 0, 1), befell(1, What::Restarted));
    }
}

/// What a wiped probe sent may still arrive; what it never could send may not.
#[test]
fn frames_of_a_wiped_probe() {
    let mut fleet = m2();
    assert_eq!(fleet.event(&opening(0), 0, 1), befell(0, What::Opened(0)));
    assert_eq!(fleet.event(&restart(0), 0, 1), befell(0, What::Restarted));
    assert_eq!(fleet.event(&refusal(1, 0), 0, 1), Err(27));
    assert_eq!(fleet.event(&offer(0, 1), 0, 1), befell(1, What::Taken(0)));
    assert_eq!(fleet.event(&opening(2), 0, 1), befell(2, What::Opened(1)));
    let displacing = What::Displacing {
        link: 1,
        displaced: 0,
    };
    assert_eq!(fleet.event(&offer(2, 1), 0, 1), befell(1, displacing));
    assert_eq!(fleet.event(&restart(1), 0, 1), befell(1, What::Restarted));
    assert_eq!(fleet.event(&offer(1, 0), 0, 1), Err(27));
    assert_eq!(fleet.event(&refusal(1, 2), 0, 1), Err(27));
    for what in [What::Learnt(0), What::NoChange(0)] {
        assert_eq!(fleet.event(&refusal(1, 0), 0, 1), befell(0, what));
    }
    assert_eq!(fleet.event(&opening(0), 0, 1), befell(0, What::AllTried));
}

/// An offer taken is no refusal, and a refusal learnt is no offer.
#[test]
fn bytes_that_permit_nothing_set_no_mark() {
    let mut fleet = m2_with_bytes(&[1, 0, 0, 0, 0, 0, 0, 0, 0, 0, 0, 2]);
    assert_eq!(fleet.event(&offer(0, 1), 0, 1), befell(1, What::Taken(0)));
    assert_eq!(fleet.event(&refusal(1, 0), 0, 1), Err(27));
    let learnt = befell(3, What::Learnt(2));
    assert_eq!(fleet.event(&refusal(2, 3), 0, 1), learnt);
    assert_eq!(fleet.event(&offer(3, 2), 0, 1), Err(27));
    assert_eq!(fleet.record()[MARKS..BYTES], [1, 0, 0, 0]);
    assert_eq!(fleet.record()[2 * BYTES + MARKS..], [0, 0, 0, 1]);
}

/// All marks are 1, and no byte is above 0: what is finished fresh is finished, and nothing else.
#[test]
fn finished_goes_by_the_bytes() {
    let all_needed = site(&[[0, 1, 5], [1, 2, 6]], &[1, 2, 1]);
    for table in (0..8).map(marked).chain([all_needed]) {
        let link = [0, 0, 0, 0, 1, 1, 1, 1];
        let fleet = Fleet::with(&table, &link.repeat(table.links.len()));
        assert_eq!(fleet.finished(), Fleet::fresh(&table).finished());
    }
}

fn late_site() -> Table {
    let text = text(&LATE);
    table_of_text(Caller::Full, &text, Behind::Nothing).expect("a legal table")
}

/// The lines through the calls, without a log and with one: the entries as the script program prints
/// them, then whether the fleet is finished and the changes, wipes not counted. And the record.
#[track_caller]
fn run(table: &Table, lines: &[&str]) -> (Vec<u8>, Vec<u8>) {
    let mut fleet = Fleet::fresh(table);
    let mut log = Log::of(lines.len(), 0, &mut Random::new(120));
    let (mut printed, mut changed) = (Vec::new(), 0);
    for (used, line) in lines.iter().enumerate() {
        let (line, before) = (text(&[line]), fleet.record().to_vec());
        let answer = fleet.event(&line, used, lines.len());
        let (given, mut record) = (fleet.numbers.slices(), before.clone());
        log.lend(answer, |log, used| {
            ffi::fleet_event_logged(given, &mut record, &line, log, used)
        });
        assert_eq!(record, fleet.record());
        let entry = answer.expect("an accepted line");
        printed.extend(entry_line(entry));
        if entry.what != What::Restarted {
            changed += changes(&before, &record);
        }
    }
    log.read();
    let finished = u8::from(fleet.finished() == Ok(true));
    printed.extend(format!("{finished:02x}{changed:08x}\n").into_bytes());
    (printed, fleet.record().to_vec())
}

#[test]
fn m11_as_before() {
    let (printed, _) = run(&marked(1), &M11);
    assert_eq!(printed, text(&M11_PRINTED));
}

/// The smallest: a late frame alters a byte of a finished fleet, which stays finished.
#[test]
fn late_frame() {
    let (before, record) = run(&late_site(), &LATE_SCRIPT[..4]);
    let without = [&LATE_PRINTED[..4], &[LATE_BEFORE]].concat();
    assert_eq!(before, text(&without));
    assert_eq!(record, [2, 0, 0, 0, 1, 1, 0, 0]);
    let (after, record) = run(&late_site(), &LATE_SCRIPT);
    assert_eq!(after, text(&LATE_PRINTED));
    assert_eq!(record, [2, 2, 0, 0, 1, 1, 0, 0]);
}

/// M11, where each probe restarts in the middle, ends with M11's plan.
#[test]
fn m11_with_a_restart_of_every_probe() {
    let (printed, record) = run(&marked(1), &RESTARTED);
    assert_eq!(printed, text(&RESTARTED_PRINTED));
    let links: Vec<[bool; 2]> = record.chunks_exact(BYTES).map(rested).collect();
    assert_eq!(links, [[false; 2], [true; 2], [false; 2]]);
}
