//! What a fleet does, event by event.

use super::{befell, m2, m2_with, m2_with_bytes};
use planner_tests::compare_fleet::Fleet;
use planner_tests::ends::What;
use planner_tests::ffi;
use planner_tests::fleet::{changes, without_marks};
use planner_tests::lines::{line, offer, opening, refusal};
use planner_tests::sites::{marked, site, Numbers};

/// M11's end: each offer that was made, and each refusal, has its mark.
const M11_END: [u8; 24] = [
    2, 2, 0, 0, 1, 1, 0, 0, 1, 1, 1, 1, 1, 0, 1, 0, 0, 0, 2, 2, 0, 0, 1, 1,
];

/// A line, the probe that opens or hears, what befalls it, and the record's bytes after.
type Event<'a> = (Vec<u8>, u16, What, &'a [u8]);

/// The fleet is finished after the last event and not before. Answers the changes and the record.
#[track_caller]
fn run(mut fleet: Fleet, events: &[Event]) -> (usize, Vec<u8>) {
    let mut changed = 0;
    for (used, (line, probe, what, after)) in events.iter().enumerate() {
        assert_eq!(fleet.finished(), Ok(false));
        let before = fleet.record().to_vec();
        assert_eq!(fleet.event(line, used, events.len()), befell(*probe, *what));
        assert_eq!(without_marks(fleet.record()), *after);
        changed += changes(&before, fleet.record());
    }
    assert_eq!(fleet.finished(), Ok(true));
    let full = events.len();
    assert_eq!(fleet.event(&opening(0), full, full), Err(26));
    (changed, fleet.record().to_vec())
}

#[test]
fn m4_in_four_events() {
    let events: [Event; 4] = [
        (opening(0), 0, What::Opened(0), &[1, 0, 0, 0]),
        (offer(0, 1), 1, What::Taken(0), &[1, 1, 0, 0]),
        (opening(1), 1, What::Opened(0), &[1, 1, 1, 0]),
        (offer(1, 0), 0, What::Taken(0), &[1, 1, 1, 1]),
    ];
    let end = vec![1, 1, 1, 1, 1, 0, 1, 0];
    assert_eq!(run(Fleet::fresh(&marked(3)), &events), (4, end));
}

#[test]
#[rustfmt::skip]
fn m11() {
    let displacing = What::Displacing { link: 1, displaced: 0 };
    let events: [Event; 10] = [
        (opening(0), 0, What::Opened(0), &[1, 0, 0, 0, 0, 0, 0, 0, 0, 0, 0, 0]),
        (offer(0, 1), 1, What::Taken(0), &[1, 1, 0, 0, 0, 0, 0, 0, 0, 0, 0, 0]),
        (opening(1), 1, What::Opened(1), &[1, 1, 0, 0, 1, 0, 0, 0, 0, 0, 0, 0]),
        (offer(1, 2), 2, What::Taken(1), &[1, 1, 0, 0, 1, 1, 0, 0, 0, 0, 0, 0]),
        (opening(2), 2, What::Opened(1), &[1, 1, 0, 0, 1, 1, 1, 0, 0, 0, 0, 0]),
        (offer(2, 1), 1, displacing, &[1, 2, 0, 0, 1, 1, 1, 1, 0, 0, 0, 0]),
        (refusal(1, 0), 0, What::Learnt(0), &[2, 2, 0, 0, 1, 1, 1, 1, 0, 0, 0, 0]),
        (opening(3), 3, What::Opened(2), &[2, 2, 0, 0, 1, 1, 1, 1, 0, 0, 1, 0]),
        (offer(3, 2), 2, What::Refused(2), &[2, 2, 0, 0, 1, 1, 1, 1, 0, 0, 1, 2]),
        (refusal(2, 3), 3, What::Learnt(2), &[2, 2, 0, 0, 1, 1, 1, 1, 0, 0, 2, 2]),
    ];
    assert_eq!(run(m2(), &events), (11, M11_END.to_vec()));
}

/// The answers as they pass: the probe from bit 40, its code from bit 32, then the link and the
/// displaced probe.
#[test]
fn answers_as_numbers() {
    let numbers = Numbers::of(&marked(1));
    let mut record = [
        2, 1, 0, 0, 1, 0, 0, 0, 1, 1, 1, 0, 1, 0, 1, 0, 0, 0, 0, 0, 0, 0, 0, 0,
    ];
    let mut hear = |line: &[u8]| ffi::fleet_event(numbers.slices(), &mut record, line, 0, 1);
    assert_eq!(hear(b"00000100030003\n"), 0x8000_0300_0002_ffff);
    assert_eq!(hear(b"00000100010001\n"), 0x8000_0101_ffff_ffff);
    assert_eq!(hear(b"01000100020001\n"), 0x8000_0103_0001_0000);
    assert_eq!(hear(b"01000100030002\n"), 0x8000_0204_0002_ffff);
    assert_eq!(hear(b"02000100020003\n"), 0x8000_0305_0002_ffff);
    assert_eq!(hear(b"00000100030003\n"), 0x8000_0307_ffff_ffff);
    assert_eq!(hear(b"02000100010000\n"), 0x8000_0006_0000_ffff);
    assert_eq!(hear(b"02000100030002\n"), 27);
    assert_eq!(record, M11_END);
    let finished = |record: &[u8]| ffi::fleet_finished(numbers.slices(), record);
    assert_eq!(finished(&record), 0x0001_0000_0000_0001);
    assert_eq!(finished(&[0; 24]), 0x0001_0000_0000_0000);
    assert_eq!(finished(&[0; 12]), 20);
    let mut hear = |line: &[u8]| ffi::fleet_event(numbers.slices(), &mut record, line, 0, 1);
    assert_eq!(hear(b"03000100030003\n"), 0x8000_0308_ffff_ffff);
    assert_eq!(record[..16], M11_END[..16]);
    assert_eq!(record[16..], [0, 0, 0, 2, 0, 0, 1, 1]);
}

/// A site on which nothing can be opened is finished at once.
#[test]
fn finished_at_once() {
    let all_needed = site(&[[0, 1, 5], [1, 2, 6]], &[1, 2, 1]);
    for table in [marked(2), site(&[], &[0, 0, 0]), all_needed] {
        let mut fleet = Fleet::fresh(&table);
        assert_eq!(fleet.finished(), Ok(true));
        let enough = befell(0, What::Enough);
        assert_eq!(fleet.event(&opening(0), 0, 1), enough);
        assert_eq!(fleet.finished(), Ok(true));
    }
    // M5: probe 0 needs its link, but probe 1 can open it.
    assert_eq!(Fleet::fresh(&marked(4)).finished(), Ok(false));
}

/// M5: the offer is refused and learnt, and the link stays.
#[test]
fn spare_0_refuses() {
    let events: [Event; 3] = [
        (opening(1), 1, What::Opened(0), &[0, 0, 1, 0]),
        (offer(1, 0), 0, What::Refused(0), &[0, 0, 1, 2]),
        (refusal(0, 1), 1, What::Learnt(0), &[0, 0, 2, 2]),
    ];
    let end = vec![0, 0, 2, 2, 0, 0, 1, 1];
    assert_eq!(run(Fleet::fresh(&marked(4)), &events), (3, end));
}

/// After M11 every frame that was sent may still arrive, and changes nothing.
#[test]
fn late_and_repeated_frames() {
    let mut fleet = m2_with(&M11_END);
    for (kind, from, to, link) in [
        (1, 0, 1, 0),
        (1, 1, 2, 1),
        (1, 2, 1, 1),
        (1, 3, 2, 2),
        (2, 1, 0, 0),
        (2, 2, 3, 2),
    ] {
        for _ in 0..2 {
            let heard = fleet.event(&line(kind, from, to), 0, 1);
            assert_eq!(heard, befell(to, What::NoChange(link)));
        }
        assert_eq!(fleet.finished(), Ok(true));
        assert_eq!(fleet.event(&line(3 - kind, from, to), 0, 1), Err(27));
    }
    // The offers of the ends are refused; those in the middle have one standing, their spare.
    let said = [What::AllTried, What::Enough, What::Enough, What::AllTried];
    for (probe, what) in (0..4).zip(said) {
        let opened = fleet.event(&opening(probe), 0, 1);
        assert_eq!(opened, befell(probe, what));
    }
    assert_eq!(fleet.record(), M11_END);
}

/// Each of these differs from M11's end in a link on which something can still change.
#[test]
fn not_finished() {
    let records: [[u8; 12]; 6] = [
        [1, 2, 0, 0, 1, 1, 1, 1, 0, 0, 2, 2],
        [2, 2, 0, 0, 1, 1, 1, 1, 0, 0, 1, 2],
        [2, 2, 0, 0, 1, 1, 1, 1, 0, 0, 1, 0],
        [2, 2, 0, 0, 1, 1, 1, 0, 0, 0, 2, 2],
        [2, 2, 0, 0, 1, 1, 1, 1, 0, 0, 0, 0],
        [2, 2, 0, 2, 1, 1, 1, 1, 0, 0, 2, 2],
    ];
    for record in records {
        let fleet = m2_with_bytes(&record);
        assert_eq!(fleet.finished(), Ok(false), "{record:?}");
    }
}

/// It is learnt, and the link is not opened any more.
#[test]
fn refusal_of_an_untried_link() {
    let mut fleet = m2_with_bytes(&[0, 2, 0, 0, 0, 0, 0, 0, 0, 0, 0, 0]);
    let learnt = befell(0, What::Learnt(0));
    assert_eq!(fleet.event(&refusal(1, 0), 0, 1), learnt);
    assert_eq!(fleet.record()[..8], [2, 2, 0, 0, 0, 1, 0, 0]);
    let all_tried = befell(0, What::AllTried);
    assert_eq!(fleet.event(&opening(0), 0, 1), all_tried);
}
