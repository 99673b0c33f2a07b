//! Bad records and lines, each with its refusal, and the order of refusals.

use super::{befell, m2, m2_with, m2_with_bytes};
use planner_tests::compare_fleet::Fleet;
use planner_tests::ends::{Entry, Frame, What};
use planner_tests::faults::{each_choice, first_but, of_line, of_table, Fault};
use planner_tests::fleet::{permits, with_marks, BYTES, MARKS};
use planner_tests::lines::{self, line, offer, opening, refusal, restart};
use planner_tests::sites::{marked, site, Numbers};

/// Probe 1 offers 1-2, and nothing else has happened.
const OFFERED: [u8; 24] = [
    0, 0, 0, 0, 0, 0, 0, 0, 1, 0, 0, 0, 1, 0, 0, 0, 0, 0, 0, 0, 0, 0, 0, 0,
];

/// What a fleet with that offer makes of a line.
#[track_caller]
fn heard(line: &[u8]) -> Result<Entry, u8> {
    m2_with(&OFFERED).event(line, 0, 1)
}

/// It refuses each of the lines.
#[track_caller]
fn all_refused(lines: Vec<Vec<u8>>, number: u8) {
    for line in lines {
        assert_eq!(heard(&line), Err(number));
    }
}

/// The record is turned down by each call, whatever the line.
#[track_caller]
fn refused(mut fleet: Fleet, number: u8) {
    let frames = [offer(1, 2), refusal(1, 2)];
    for line in [opening(1), restart(1), b"x".to_vec()]
        .iter()
        .chain(&frames)
    {
        assert_eq!(fleet.event(line, 0, 1), Err(number));
        assert_eq!(fleet.event(line, 1, 1), Err(number));
    }
    assert_eq!(fleet.finished(), Err(number));
}

/// No call turns the record down.
#[track_caller]
fn accepted(mut fleet: Fleet) {
    assert!(fleet.finished().is_ok());
    for probe in 0..4 {
        assert!(fleet.event(&opening(probe), 0, 1).is_ok());
        assert!(fleet.event(&restart(probe), 0, 1).is_ok());
    }
}

#[test]
fn record_of_the_wrong_length() {
    for length in (0..50).chain([4096, 65_536]) {
        match length {
            24 => accepted(m2_with(&vec![0; length])),
            _ => refused(m2_with(&vec![0; length]), 20),
        }
    }
    let no_link = Fleet::fresh(&marked(2));
    assert_eq!(no_link.finished(), Ok(true));
    refused(Fleet::with(&marked(2), &[0]), 20);
}

/// The places of the links' bytes, each with its place among its link's.
fn byte_places() -> impl Iterator<Item = (usize, usize)> {
    (0..3).flat_map(|link| (0..MARKS).map(move |at| (BYTES * link + at, at)))
}

#[test]
fn record_with_a_byte_over_2_or_a_mark_over_1() {
    for (place, _) in byte_places() {
        for (place, least) in [(place, 3), (place + MARKS, 2)] {
            for byte in least..=255 {
                let mut record = OFFERED;
                record[place] = byte;
                refused(m2_with(&record), 21);
            }
        }
    }
}

/// A mark may be 1 whatever its byte is, and 0 unless the byte permits its frame.
#[test]
fn record_with_a_mark_of_0_while_its_byte_permits() {
    let mut times = 0;
    for (place, at) in byte_places() {
        for byte in 0..=2 {
            let with_mark = |mark| {
                let mut record = [0; 24];
                (record[place], record[place + MARKS]) = (byte, mark);
                m2_with(&record)
            };
            accepted(with_mark(1));
            match permits(at, byte) {
                true => refused(with_mark(0), 21),
                false => accepted(with_mark(0)),
            }
            times += usize::from(permits(at, byte));
        }
    }
    assert_eq!(times, 12);
}

/// Of four bytes a link, probe 1's outbound ones are 2 and 4, its inbound ones 1 and 7; probe 2's are
/// 6 and 8, 5 and 11.
#[test]
fn more_standing_or_more_held_than_spare() {
    let record_with = |places: &[usize], byte: u8| {
        let mut record = [0; 12];
        places.iter().for_each(|&place| record[place] = byte);
        m2_with_bytes(&record)
    };
    for places in [[2, 4], [1, 7], [6, 8], [5, 11]] {
        refused(record_with(&places, 1), 22);
        refused(record_with(&[0, 1, 2, 3, 4, 5, 6, 7], 1), 22);
        accepted(record_with(&places, 2));
        accepted(record_with(&places[..1], 1));
    }
    accepted(record_with(&[0, 4, 6, 10], 1));
    accepted(record_with(&[3, 7, 5, 9], 1));
}

/// A probe that needs all its links.
#[test]
fn one_standing_or_held_at_spare_0() {
    let table = site(&[[0, 1, 7]], &[1, 0]);
    for (place, number) in [(0, 22), (1, 0), (2, 0), (3, 22)] {
        let mut record = [0; 4];
        record[place] = 1;
        let fleet = Fleet::with(&table, &with_marks(&record));
        assert_eq!(fleet.finished().err().unwrap_or(0), number);
        record[place] = 2;
        let fleet = Fleet::with(&table, &with_marks(&record));
        assert!(fleet.finished().is_ok());
    }
}

#[test]
fn line_cut_at_each_byte() {
    all_refused(lines::cut(&offer(1, 2)), 1);
    assert_eq!(heard(&offer(1, 2)), befell(2, What::Taken(1)));
}

#[test]
fn line_of_15_digits_or_with_bytes_behind() {
    all_refused(lines::too_long(&offer(1, 2)), 1);
}

#[test]
fn line_feed_inside() {
    all_refused(lines::with_line_feed(&offer(1, 2)), 1);
}

#[test]
fn line_that_is_not_closed() {
    all_refused(lines::not_closed(&offer(1, 2)), 1);
}

#[test]
fn byte_that_is_no_digit() {
    all_refused(lines::with_no_digit(&offer(1, 2)), 2);
}

#[test]
fn kind_with_no_meaning_here() {
    for kind in 4..=255 {
        assert_eq!(heard(&line(kind, 1, 2)), Err(9));
        assert_eq!(heard(&line(kind, 1, 1)), Err(9));
    }
}

#[test]
fn line_of_another_table_number() {
    for number in (0..=0xffff).filter(|&number| number != 1) {
        for (kind, from, to) in [(0, 1, 1), (1, 1, 2), (2, 7, 9), (3, 1, 1)] {
            let frame = Frame {
                kind,
                number,
                from,
                to,
            };
            assert_eq!(heard(&frame.line()), Err(23));
        }
    }
}

#[test]
fn opening_of_no_such_probe_or_with_two_ends() {
    for probe in 0..=0xffff {
        let opened = heard(&opening(probe));
        match probe {
            0 => assert_eq!(opened, befell(0, What::Opened(0))),
            1 => assert_eq!(opened, befell(1, What::Enough)),
            2 => assert_eq!(opened, befell(2, What::Opened(1))),
            3 => assert_eq!(opened, befell(3, What::Opened(2))),
            _ => assert_eq!(opened, Err(24)),
        }
        if probe != 1 {
            assert_eq!(heard(&line(0, probe, 1)), Err(24));
            assert_eq!(heard(&line(0, 1, probe)), Err(24));
        }
    }
}

#[test]
fn restart_of_no_such_probe_or_with_two_ends() {
    for probe in 0..=0xffff {
        let restarted = heard(&restart(probe));
        match probe {
            0..4 => assert_eq!(restarted, befell(probe, What::Restarted)),
            _ => assert_eq!(restarted, Err(24)),
        }
        if probe != 1 {
            assert_eq!(heard(&line(3, probe, 1)), Err(24));
            assert_eq!(heard(&line(3, 1, probe)), Err(24));
        }
    }
}

#[test]
fn frame_between_two_probes_without_a_link() {
    for probe in 0..=0xffff {
        let (to, from) = match probe {
            0 => (Err(27), Err(27)),
            2 => (befell(2, What::Taken(1)), Err(27)),
            _ => (Err(24), Err(24)),
        };
        assert_eq!(heard(&offer(1, probe)), to);
        assert_eq!(heard(&offer(probe, 1)), from);
        assert!(heard(&refusal(probe, 1)).is_err());
    }
    assert_eq!(heard(&refusal(3, 3)), Err(24));
    assert_eq!(heard(&offer(0, 3)), Err(24));
}

/// By the mark of the byte that permits the frame, and by nothing else, in every record of link 1-2
/// that 21 lets pass.
#[test]
fn frame_that_no_probe_can_have_sent() {
    let mut records = 0;
    for choice in 0..6_usize.pow(4) {
        // For each byte its value and its mark.
        let [one, two, three, four] = [1, 6, 36, 216].map(|unit| choice / unit % 6);
        let both = [one, two, three, four].map(|both| (both as u8 % 3, both as u8 / 3));
        let mut all = both.iter().enumerate();
        if all.any(|(at, &(byte, mark))| permits(at, byte) && mark == 0) {
            continue;
        }
        let [bytes, marks] = [both.map(|two| two.0), both.map(|two| two.1)];
        let record = [&[0; BYTES], &bytes[..], &marks, &[0; BYTES]].concat();
        let frames = [offer(1, 2), refusal(2, 1), offer(2, 1), refusal(1, 2)];
        for (line, mark) in frames.iter().zip(marks) {
            let refused = m2_with(&record).event(line, 0, 1).err();
            assert_eq!(refused, (mark == 0).then_some(27));
        }
        records += 1;
    }
    assert_eq!(records, 5 * 5 * 5 * 5);
}

#[test]
fn full_log() {
    let mut fleet = m2();
    for (used, room) in [(0, 0), (1, 1), (1024, 1024), (7, 3), (usize::MAX, 0)] {
        assert_eq!(fleet.event(&opening(1), used, room), Err(26));
        assert_eq!(fleet.event(&offer(1, 2), used, room), Err(27));
    }
    let most = usize::MAX;
    assert_eq!(
        fleet.event(&opening(1), most - 1, most),
        befell(1, What::Opened(1))
    );
    // An opening that opens nothing and a frame that changes nothing take an entry too.
    assert_eq!(fleet.event(&opening(1), 1, 1), Err(26));
    assert_eq!(fleet.event(&offer(1, 2), 1, 1), Err(26));
    assert_eq!(fleet.event(&offer(1, 2), 1, 2), befell(2, What::Taken(1)));
    assert_eq!(fleet.event(&offer(1, 2), 2, 2), Err(26));
    assert_eq!(fleet.event(&restart(1), 2, 2), Err(26));
    assert_eq!(fleet.event(&restart(1), 2, 3), befell(1, What::Restarted));
    assert_eq!(fleet.event(&restart(1), 3, 3), Err(26));
    // A line that is turned down anyway keeps its own number.
    assert_eq!(fleet.event(b"", 2, 2), Err(1));
    assert_eq!(fleet.event(&opening(4), 2, 2), Err(24));
    assert_eq!(fleet.finished(), Ok(false));
}

/// A call of the fleet that hears probe 1's offer.
struct Call {
    fleet: Fleet,
    record: Vec<u8>,
    line: Vec<u8>,
    used: usize,
}

impl AsMut<Numbers> for Call {
    fn as_mut(&mut self) -> &mut Numbers {
        &mut self.fleet.numbers
    }
}

impl AsMut<Vec<u8>> for Call {
    fn as_mut(&mut self) -> &mut Vec<u8> {
        &mut self.line
    }
}

const OF_RECORD: [Fault<Call>; 3] = [
    (|call| call.record.push(0), 20),
    (|call| call.record[23] = 2, 21),
    (|call| (call.record[2], call.record[6]) = (1, 1), 22),
];

const OF_FRAME: [Fault<Call>; 3] = [
    (|call| call.line[13] = b'3', 24),
    (|call| call.line[1] = b'2', 27),
    (|call| call.used = 5, 26),
];

/// Of any faults together the first decides, if the call can have it.
#[test]
fn order_of_refusals() {
    let fresh = || Call {
        fleet: m2(),
        record: OFFERED.to_vec(),
        line: offer(1, 2),
        used: 4,
    };
    let faults = [&of_table(), &OF_RECORD[..], &of_line(), &OF_FRAME].concat();
    each_choice(&faults, fresh, |call, refusals| {
        let (mut fleet, line) = (call.fleet, call.line);
        fleet.set_record(&call.record);
        let answer = fleet.event(&line, call.used, 5);
        assert_eq!(answer.err(), first_but(refusals, &[]));
        let of_state = first_but(refusals, &[1, 2, 9, 23, 24, 26, 27]);
        assert_eq!(fleet.finished().err(), of_state);
    });
}
