//! Bad records, frames and links, each with its refusal, and the order of refusals.

use super::{m2_end, m2_end_with, without_spare};
use planner_tests::compare_ends::End;
use planner_tests::ends::{Frame, Kind, What, LINE};
use planner_tests::faults::{each_choice, first_but, of_line, of_table, Fault};
use planner_tests::lines::{self, line, offer, refusal};
use planner_tests::maps::{flip, OwnMaps, MAPS};
use planner_tests::sites::{marked, Numbers};

/// What a fresh end makes of a line.
#[track_caller]
fn heard(line: &[u8]) -> Result<What, u8> {
    m2_end().hear(line, 1)
}

/// A fresh end refuses each of the lines.
#[track_caller]
fn all_refused(lines: Vec<Vec<u8>>, number: u8) {
    for line in lines {
        assert_eq!(heard(&line), Err(number));
    }
}

/// The record is turned down by each call.
#[track_caller]
fn refused(mut end: End, number: u8) {
    assert_eq!(end.open(1), Err(number));
    for kind in [1, 2] {
        assert_eq!(end.hear(&line(kind, 2, 1), 1), Err(number));
    }
    for kind in Kind::BOTH {
        assert_eq!(end.ask(kind, 1, LINE), Err(number));
    }
    assert_eq!(end.rests(1), Err(number));
    assert_eq!(end.bytes_of(6), Err(number));
}

/// No call turns the record down.
#[track_caller]
fn accepted(mut end: End) {
    assert!(end.rests(1).is_ok());
    assert!(end.bytes_of(6).is_ok());
    for kind in Kind::BOTH {
        assert!(end.ask(kind, 1, LINE).is_ok());
    }
    assert!(end.hear(&offer(2, 1), 1).is_ok());
    assert!(end.open(1).is_ok());
}

/// Three links take one word in each map, no fewer and no more.
#[test]
fn record_of_the_wrong_length() {
    accepted(m2_end());
    for words in [0, 2, 3, 32, 33, 1024] {
        for map in 0..MAPS {
            let mut end = m2_end();
            end.maps.at(map).resize(words, 0);
            refused(end, 20);
        }
        let mut end = m2_end();
        end.maps = OwnMaps::fresh(64 * words);
        refused(end, 20);
    }
}

#[test]
fn link_in_both_maps_of_a_direction() {
    for link in 0..2 {
        for (one, two) in [(0, 1), (2, 3)] {
            let mut end = m2_end();
            flip(end.maps.at(one), link);
            flip(end.maps.at(two), link);
            refused(end, 21);
        }
        // One of each direction is none.
        for (one, two) in [(0, 2), (0, 3), (1, 2), (1, 3)] {
            let mut end = m2_end();
            flip(end.maps.at(one), link);
            flip(end.maps.at(two), link);
            accepted(end);
        }
    }
}

/// M2's link 2 joins two other probes, and there is no link 3.
#[test]
fn bit_on_the_link_of_another_probe_or_past_the_last() {
    for link in 0..64 {
        for map in 0..MAPS {
            let mut end = m2_end();
            flip(end.maps.at(map), link);
            match link {
                0 | 1 => accepted(end),
                _ => refused(end, 21),
            }
        }
    }
}

#[test]
fn more_standing_or_more_held_than_spare() {
    refused(m2_end_with(&[1, 0, 1, 0, 0, 0]), 22);
    refused(m2_end_with(&[0, 1, 0, 1, 0, 0]), 22);
    refused(m2_end_with(&[1, 1, 2, 1, 0, 0]), 22);
    for [one, other] in [[1, 0], [1, 2], [0, 1], [2, 1], [2, 2], [0, 0]] {
        accepted(m2_end_with(&[one, one, other, other, 0, 0]));
        accepted(m2_end_with(&[one, other, other, one, 0, 0]));
    }
}

#[test]
fn one_standing_or_held_at_spare_0() {
    for place in 0..4 {
        let with = |byte| {
            let mut record = [0; 6];
            record[place] = byte;
            End::with(&without_spare(), 1, &record)
        };
        refused(with(1), 22);
        accepted(with(2));
    }
}

#[test]
fn line_cut_at_each_byte() {
    all_refused(lines::cut(&offer(2, 1)), 1);
    assert_eq!(heard(&offer(2, 1)), Ok(What::Taken(1)));
}

#[test]
fn line_of_15_digits_or_with_bytes_behind() {
    all_refused(lines::too_long(&offer(2, 1)), 1);
}

#[test]
fn line_feed_inside() {
    all_refused(lines::with_line_feed(&offer(2, 1)), 1);
}

#[test]
fn line_that_is_not_closed() {
    all_refused(lines::not_closed(&offer(2, 1)), 1);
}

#[test]
fn byte_that_is_no_digit() {
    all_refused(lines::with_no_digit(&offer(2, 1)), 2);
}

#[test]
fn kind_with_no_meaning_here() {
    for kind in (0..=255).filter(|kind| ![1, 2].contains(kind)) {
        assert_eq!(heard(&line(kind, 2, 1)), Err(9));
        assert_eq!(heard(&line(kind, 1, 1)), Err(9));
    }
}

#[test]
fn frame_of_another_table_number() {
    for number in (0..=0xffff).filter(|&number| number != 1) {
        let frame = Frame {
            kind: 1,
            number,
            from: 2,
            to: 1,
        };
        assert_eq!(heard(&frame.line()), Err(23));
    }
}

#[test]
fn frame_for_another_probe_or_from_no_neighbour() {
    for probe in 0..=0xffff {
        let from = match probe {
            0 => Ok(What::Taken(0)),
            2 => Ok(What::Taken(1)),
            _ => Err(24),
        };
        assert_eq!(heard(&offer(probe, 1)), from);
        if probe != 1 {
            assert_eq!(heard(&offer(2, probe)), Err(24));
            assert_eq!(heard(&offer(1, probe)), Err(24));
        }
    }
}

#[test]
fn no_such_probe() {
    for probe in [4, 5, 256, 0xffff] {
        let mut end = End::fresh(&marked(1), probe);
        assert_eq!(end.open(1), Err(24));
        for from in [0, 2, 3, probe - 1, probe] {
            assert_eq!(end.hear(&offer(from, probe), 1), Err(24));
            assert_eq!(end.hear(&refusal(from, probe), 1), Err(24));
        }
        assert_eq!(end.ask(Kind::Offer, 0, LINE), Err(24));
        assert_eq!(end.rests(2), Err(24));
        // Every link is another probe's.
        flip(&mut end.maps.standing, 0);
        refused(end, 21);
    }
}

#[test]
fn link_not_its_own() {
    let mut end = m2_end_with(&[1, 1, 2, 2, 0, 0]);
    for link in (2..=0xffff).step_by(7).chain([3, 4, 0xffff]) {
        for kind in Kind::BOTH {
            assert_eq!(end.ask(kind, link, LINE), Err(24));
        }
        assert_eq!(end.rests(link), Err(24));
    }
}

/// It is learnt as any other.
#[test]
fn refusal_where_outbound_is_0() {
    for inbound in [0, 1, 2] {
        let hear = |outbound| {
            let mut end = m2_end_with(&[0, 0, outbound, inbound, 0, 0]);
            let befell = end.hear(&refusal(2, 1), 1);
            (befell, end.record()[2])
        };
        assert_eq!(hear(0), (Ok(What::Learnt(1)), 2));
        assert_eq!(hear(1), (Ok(What::Learnt(1)), 2));
        assert_eq!(hear(2), (Ok(What::NoChange(1)), 2));
    }
}

#[test]
fn full_log() {
    let mut end = m2_end();
    assert_eq!(end.open(0), Err(26));
    assert_eq!(end.open(usize::MAX), Ok(What::Opened(1)));
    // An opening that opens nothing and a frame that changes nothing take an entry too.
    assert_eq!(end.open(0), Err(26));
    assert_eq!(end.hear(&offer(2, 1), 0), Err(26));
    assert_eq!(end.hear(&offer(2, 1), 1), Ok(What::Taken(1)));
    assert_eq!(end.hear(&offer(2, 1), 0), Err(26));
    assert_eq!(end.hear(&refusal(2, 1), 0), Err(26));
    // A frame that is turned down anyway, and asking, take none.
    assert_eq!(end.hear(&refusal(3, 1), 0), Err(24));
    assert_eq!(end.ask(Kind::Offer, 1, LINE), Ok(Some(offer(1, 2))));
}

/// Its frame is judged before its own number is.
#[test]
fn order_of_refusals_for_no_such_probe() {
    let mut end = End::fresh(&marked(1), 4);
    assert_eq!(end.open(0), Err(24));
    let faults: [(&[u8], u8); 5] = [
        (b"X3000200030004", 1),
        (b"X3000200030004\n", 2),
        (b"03000200030004\n", 9),
        (b"02000200030004\n", 23),
        (b"02000100030004\n", 24),
    ];
    for (line, number) in faults {
        assert_eq!(end.hear(line, 0), Err(number));
    }
}

/// A call of probe 1 of M2, which hears an offer of probe 2.
struct Call {
    end: End,
    line: Vec<u8>,
    free: usize,
}

impl AsMut<Numbers> for Call {
    fn as_mut(&mut self) -> &mut Numbers {
        &mut self.end.numbers
    }
}

impl AsMut<Vec<u8>> for Call {
    fn as_mut(&mut self) -> &mut Vec<u8> {
        &mut self.line
    }
}

const OF_RECORD: [Fault<Call>; 3] = [
    (|call| call.end.maps.held.push(0), 20),
    (|call| flip(&mut call.end.maps.refused_in, 63), 21),
    (|call| call.end.maps.standing[0] = 0b11, 22),
];

const OF_FRAME: [Fault<Call>; 2] = [
    (|call| call.line[13] = b'0', 24),
    (|call| call.free = 0, 26),
];

/// Of any faults together the first decides, if the call can have it.
#[test]
fn order_of_refusals() {
    let fresh = || Call {
        end: m2_end(),
        line: offer(2, 1),
        free: 1,
    };
    let faults = [&of_table(), &OF_RECORD[..], &of_line(), &OF_FRAME].concat();
    each_choice(&faults, fresh, |call, refusals| {
        let (mut end, line, free) = (call.end, call.line, call.free);
        let of_state = first_but(refusals, &[1, 2, 9, 23, 24, 26]);
        assert_eq!(end.rests(1).err(), of_state);
        assert_eq!(end.bytes_of(6).err(), of_state);
        assert_eq!(end.bytes_of(5), Err(8));
        assert_eq!(end.ask(Kind::Offer, 2, LINE).err(), of_state.or(Some(24)));
        assert_eq!(end.ask(Kind::Offer, 2, LINE - 1), Err(8));
        assert_eq!(end.hear(&line, free).err(), first_but(refusals, &[]));
        let of_opening = first_but(refusals, &[1, 2, 9, 23, 24]);
        assert_eq!(end.open(free).err(), of_opening);
    });
}
