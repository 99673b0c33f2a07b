//! Bags that are refused, each by its number, and the order of refusals.

use super::{m2_end, m2_end_with};
use planner_tests::compare_ends::End;
use planner_tests::compare_log::Log;
use planner_tests::ends::{frames, What, LINE, MOST_FRAMES};
use planner_tests::faults::{each_choice, first_but, of_line, of_table, Fault};
use planner_tests::lines::{self, line, offer, refusal};
use planner_tests::maps::flip;
use planner_tests::random::Random;
use planner_tests::reference::FULL;
use planner_tests::sites::{half_needed, largest_hubs, marked, Numbers};
use planner_tests::tally::Tally;

/// A log with so many entries free, and two used.
fn with_free(free: usize) -> Log {
    Log::of(2 + free, 2, &mut Random::new(140))
}

/// Whether an end hears the bag with an entry free for each frame: how many, or the refusal.
#[track_caller]
fn heard_by(end: &mut End, bag: &[u8]) -> Result<usize, u8> {
    let befell = end.hear_bag(bag, &mut with_free(frames(bag).len()));
    befell.map(|befell| befell.len())
}

/// The same of a fresh end of M2.
#[track_caller]
fn heard(bag: &[u8]) -> Result<usize, u8> {
    heard_by(&mut m2_end(), bag)
}

/// So many frames of probe 1's neighbours on M2.
fn good(count: usize) -> Vec<Vec<u8>> {
    let each = [offer(0, 1), offer(2, 1), refusal(0, 1), refusal(2, 1)];
    each.into_iter().cycle().take(count).collect()
}

/// Frames that probe 1 of M2 refuses, each with its number.
fn bad() -> Vec<(Vec<u8>, u8)> {
    let good = offer(2, 1);
    let of_number = |number: &[u8; 4]| [&good[..2], number, &good[6..]].concat();
    let mut bad = vec![
        (good[1..].to_vec(), 1),
        ([b"0", &good[..]].concat(), 1),
        ([&good[..LINE - 1], b"\r\n"].concat(), 1),
        (b"\n".to_vec(), 1),
        (b"01000100020A01\n".to_vec(), 2),
        (b" 1000100020001\n".to_vec(), 2),
        (b"0100010002000\0\n".to_vec(), 2),
        (of_number(b"0000"), 23),
        (of_number(b"0002"), 23),
        (of_number(b"1001"), 23),
    ];
    let kinds = [0, 3, 4, 0x10, 0x11, 0xff];
    bad.extend(kinds.map(|kind| (line(kind, 2, 1), 9)));
    bad.extend([0, 3].map(|kind| (line(kind, 1, 1), 9)));
    // For another probe, from a stranger, from itself, from no probe.
    let ends = [[2, 0], [1, 2], [1, 0], [2, 4], [3, 1], [1, 1], [4, 1]];
    bad.extend(ends.map(|[from, to]| (offer(from, to), 24)));
    bad.extend(ends.map(|[from, to]| (refusal(from, to), 24)));
    bad
}

/// The bag is refused on a record with something in each map.
#[track_caller]
fn refused(bag: &[u8], log: &mut Log, number: u8) {
    let mut end = m2_end_with(&[1, 2, 2, 1, 0, 0]);
    assert_eq!(end.hear_bag(bag, log), Err(number));
}

/// Up to 64 frames are heard, of a few neighbours over and over and of a hub's many.
#[test]
fn counts_of_frames() {
    let mut hubs = half_needed(largest_hubs(FULL), 3, &mut Random::new(141));
    hubs.number = 1;
    let of_hub = |count: u16| (1..=count).map(|from| offer(from, 0)).collect::<Vec<_>>();
    for count in [0, 1, 2, 3, 5, 62, 63, 64, 65, 66, 67, 100, 128, 200, 255] {
        let expected = match count <= MOST_FRAMES {
            true => Ok(count),
            false => Err(32),
        };
        assert_eq!(heard(&good(count).concat()), expected);
        let bag = of_hub(count as u16).concat();
        assert_eq!(heard_by(&mut End::fresh(&hubs, 0), &bag), expected);
    }
    assert_eq!(heard(&good(5_000).concat()), Err(32));
}

/// A last piece without a line feed is a frame: it is refused by 1, and counts towards the 64.
#[test]
fn last_piece_without_a_line_feed() {
    let whole = offer(2, 1);
    let mut pieces = vec![b"X".to_vec(), b"\r".to_vec(), vec![b'0'; 70_000]];
    pieces.extend((1..LINE).map(|length| whole[..length].to_vec()));
    pieces.extend(lines::not_closed(&whole));
    for piece in &pieces {
        for count in [0, 1, 2, 3, 4, 62, 63, 64, 65] {
            let bag = [&good(count).concat(), &piece[..]].concat();
            let number = if count < MOST_FRAMES { 1 } else { 32 };
            refused(&bag, &mut with_free(MOST_FRAMES), number);
            refused(&bag, &mut with_free(0), number);
        }
    }
    assert!(pieces.len() > 270, "{}", pieces.len());
}

/// An empty line is a frame too.
#[test]
fn line_feeds_alone() {
    for count in [1, 2, 63, 64, 65, 66, 100, 10_000] {
        let number = if count <= MOST_FRAMES { 1 } else { 32 };
        refused(&vec![b'\n'; count], &mut with_free(count), number);
        let closed = [vec![b'0'; 10_000], vec![b'\n'; count]].concat();
        refused(&closed, &mut with_free(count), number);
    }
    for (count, number) in [(0, 1), (1, 1), (62, 1), (63, 1), (64, 32), (65, 32)] {
        for behind in [true, false] {
            let mut frames = good(count);
            frames.insert(if behind { count } else { 0 }, b"\n".to_vec());
            refused(&frames.concat(), &mut with_free(count + 1), number);
        }
    }
    refused(&[b'0'; 10_000], &mut with_free(9), 1);
}

/// A bag of five frames cut, and lengthened by a byte, at each place.
#[test]
fn bag_cut_or_lengthened_at_each_byte() {
    let bag = good(5).concat();
    for place in 0..=bag.len() {
        let whole = place % LINE == 0;
        let expected = |count: usize| if whole { Ok(count) } else { Err(1) };
        assert_eq!(heard(&bag[..place]), expected(place / LINE));
        assert_eq!(heard(&bag[place..]), expected(5 - place / LINE));
        for byte in *b"0f\n\r \0" {
            let mut longer = bag.clone();
            longer.insert(place, byte);
            assert_eq!(heard(&longer), Err(1));
        }
    }
}

/// A byte that is no digit, in each place of a frame before, between and behind good ones.
#[test]
fn byte_that_is_no_digit() {
    for (which, bad) in lines::with_no_digit(&offer(2, 1)).into_iter().enumerate() {
        let mut frames = good(2);
        frames.insert(which % 3, bad);
        refused(&frames.concat(), &mut with_free(which % 4), 2);
    }
}

/// Each bad frame at each place of bags of one to five frames, with room in the log and without.
#[test]
fn bad_frame_at_each_place() {
    let mut tally = Tally::default();
    for (bad, number) in bad() {
        for count in 1..=5 {
            for place in 0..count {
                let mut frames = good(count);
                frames[place] = bad.clone();
                for free in [0, place, count - 1, count, count + 3] {
                    refused(&frames.concat(), &mut with_free(free), number);
                    tally.count(Err(number));
                }
            }
        }
    }
    let reached = [1, 2, 9, 23, 24].map(|number| tally.refused[number]);
    assert_eq!(reached, [300, 225, 600, 225, 1_050]);
}

#[test]
fn bad_frame_at_each_place_of_a_full_bag() {
    let (mut tally, random) = (Tally::default(), &mut Random::new(142));
    for (bad, number) in bad() {
        for place in 0..MOST_FRAMES {
            let mut frames = good(MOST_FRAMES);
            frames[place] = bad.clone();
            let free = random.pick(&[0, place, MOST_FRAMES - 1, MOST_FRAMES]);
            refused(&frames.concat(), &mut with_free(free), number);
            frames.push(offer(2, 1));
            refused(&frames.concat(), &mut with_free(free), 32);
            tally.count(Err(number));
        }
    }
    tally.assert_often(&[9, 24]);
    assert!(tally.answers() > 1_500, "{tally:?}");
}

/// Of two bad frames the first decides, also where the second is a piece without a line feed.
#[test]
fn first_of_two_bad_frames() {
    let mut pairs = 0;
    let unclosed = (b"0100".to_vec(), 1);
    for (first, number) in bad() {
        for (second, other) in bad().into_iter().chain([unclosed.clone()]) {
            let behind = second.last() != Some(&b'\n');
            for (one, two) in [(0, 1), (0, 4), (1, 2), (1, 4), (2, 3), (3, 4)] {
                let mut frames = good(if behind { two + 1 } else { 5 });
                frames[one] = first.clone();
                frames[two] = second.clone();
                for free in [one, 5] {
                    refused(&frames.concat(), &mut with_free(free), number);
                }
                pairs += usize::from(other != number);
            }
        }
    }
    assert!(pairs > 3_000, "{pairs}");
}

/// An entry for each frame, or none is heard.
#[test]
fn full_log() {
    for count in [1, 2, 3, 4, 5, 63, 64] {
        let bag = good(count).concat();
        for free in [0, 1, count / 2, count - 1]
            .into_iter()
            .filter(|&free| free < count)
        {
            refused(&bag, &mut with_free(free), 26);
        }
        for free in [count, count + 1, count + 64] {
            let mut log = with_free(free);
            let befell = m2_end().hear_bag(&bag, &mut log);
            assert_eq!(befell.map(|befell| befell.len()), Ok(count));
            assert_eq!(log.free(), free - count);
            log.read();
        }
        // More used than there are.
        for (length, used) in [(0, 1), (count, count + 1), (64, 1 << 40), (64, usize::MAX)] {
            let mut log = Log::of(length, used, &mut Random::new(143));
            refused(&bag, &mut log, 26);
        }
    }
    // A frame that changes nothing takes an entry too.
    let mut end = m2_end_with(&[2, 2, 2, 2, 0, 0]);
    let bag = good(4).concat();
    assert_eq!(end.hear_bag(&bag, &mut with_free(3)), Err(26));
    let unchanged = [0, 1, 0, 1].map(What::NoChange);
    assert_eq!(
        end.hear_bag(&bag, &mut with_free(4)),
        Ok(unchanged.to_vec())
    );
}

/// A number that is no probe's: 24 also for the empty bag, after 32 and after the first frame's own.
#[test]
fn no_such_probe() {
    for probe in [4, 5, 256, 0xffff] {
        let bag = |frame: &[u8]| [frame, &offer(0, probe)].concat();
        let mut end = End::fresh(&marked(1), probe);
        let faults: [(&[u8], u8); 6] = [
            (b"X3000200030004", 1),
            (b"X3000200030004\n", 2),
            (b"03000200030004\n", 9),
            (b"02000200030004\n", 23),
            (b"02000100030004\n", 24),
            (b"02000100020001\n", 24),
        ];
        for free in [0, 1, 2, 65] {
            let mut log = with_free(free);
            assert_eq!(end.hear_bag(b"", &mut log), Err(24));
            for (frame, number) in faults {
                assert_eq!(end.hear_bag(frame, &mut log), Err(number));
                assert_eq!(end.hear_bag(&bag(frame), &mut log), Err(number));
            }
            let many = refusal(3, probe).repeat(MOST_FRAMES);
            assert_eq!(end.hear_bag(&many, &mut log), Err(24));
            assert_eq!(end.hear_bag(&bag(&many), &mut log), Err(32));
            assert_eq!(end.hear_bag(&vec![b'\n'; 65], &mut log), Err(32));
        }
        let mut past = Log::of(3, 9, &mut Random::new(144));
        assert_eq!(end.hear_bag(b"", &mut past), Err(24));
        // Every link is another probe's.
        flip(&mut end.maps.held, 0);
        assert_eq!(end.hear_bag(b"", &mut past), Err(21));
    }
}

/// A call of probe 1 of M2, which hears an offer of probe 2 and what stands behind it.
struct Call {
    end: End,
    line: Vec<u8>,
    behind: Vec<u8>,
    free: usize,
}

impl AsMut<Numbers> for Call {
    fn as_mut(&mut self) -> &mut Numbers {
        &mut self.end.numbers
    }
}

impl AsMut<Vec<u8>> for Call {
    fn as_mut(&mut self) -> &mut Vec<u8> {
        &mut self.line
    }
}

/// Before the frames are looked at. Behind a line without its line feed 64 would be too few.
const OF_RECORD: [Fault<Call>; 4] = [
    (|call| call.end.maps.held.push(0), 20),
    (|call| flip(&mut call.end.maps.refused_in, 63), 21),
    (|call| call.end.maps.standing[0] = 0b11, 22),
    (|call| call.behind = good(65).concat(), 32),
];

/// The first frame's last, then those of a later one and of the log.
const OF_FRAMES: [Fault<Call>; 3] = [
    (|call| call.line[13] = b'0', 24),
    (
        |call| call.behind = [refusal(0, 1), line(0, 1, 1)].concat(),
        9,
    ),
    (|call| call.free = 1, 26),
];

/// Of any faults together the first decides.
#[test]
fn order_of_refusals() {
    let fresh = || Call {
        end: m2_end(),
        line: offer(2, 1),
        behind: refusal(0, 1),
        free: 3,
    };
    let (mut tally, faults) = (
        Tally::default(),
        [&of_table(), &OF_RECORD[..], &of_line(), &OF_FRAMES].concat(),
    );
    each_choice(&faults, fresh, |call, refusals| {
        let (mut end, first) = (call.end, first_but(refusals, &[]));
        let bag = [call.line, call.behind].concat();
        let befell = end.hear_bag(&bag, &mut with_free(call.free));
        assert_eq!(befell.as_ref().err().copied(), first);
        tally.count_bag(&befell);
        // The empty bag has the faults of the table and of the record alone.
        let of_state = first_but(refusals, &[1, 2, 9, 23, 24, 26, 32]);
        assert_eq!(end.hear_bag(b"", &mut with_free(0)).err(), of_state);
    });
    let made = (0..tally.refused.len()).filter(|&number| tally.refused[number] > 0);
    let expected = [1, 2, 3, 4, 5, 8, 9, 20, 21, 22, 23, 24, 26, 32];
    assert_eq!(Vec::from_iter(made), expected);
    assert_eq!(tally.befell.iter().sum::<usize>(), 2);
}
