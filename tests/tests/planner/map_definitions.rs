//! The second implementation's maps by themselves, and the plain Rust of an end beside it.

use planner_tests::compare_ends::End;
use planner_tests::ends::{self, differ, Kind, What, LINE, MOST_FRAMES};
use planner_tests::events::{
    any_bag, any_frame, any_probe, any_record, any_room, damage_record, damaged_line, each_table,
};
use planner_tests::ffi;
use planner_tests::maps::{self, bit, flip, words, OwnMaps, MAPS};
use planner_tests::plain_ends;
use planner_tests::sites::{marked, site, Numbers};
use planner_tests::tally::Tally;

#[test]
fn words_for_links() {
    let counts = [0, 1, 2, 63, 64, 65, 127, 128, 129, 2_047, 2_048, 65_535];
    let expected = [0, 1, 1, 1, 1, 2, 2, 2, 3, 32, 32, 1_024];
    assert_eq!(counts.map(words), expected);
}

/// Of each link and each byte that is not 0 the one bit that it sets.
#[test]
fn lowest_bit_first() {
    for links in [1, 63, 64, 65, 128, 130] {
        for link in 0..links {
            for (map, (side, byte)) in [(0, 1), (0, 2), (1, 1), (1, 2)].into_iter().enumerate() {
                let mut record = vec![0; 2 * links];
                record[2 * link + side] = byte;
                let mut expected = OwnMaps::fresh(links);
                expected.at(map)[link / 64] = 1_u64.rotate_left(link as u32);
                let maps = OwnMaps::turned(&record);
                assert_eq!(maps, expected);
                assert_eq!(maps.slices().turned(links), record);
                assert!(bit(expected.at(map), link));
            }
        }
    }
}

/// M2's probe 1 after its part of M11: link 0 refused in, link 1 standing and held.
#[test]
fn m11_in_maps() {
    let maps = OwnMaps::turned(&[0, 2, 1, 1, 0, 0]);
    assert_eq!(maps.clone().array(), [[0b10], [0], [0b10], [0b01]]);
    let numbers = Numbers::of(&marked(1));
    let given = numbers.slices();
    assert_eq!(maps::rests(given, 1, maps.slices(), 1), Ok(true));
    assert_eq!(maps::rests(given, 1, maps.slices(), 0), Ok(false));
    let mut out = [9; LINE + 1];
    let asked = maps::ask(given, 1, maps.slices(), Kind::Refusal, 0, &mut out);
    assert_eq!((asked, &out), (Ok(true), b"02000100010000\n\x09"));
}

/// The faults of maps, each where 02 puts it.
#[test]
fn faults() {
    let table = site(&[[0, 1, 1], [0, 2, 2], [1, 2, 3]], &[1, 0, 0]);
    let numbers = Numbers::of(&table);
    let judged = |change: &dyn Fn(&mut OwnMaps)| {
        let mut maps = OwnMaps::fresh(3);
        change(&mut maps);
        let mut record = [9; 7];
        let answer = maps::bytes_of(numbers.slices(), 0, maps.slices(), &mut record);
        assert!(answer.is_ok() || record == [9; 7]);
        answer.err()
    };
    assert_eq!(judged(&|_| ()), None);
    for map in 0..MAPS {
        assert_eq!(judged(&|maps| maps.at(map).push(0)), Some(20));
        assert_eq!(judged(&|maps| maps.at(map).clear()), Some(20));
        for place in 0..64 {
            let number = judged(&|maps| flip(maps.at(map), place));
            assert_eq!(number, (place > 1).then_some(21));
        }
        // Both own links: one more standing or held than its spare, but any may be refused.
        let number = judged(&|maps| maps.at(map)[0] = 0b11);
        assert_eq!(number, (map % 2 == 0).then_some(22));
        // Twice comes before too many, and the words before both.
        let number = judged(&|maps| {
            maps.at(map)[0] = 0b11;
            maps.at(map ^ 1)[0] = 0b01;
        });
        assert_eq!(number, Some(21));
        let number = judged(&|maps| {
            maps.at(map)[0] = 0b111;
            maps.at(3 - map).push(0);
        });
        assert_eq!(number, Some(20));
    }
}

/// A call on maps answers what it answers on their bytes, and leaves the maps of what it leaves there.
#[test]
fn calls_on_maps_and_on_bytes() {
    let mut tally = Tally::default();
    each_table(120, 2_000, |table, random| {
        let probe = any_probe(table, random);
        let numbers = Numbers::of(table);
        let given = numbers.slices();
        for _ in 0..10 {
            let record = any_record(table, probe, random);
            let (mut bytes, mut maps) = (record.clone(), OwnMaps::turned(&record));
            let (line, free) = (any_frame(table, probe, random).line(), any_room(random));
            let [on_bytes, on_maps] = match random.one_in(3) {
                true => [
                    ends::open(given, probe, &mut bytes, free),
                    maps::open(given, probe, maps.lend(), free),
                ],
                false => [
                    ends::hear(given, probe, &mut bytes, &line, free),
                    maps::hear(given, probe, maps.lend(), &line, free),
                ],
            };
            assert_eq!(on_bytes, on_maps);
            assert_eq!(maps, OwnMaps::turned(&bytes));
            let changes = on_maps.map_or(0, |entry| entry.what.changes());
            assert_eq!(differ(&record, &bytes), changes);
            tally.count(on_maps.map(|entry| entry.what));
        }
    });
    tally.assert_often(&[24, 26]);
    tally.assert_each_befell_an_end(100);
}

/// What the benchmark times the library against answers what the second implementation does and
/// leaves the same maps; the yardstick the same bytes.
#[test]
fn plain_rust() {
    let (mut tally, mut on_bytes) = (Tally::default(), 0);
    each_table(121, 4_000, |table, random| {
        let probe = any_probe(table, random);
        let mut end = End::with(table, probe, &any_record(table, probe, random));
        for _ in 0..10 {
            let damages = random.pick(&[[0, 0], [0, 0], [0, 0], [1, 0], [0, 1]]);
            let frame = any_frame(table, probe, random);
            let line = damaged_line(frame, damages, table, random);
            let (opens, free) = (random.one_in(3), any_room(random));
            let [mut maps, mut same] = [end.maps.clone(), end.maps.clone()];
            let given = end.numbers.slices();
            let [expected, answer] = match opens {
                true => [
                    maps::open(given, probe, maps.lend(), free),
                    plain_ends::open(given, probe, same.lend(), free),
                ],
                false => [
                    maps::hear(given, probe, maps.lend(), &line, free),
                    plain_ends::hear(given, probe, same.lend(), &line, free),
                ],
            };
            assert_eq!((answer, &same), (expected, &maps));
            if !matches!(expected, Err(20..=22)) {
                let mut record = end.record();
                let answer = match opens {
                    true => plain_ends::open_bytes(given, probe, &mut record, free),
                    false => plain_ends::hear_bytes(given, probe, &mut record, &line, free),
                };
                assert_eq!(answer, expected);
                assert_eq!(OwnMaps::turned(&record), maps);
                on_bytes += 1;
            }
            tally.count(expected.map(|entry| entry.what));
            end.maps = OwnMaps::turned(&any_record(table, probe, random));
            if random.one_in(3) {
                damage_record(&mut end, table, random);
            }
        }
    });
    tally.assert_often(&[1, 2, 9, 20, 21, 22, 23, 24, 26]);
    tally.assert_each_befell_an_end(100);
    assert!(on_bytes > 20_000, "{on_bytes}");
}

/// A bag by plain Rust and by the second implementation, with a log of so many entries.
#[track_caller]
fn bag_by_both(end: &End, bag: &[u8], [length, used]: [usize; 2]) -> Result<Vec<What>, u8> {
    let [mut maps, mut same] = [end.maps.clone(), end.maps.clone()];
    let (given, probe) = (end.numbers.slices(), end.probe);
    let (mut log, mut after) = (vec![7; length], vec![7; length]);
    let free = length.saturating_sub(used);
    let expected = maps::hear_bag(given, probe, maps.lend(), bag, free);
    for (place, entry) in expected.iter().flatten().enumerate() {
        after[used + place] = ffi::entry_answer(&Ok(*entry));
    }
    let answer = plain_ends::hear_bag(given, probe, same.lend(), bag, &mut log, used);
    assert_eq!(ffi::write_answer(&answer), ffi::bag_answer(&expected));
    assert_eq!((same, log), (maps, after));
    expected.map(|entries| entries.into_iter().map(|entry| entry.what).collect())
}

#[test]
fn bags_in_plain_rust() {
    let (mut tally, mut heard) = (Tally::default(), 0);
    each_table(138, 6_000, |table, random| {
        let (probe, short) = (any_probe(table, random), random.short());
        let probe = random.pick(&[probe, probe, probe, probe, probe, short]);
        for _ in 0..5 {
            let mut end = match random.one_in(2) {
                true => End::fresh(table, probe),
                false => End::with(table, probe, &any_record(table, probe, random)),
            };
            if random.one_in(4) {
                damage_record(&mut end, table, random);
            }
            let mut frames = any_bag(table, probe, random);
            if random.one_in(2) {
                let frame = any_frame(table, probe, random);
                let damages = random.pick(&[[1, 0], [2, 0], [0, 1]]);
                frames.push(damaged_line(frame, damages, table, random));
            }
            let length = random.pick(&[0, 3, 70, 70, 70, 70]);
            let used = random.pick(&[0, 0, 1, 3, length, length + 1, usize::MAX]);
            let answer = bag_by_both(&end, &frames.concat(), [length, used]);
            heard += usize::from(answer.as_ref().is_ok_and(|befell| befell.len() > 1));
            tally.count_bag(&answer);
        }
    });
    tally.assert_often(&[1, 2, 9, 20, 21, 22, 23, 24, 26, 32]);
    let befell = &tally.befell[2..7];
    assert!(befell.iter().all(|&befell| befell > 300), "{tally:?}");
    assert!(heard > 2_000, "{heard}");
}

/// The bag of each timed end has the most frames, of both kinds, and is heard.
#[test]
fn timed_bags() {
    for end in plain_ends::timed() {
        let (mut maps, given) = (OwnMaps::turned(&end.record), end.numbers.slices());
        let entries = maps::hear_bag(given, end.probe, maps.lend(), &end.bag, MOST_FRAMES);
        let entries = entries.expect("a bag that is heard");
        assert_eq!(entries.len(), MOST_FRAMES);
        let mut tally = Tally::default();
        tally.count_bag(&Ok(entries.into_iter().map(|entry| entry.what).collect()));
        let [taken, _, _, learnt, _] = tally.befell[2..7] else {
            panic!("five codes");
        };
        assert!(taken > 0 && learnt > 10, "{tally:?}");
    }
}
