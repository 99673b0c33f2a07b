//! Maps and bytes turned into each other, single bits flipped, and the sizes around a word's 64 links.

use super::{every_choice, every_record, m2_end, m2_end_with};
use planner_tests::compare_ends::End;
use planner_tests::ends::{self, Kind, What, LINE};
use planner_tests::events::{any_frame, any_record, any_room, damage_record, of_state, own_links};
use planner_tests::faults::{each_choice, of_table, Fault};
use planner_tests::lines::{offer, refusal};
use planner_tests::maps::{bit, flip, words, Four, OwnMaps, MAPS};
use planner_tests::random::Random;
use planner_tests::reference::{Table, FULL};
use planner_tests::sites::{
    every_table, half_needed, hubs, largest_hubs, legal_of_size, marked, site, Numbers,
};
use planner_tests::tally::Tally;

/// The lengths of outputs that are not too short: exact, then longer, each map by another count.
fn fitting(words: usize) -> [[usize; MAPS]; 2] {
    let longer = [words + 3, words, words + 1, words + 40];
    [[words; MAPS], longer]
}

/// Turns the bytes into maps and back, with exact and with longer outputs. Hands back the maps.
#[track_caller]
fn there_and_back(end: &mut End, record: &[u8]) -> Result<OwnMaps, u8> {
    let [exact, longer] = fitting(words(record.len() / 2));
    let maps = end.maps_of(record, exact);
    assert_eq!(end.maps_of(record, longer), maps);
    if let Ok(maps) = &maps {
        assert_eq!(*maps, OwnMaps::turned(record));
        end.maps.clone_from(maps);
        for length in [record.len(), record.len() + 1, record.len() + 77] {
            assert_eq!(end.bytes_of(length).as_deref(), Ok(record));
        }
    }
    maps
}

/// The same from maps: hands back the bytes.
#[track_caller]
fn back_and_there(end: &mut End) -> Result<Vec<u8>, u8> {
    let (maps, links) = (end.maps.clone(), usize::from(end.numbers.links));
    let record = end.bytes_of(2 * links);
    assert_eq!(end.bytes_of(2 * links + 9), record);
    if let Ok(record) = &record {
        for lengths in fitting(words(links)) {
            assert_eq!(end.maps_of(record, lengths), Ok(maps.clone()));
        }
    }
    record
}

/// Every record with bytes up to 2 on the own links, of every end, and of the first number that is no
/// probe's, on every site of up to three probes: whether 22 lets it pass goes by its ones.
#[test]
fn every_record_of_small_sites() {
    let [mut passed, mut refused, mut ends] = [0; 3];
    for probes in 1..=3 {
        every_table(probes, 1, |table| {
            let mut spares = table.spares();
            spares.push(0);
            for (probe, spare) in (0..).zip(spares) {
                let mut end = End::fresh(table, probe);
                for record in every_record(table, probe) {
                    let ones = |side: usize| {
                        let bytes = record.iter().skip(side).step_by(2);
                        bytes.filter(|&&byte| byte == 1).count()
                    };
                    let fits = ones(0) <= spare && ones(1) <= spare;
                    let maps = there_and_back(&mut end, &record);
                    assert_eq!(maps.err(), (!fits).then_some(22));
                    if fits {
                        assert_eq!(back_and_there(&mut end), Ok(record));
                    }
                    passed += usize::from(fits);
                    refused += usize::from(!fits);
                }
                ends += 1;
            }
        });
    }
    assert_eq!([passed, refused, ends], [28_749, 29_076, 2_225]);
}

/// Three links with three probes, of spares 2, 1 and 0.
fn triangle() -> Table {
    let table = site(&[[0, 1, 1], [0, 2, 2], [1, 2, 3]], &[0, 1, 2]);
    assert_eq!(table.spares(), [2, 1, 0]);
    table
}

/// Each call on the same maps: one refusal of the state, or none. An end that opens or hears is put
/// back to its maps.
#[track_caller]
fn each_call(end: &mut End, link: u16, line: &[u8], tally: &mut Tally) -> Option<u8> {
    let before = end.maps.clone();
    let turned = back_and_there(end).err();
    let rests = end.rests(link);
    assert_eq!(of_state(rests.err()), turned);
    for kind in Kind::BOTH {
        assert_eq!(end.ask(kind, link, LINE).err(), rests.err());
    }
    for opens in [true, false] {
        let befell = match opens {
            true => end.open(1),
            false => end.hear(line, 1),
        };
        assert_eq!(of_state(befell.err()), turned);
        if befell.is_ok() {
            // No link in both maps of a direction, and no bit past the last.
            assert_eq!(end.maps, OwnMaps::turned(&end.record()));
        }
        tally.count(befell);
        end.maps.clone_from(&before);
    }
    turned
}

/// Every choice of the four maps' lowest three bits, for each of the three ends. What passes is then
/// tried with each bit of each map flipped.
#[test]
fn every_four_maps_of_three_links() {
    let (mut counts, mut flipped) = ([0; 3], [0; 3]);
    let mut tally = Tally::default();
    // The places of the refusals 0 (none), 21 and 22 in the counts.
    let place = |refusal: Option<u8>| match refusal {
        None => 0,
        Some(21) => 1,
        Some(22) => 2,
        Some(other) => panic!("refusal {other}"),
    };
    for (probe, [one, two], link) in [(0, [1, 2], 1), (1, [0, 2], 0), (2, [0, 1], 1)] {
        let froms = [one, two].into_iter();
        let lines = froms.flat_map(|from| [offer(from, probe), refusal(from, probe)]);
        let lines: Vec<Vec<u8>> = lines.collect();
        let mut end = End::fresh(&triangle(), probe);
        let mut call = |end: &mut End, line: usize| {
            let refusal = each_call(end, link, &lines[line], &mut tally);
            place(refusal)
        };
        for bits in every_choice(MAPS as u32, 8) {
            for (map, &bits) in bits.iter().enumerate() {
                *end.maps.at(map) = vec![bits.into()];
            }
            let [passes, ..] = [0, 1, 2, 3].map(|line| call(&mut end, line));
            counts[passes] += 1;
            if passes > 0 {
                continue;
            }
            for (map, bit) in (0..MAPS).flat_map(|map| (0..64).map(move |bit| (map, bit))) {
                flip(end.maps.at(map), bit);
                flipped[call(&mut end, bit % 4)] += 1;
                flip(end.maps.at(map), bit);
            }
        }
    }
    // Of 81 choices without 21 each, the spares let 81, 64 and 16 pass.
    assert_eq!(counts, [161, 3 * (4096 - 81), 17 + 65]);
    assert_eq!(flipped, [816, 40_336, 64]);
    assert_eq!(flipped.iter().sum::<usize>(), 161 * 4 * 64);
    tally.assert_each_befell_an_end(10);
}

/// The link counts around a word's 64 and the largest: of each a hub's site, where all or many links
/// are the hub's, and a random one; each with some of its probes.
fn sized() -> Vec<(Table, Vec<u16>)> {
    let random = &mut Random::new(122);
    let mut sites = vec![(site(&[], &[0]), vec![0, 1])];
    for links in [1, 63, 64, 65, 128] {
        let star = half_needed(hubs(links as u16 + 1, 1), 5, random);
        sites.push((star, vec![0, 1, links as u16]));
        let probes = if links == 1 { 2 } else { 24 };
        let any = legal_of_size(probes, links, random);
        sites.push((half_needed(any, 9, random), vec![0, probes as u16 / 2]));
    }
    let hubs = half_needed(largest_hubs(FULL), 65_536, random);
    sites.push((hubs, vec![0, 7, 255]));
    let any = legal_of_size(FULL.probes, FULL.links, random);
    sites.push((half_needed(any, 65_536, random), vec![128]));
    sites
}

/// Each bit of each map flipped, the bits past the last link among them, in a record that passes:
/// refused by 21 where the bit is not an own link's, or stands in the direction's other map then.
#[test]
fn single_bits_at_each_size() {
    let random = &mut Random::new(123);
    let [mut foreign, mut past, mut twice, mut too_many, mut fine] = [0; 5];
    for (table, probes) in sized() {
        let (links, spares) = (table.links.len(), table.spares());
        for probe in probes {
            let own = own_links(&table, probe);
            let record = any_record(&table, probe, random);
            let mut end = End::with(&table, probe, &record);
            let maps = there_and_back(&mut end, &record).expect("a record that passes");
            assert_eq!(end.maps, maps);
            for map in 0..MAPS {
                for place in 0..64 * words(links) {
                    let other = bit(end.maps.at(map ^ 1), place);
                    flip(end.maps.at(map), place);
                    let one = bit(end.maps.at(map), place);
                    let ones: u32 = end.maps.at(map).iter().map(|word| word.count_ones()).sum();
                    let spare = spares.get(usize::from(probe)).copied().unwrap_or(0);
                    let (count, expected) = match () {
                        () if place >= links => (&mut past, Some(21)),
                        () if !own.contains(&place) => (&mut foreign, Some(21)),
                        () if one && other => (&mut twice, Some(21)),
                        () if map % 2 == 0 && ones as usize > spare => (&mut too_many, Some(22)),
                        () => (&mut fine, None),
                    };
                    *count += 1;
                    assert_eq!(end.bytes_of(2 * links).err(), expected);
                    if place % 61 == 0 || links < 64 {
                        assert_eq!(of_state(end.open(0).err()), expected);
                        assert_eq!(of_state(end.rests(0).err()), expected);
                    }
                    end.maps.clone_from(&maps);
                }
            }
        }
    }
    let reached = [foreign, past, twice, too_many, fine];
    assert!(
        foreign > 30_000 && past > 2_000 && twice > 900 && too_many > 300 && fine > 1_500,
        "{reached:?}"
    );
}

/// A word too many, and one too few, in each map and in all: 20, also where the word is 0.
#[test]
fn words_at_each_size() {
    let (random, mut tally) = (&mut Random::new(124), Tally::default());
    for (table, probes) in sized() {
        let (links, probe) = (table.links.len(), probes[0]);
        let line = any_frame(&table, probe, random).line();
        let record = any_record(&table, probe, random);
        let mut end = End::with(&table, probe, &record);
        let maps = end.maps.clone();
        for map in 0..MAPS {
            let other: usize = (map + 1 + random.below(3)) % MAPS;
            for more in [vec![0], vec![1], vec![0; 33]] {
                end.maps.at(map).extend(more);
                assert_eq!(each_call(&mut end, 0, &line, &mut tally), Some(20));
                // Together with a wrong bit it is still 20.
                if links % 64 > 0 {
                    flip(end.maps.at(other), links);
                    assert_eq!(each_call(&mut end, 0, &line, &mut tally), Some(20));
                }
                end.maps.clone_from(&maps);
            }
            if links > 0 {
                end.maps.at(map).pop();
                assert_eq!(each_call(&mut end, 0, &line, &mut tally), Some(20));
                end.maps.clone_from(&maps);
            }
        }
        for length in [words(links) + 1, words(links).saturating_sub(1)] {
            let all = maps.each_ref().map(|map| {
                let mut map = map.clone();
                map.resize(length, 0);
                map
            });
            end.maps = all;
            let expected = (length != words(links)).then_some(20);
            assert_eq!(each_call(&mut end, 0, &line, &mut tally), expected);
        }
    }
    assert!(tally.refused[20] > 400, "{tally:?}");
}

/// Every call on random records that pass and on damaged ones, with their frames right and damaged in
/// turn.
#[test]
fn calls_at_each_size() {
    let (random, mut tally, mut passed) = (&mut Random::new(125), Tally::default(), 0);
    for (table, probes) in sized() {
        let runs = if table.links.len() > 200 { 60 } else { 400 };
        for probe in probes {
            let own = own_links(&table, probe);
            let mut end = End::fresh(&table, probe);
            end.numbers.lend_longer(random);
            for run in 0..runs {
                let record = any_record(&table, probe, random);
                there_and_back(&mut end, &record).expect("a record that passes");
                if run % 3 == 0 {
                    damage_record(&mut end, &table, random);
                }
                let link = match own.is_empty() {
                    true => random.short(),
                    false => random.pick(&own) as u16,
                };
                let line = any_frame(&table, probe, random).line();
                let refusal = each_call(&mut end, link, &line, &mut tally);
                passed += usize::from(refusal.is_none());
                end.maps = OwnMaps::turned(&record);
                let befell = end.hear(&line, any_room(random));
                tally.count(befell);
            }
        }
    }
    tally.assert_often(&[20, 21, 22, 24, 26]);
    tally.assert_each_befell_an_end(100);
    assert!(passed > 4_000, "{passed}");
}

/// A run of events at each size: after each the bytes of the maps are those that the byte rules leave.
#[test]
fn events_at_each_size() {
    let (random, mut events) = (&mut Random::new(126), 0);
    for (table, probes) in sized() {
        for probe in probes
            .into_iter()
            .filter(|&probe| probe < table.needs.len() as u16)
        {
            let mut end = End::fresh(&table, probe);
            // The record in bytes, which goes by the byte rules alone.
            let mut record = end.record();
            for _ in 0..own_links(&table, probe).len().min(60) {
                let line = any_frame(&table, probe, random).line();
                let opens = random.one_in(3);
                let befell = match opens {
                    true => end.open(1),
                    false => end.hear(&line, 1),
                };
                let given = end.numbers.slices();
                let by_bytes = match opens {
                    true => ends::open(given, probe, &mut record, 1),
                    false => ends::hear(given, probe, &mut record, &line, 1),
                };
                assert_eq!(befell, by_bytes.map(|entry| entry.what));
                befell.expect("an event that is accepted");
                assert_eq!(end.bytes_of(record.len()), Ok(record.clone()));
                events += 1;
            }
        }
    }
    assert!(events > 400, "{events}");
}

/// A call of both turnings on probe 1 of M2.
struct Turning {
    end: End,
    record: Vec<u8>,
    words: [usize; MAPS],
    bytes: usize,
}

impl AsMut<Numbers> for Turning {
    fn as_mut(&mut self) -> &mut Numbers {
        &mut self.end.numbers
    }
}

/// In the bytes and in the maps alike, in the order of the refusals.
const OF_STATE: [Fault<Turning>; 3] = [
    (
        |call| {
            call.record.push(0);
            call.end.maps.refused_out.push(0);
        },
        20,
    ),
    (
        |call| {
            call.record[4] = 2;
            flip(&mut call.end.maps.refused_out, 2);
        },
        21,
    ),
    (
        |call| {
            call.record[1] = 1;
            call.record[3] = 1;
            call.end.maps.held[0] |= 0b11;
        },
        22,
    ),
];

/// A short output stands before all; of the others the first decides.
#[test]
fn order_of_refusals_of_turning() {
    let fresh = || Turning {
        end: m2_end(),
        record: vec![0; 6],
        words: [1; MAPS],
        bytes: 6,
    };
    let short: [Fault<Turning>; 1] = [(
        |call| {
            call.words[2] = 0;
            call.bytes = 5;
        },
        8,
    )];
    let faults = [&short[..], &of_table(), &OF_STATE].concat();
    let mut made = [0; 28];
    each_choice(&faults, fresh, |mut call, refusals| {
        let first = refusals.first().copied();
        let maps = call.end.maps_of(&call.record, call.words);
        assert_eq!(maps.err(), first);
        assert_eq!(call.end.bytes_of(call.bytes).err(), first);
        made[usize::from(first.unwrap_or(0))] += 1;
    });
    let numbers = (0..28).filter(|&number| made[number] > 0);
    assert_eq!(Vec::from_iter(numbers), [0, 3, 4, 5, 8, 20, 21, 22]);
}

/// Each output map of its own, and the bytes: too short by one and by all, whatever else is wrong.
#[test]
fn short_outputs() {
    let table = half_needed(hubs(130, 1), 5, &mut Random::new(127));
    let mut end = End::fresh(&table, 0);
    let (record, bad) = (vec![0; 258], vec![3; 1]);
    for map in 0..MAPS {
        for length in [0, 1, 2] {
            for others in [3, 4, 0] {
                let mut lengths = [others; MAPS];
                lengths[map] = length;
                for record in [&record, &bad] {
                    assert_eq!(end.maps_of(record, lengths), Err(8));
                }
            }
        }
    }
    for length in [0, 1, 129, 256, 257] {
        assert_eq!(end.bytes_of(length), Err(8));
    }
    end.maps.held.clear();
    assert_eq!(end.bytes_of(257), Err(8));
    assert_eq!(end.bytes_of(258), Err(20));
    assert_eq!(end.maps_of(&bad, [3; MAPS]), Err(20));
    assert!(end.maps_of(&record, [3; MAPS]).is_ok());
}

/// A link count beyond the most is held against the outputs first: 33 words and 4,098 bytes for 2,049.
#[test]
fn outputs_of_too_many_links() {
    let mut end = End::fresh(&largest_hubs(FULL), 0);
    for (count, full) in [(2_049, 33), (65_535, 1_024)] {
        end.numbers
            .lend([256, count, count, count], &mut Random::new(128));
        end.numbers.links = count as u16;
        end.maps = OwnMaps::fresh(count);
        let record = vec![0; 2 * count];
        assert_eq!(end.maps_of(&record, [full - 1; MAPS]), Err(8));
        assert_eq!(end.maps_of(&record, [full; MAPS]), Err(3));
        assert_eq!(end.bytes_of(2 * count - 1), Err(8));
        assert_eq!(end.bytes_of(2 * count), Err(3));
        assert_eq!(end.open(1), Err(3));
    }
}

/// What 20, 21 and 22 say of bytes, with outputs that are exact and longer.
#[test]
fn bytes_that_are_refused() {
    let refused = |record: &[u8], number: u8| {
        let mut end = m2_end();
        for lengths in fitting(1) {
            assert_eq!(end.maps_of(record, lengths), Err(number));
        }
    };
    for length in (0..14)
        .chain([4_096, 131_070])
        .filter(|&length| length != 6)
    {
        refused(&vec![0; length], 20);
        refused(&vec![9; length], 20);
    }
    for place in 0..6 {
        for byte in 1..=255 {
            let mut record = [0; 6];
            record[place] = byte;
            match place < 4 && byte < 3 {
                true => assert!(there_and_back(&mut m2_end(), &record).is_ok()),
                false => refused(&record, 21),
            }
        }
    }
    refused(&[1, 0, 1, 0, 0, 0], 22);
    refused(&[0, 1, 0, 1, 0, 0], 22);
    refused(&[1, 1, 2, 1, 0, 0], 22);
    refused(&[1, 1, 1, 1, 0, 1], 21);
    for [one, other] in [[1, 0], [1, 2], [0, 1], [2, 1], [2, 2], [0, 0]] {
        let record = [one, other, other, one, 0, 0];
        let maps = there_and_back(&mut m2_end(), &record);
        assert_eq!(maps, Ok(m2_end_with(&record).maps));
    }
}

/// Turning has no 24: of a number that is no probe's the all-zero record passes, and no other.
#[test]
fn no_such_probe() {
    for probe in [4, 5, 256, 0xffff] {
        let mut end = End::fresh(&marked(1), probe);
        assert!(there_and_back(&mut end, &[0; 6]).is_ok());
        assert_eq!(back_and_there(&mut end), Ok(vec![0; 6]));
        for place in 0..6 {
            for byte in [1, 2, 3] {
                let mut record = [0; 6];
                record[place] = byte;
                assert_eq!(there_and_back(&mut end, &record), Err(21));
            }
        }
        for map in 0..MAPS {
            for bit in 0..64 {
                flip(end.maps.at(map), bit);
                assert_eq!(back_and_there(&mut end), Err(21));
                flip(end.maps.at(map), bit);
            }
        }
    }
}

/// By hand: 65 links of a hub, the first standing and held, the 64th refused both ways, the last
/// standing and refused in.
#[test]
fn words_by_hand() {
    let mut record = vec![0; 130];
    (record[0], record[1]) = (1, 1);
    (record[126], record[127]) = (2, 2);
    (record[128], record[129]) = (1, 2);
    let mut end = End::fresh(&hubs(66, 1), 0);
    let maps = there_and_back(&mut end, &record);
    let expected = Four {
        standing: vec![1, 1],
        refused_out: vec![1 << 63, 0],
        held: vec![1, 0],
        refused_in: vec![1 << 63, 1],
    };
    assert_eq!(maps, Ok(expected));
    assert_eq!(end.rests(0), Ok(true));
    assert_eq!(end.ask(Kind::Refusal, 63, LINE), Ok(Some(refusal(0, 64))));
    assert_eq!(end.ask(Kind::Offer, 64, LINE), Ok(Some(offer(0, 65))));
    // The dearest untried is the last but two; its offer then is taken.
    assert_eq!(end.open(1), Ok(What::Opened(62)));
    assert_eq!(end.hear(&offer(63, 0), 1), Ok(What::Taken(62)));
    assert_eq!(end.maps.standing, [1 | 1 << 62, 1]);
    assert_eq!(end.maps.held, [1 | 1 << 62, 0]);
}
