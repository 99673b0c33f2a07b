//! Bags of frames that are heard: every small one, some by hand, and the empty one.

use super::{every_choice, every_record, m2_end};
use planner_tests::compare_ends::End;
use planner_tests::compare_log::Log;
use planner_tests::ends::{self, other_end};
use planner_tests::events::own_links;
use planner_tests::ffi;
use planner_tests::lines::{offer, refusal};
use planner_tests::maps::OwnMaps;
use planner_tests::random::Random;
use planner_tests::reference::Table;
use planner_tests::sites::{every_order_of_three, every_table, marked, Numbers};
use planner_tests::tally::Tally;

/// Frames in the small bags.
const SMALL: u32 = 4;

/// The offers and refusals of the probe's neighbours, of table 0001.
fn frames_to(table: &Table, probe: u16) -> Vec<Vec<u8>> {
    let own = own_links(table, probe).into_iter();
    let others = own.flat_map(|place| other_end(table.links[place], probe));
    let both = others.flat_map(|other| [offer(other, probe), refusal(other, probe)]);
    both.collect()
}

/// What the small bags reached.
#[derive(Default)]
struct Reached {
    records: usize,
    bags: usize,
    /// Bags with other entries than an earlier order of the same frames.
    other_entries: usize,
    tally: Tally,
}

impl Reached {
    /// Records, bags, bags with other entries; then how often each of 02 to 06 befell, and nothing else.
    #[track_caller]
    fn assert_counts(&self, counts: [usize; 3], befell: [usize; 5]) {
        assert_eq!([self.records, self.bags, self.other_entries], counts);
        assert_eq!(self.tally.befell[2..7], befell);
        assert_eq!(self.tally.answers(), befell.iter().sum());
    }
}

/// Every bag of up to four of the frames, heard on the end's record. What it leaves goes by which
/// frames are in it, not by their order nor by how often each is.
#[track_caller]
fn every_bag(end: &mut End, frames: &[Vec<u8>], log: &Log, reached: &mut Reached) {
    let before = end.maps.clone();
    let mut left: Vec<Option<OwnMaps>> = vec![None; 1 << frames.len()];
    // By how often each frame is in the bag, a digit each: its entries in rising order.
    let digit = |frame: u8| 5_usize.pow(frame.into());
    let mut entries: Vec<Option<Vec<[u64; 3]>>> = vec![None; digit(frames.len() as u8)];
    for chosen in (0..=SMALL).flat_map(|count| every_choice(count, frames.len())) {
        let lines = chosen.iter().map(|&frame| &frames[usize::from(frame)][..]);
        let bag = lines.collect::<Vec<_>>().concat();
        let befell = end.hear_bag(&bag, &mut log.clone());
        let befell = befell.expect("frames of neighbours are heard");
        let which = chosen.iter().fold(0, |which, &frame| which | 1 << frame);
        assert_eq!(left[which].get_or_insert(end.maps.clone()), &end.maps);
        let mut numbers: Vec<[u64; 3]> = befell.iter().map(|what| what.numbers()).collect();
        numbers.sort_unstable();
        let often: usize = chosen.iter().map(|&frame| digit(frame)).sum();
        let first = entries[often].get_or_insert_with(|| numbers.clone());
        reached.other_entries += usize::from(*first != numbers);
        reached.tally.count_bag(&Ok(befell));
        reached.bags += 1;
        end.maps.clone_from(&before);
    }
    assert_eq!(left[0], Some(before));
}

/// Every small bag on every record of an end that 20 to 22 let pass.
#[track_caller]
fn every_bag_of_an_end(table: &Table, probe: u16, reached: &mut Reached) {
    let (frames, numbers) = (frames_to(table, probe), Numbers::of(table));
    let log = Log::of(6, 1, &mut Random::new(130));
    for record in every_record(table, probe) {
        if ends::check_record(numbers.slices(), probe, &record).is_ok() {
            let mut end = End::with(table, probe, &record);
            every_bag(&mut end, &frames, &log, reached);
            reached.records += 1;
        }
    }
}

/// Every site of up to three probes at equal costs, where the last link is the dearest.
#[test]
fn every_small_bag() {
    let mut reached = Reached::default();
    for probes in 1..=3 {
        every_table(probes, 1, |table| {
            for probe in 0..probes as u16 {
                every_bag_of_an_end(table, probe, &mut reached);
            }
        });
    }
    let befell = [2_214_840, 280_440, 1_610_520, 6_448_560, 19_578_468];
    reached.assert_counts([28_185, 8_225_445, 63_960], befell);
}

/// The same with the links in every order of their costs; the other probes need none.
#[test]
fn every_small_bag_in_every_order_of_costs() {
    let mut reached = Reached::default();
    every_order_of_three(|table| {
        for probe in 0..3_u16 {
            let mut others = (0..3).filter(|&other| other != probe);
            if others.all(|other| table.needs[usize::from(other)] == 0) {
                every_bag_of_an_end(table, probe, &mut reached);
            }
        }
    });
    let befell = [700_128, 88_920, 506_376, 2_036_112, 6_166_356];
    reached.assert_counts([8_310, 2_590_170, 20_280], befell);
}

/// By hand, with the numbers as they pass: probe 1 of M2, of spare 1, hears both its neighbours' offers
/// and a refusal. The log's other entries stay.
#[test]
fn answers_as_numbers() {
    let numbers = Numbers::of(&marked(1));
    let hear = |bag: &[u8], length: usize, used: usize| {
        let (mut maps, mut log) = (OwnMaps::fresh(3), [7; 5]);
        let log_lent = &mut log[..length];
        let answer = ffi::probe_hear_bag(numbers.slices(), 1, maps.lend(), bag, log_lent, used);
        (answer, maps.array().map(|map| map[0]), log)
    };
    let bag = b"01000100000001\n01000100020001\n02000100000001\n";
    let entries = [
        0x8000_0102_0000_ffff,
        0x8000_0103_0001_0000,
        0x8000_0105_0000_ffff,
    ];
    let [one, two, three] = entries;
    let maps = [0b00, 0b01, 0b10, 0b01];
    let heard = 0x0001_0000_0000_0003;
    assert_eq!(hear(bag, 5, 0), (heard, maps, [one, two, three, 7, 7]));
    assert_eq!(hear(bag, 5, 1), (heard, maps, [7, one, two, three, 7]));
    assert_eq!(hear(bag, 5, 2), (heard, maps, [7, 7, one, two, three]));
    assert_eq!(hear(bag, 4, 1), (heard, maps, [7, one, two, three, 7]));
    assert_eq!(hear(bag, 5, 3), (26, [0; 4], [7; 5]));
    assert_eq!(hear(bag, 5, usize::MAX), (26, [0; 4], [7; 5]));
    let another = b"02000100000001\n01000100020001\n01000100000001\n";
    let entries = [three, 0x8000_0102_0001_ffff, 0x8000_0104_0000_ffff];
    let [one, two, three] = entries;
    assert_eq!(hear(another, 5, 0), (heard, maps, [one, two, three, 7, 7]));
    assert_eq!(hear(b"", 0, 0), (0x0001_0000_0000_0000, [0; 4], [7; 5]));
}

/// The empty bag passes with every log: full, too, and with more used than there are.
#[test]
fn empty_bag() {
    for length in [0, 1, 5] {
        for used in [0, 1, 4, 5, 6, 1_000, usize::MAX] {
            let mut log = Log::of(length, used, &mut Random::new(131));
            for probe in 0..4 {
                let mut end = End::fresh(&marked(1), probe);
                assert_eq!(end.hear_bag(b"", &mut log), Ok(vec![]));
            }
            assert_eq!(log.used, used);
        }
    }
    let mut end = m2_end();
    let mut log = Log::of(3, 1, &mut Random::new(132));
    let both = [offer(0, 1), offer(2, 1)].concat();
    assert!(end.hear_bag(&both, &mut log).is_ok());
    assert_eq!(end.hear_bag(b"", &mut log), Ok(vec![]));
    assert_eq!(end.hear_bag(&both, &mut log), Err(26));
    log.read();
}
