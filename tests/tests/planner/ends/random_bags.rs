//! Random bags, right and damaged, on sites up to the largest; each that is heard also in other orders.

use planner_tests::compare_ends::End;
use planner_tests::compare_log::Log;
use planner_tests::ends::MOST_FRAMES;
use planner_tests::events::{
    any_bag, any_frame, any_probe, any_record, damage_line, damage_record, damaged_line,
    each_table, of_state, own_links, shuffled,
};
use planner_tests::random::Random;
use planner_tests::reference::{Table, FULL};
use planner_tests::sites::{half_needed, largest_hubs, legal_of_size, Numbers};
use planner_tests::tally::Tally;

/// With room for the bag in most cases, else with an entry too few, with none, or with more used than
/// there are.
fn any_log(frames: usize, random: &mut Random) -> Log {
    let (used, more) = (random.below(4), random.below(3));
    let length = match random.below(12) {
        0 => used + frames.saturating_sub(1),
        1 => used,
        2 => used.saturating_sub(1),
        _ => used + frames + more,
    };
    Log::of(length, used, random)
}

/// What the bags reached.
#[derive(Debug, Default)]
struct Reached {
    tally: Tally,
    heard: usize,
    /// Of the most frames.
    largest: usize,
    /// Heard with other entries in another order.
    other_entries: usize,
}

impl Reached {
    /// Hears the bag on the end's record, which stays.
    #[track_caller]
    fn hear(&mut self, end: &mut End, bag: &[u8], log: &Log) -> bool {
        let before = end.maps.clone();
        let answer = end.hear_bag(bag, &mut log.clone());
        self.tally.count_bag(&answer);
        end.maps = before;
        answer.is_ok()
    }

    /// Hears the frames as a bag and, if it is accepted, in other orders, the reverse and the sorted one
    /// among them: each leaves the same record.
    #[track_caller]
    fn hear_in_orders(&mut self, end: &mut End, frames: &[Vec<u8>], random: &mut Random) {
        let log = any_log(frames.len(), random);
        if !self.hear(end, &frames.concat(), &log) {
            return;
        }
        let before = end.maps.clone();
        let mut hear = |frames: &[Vec<u8>]| {
            let befell = end.hear_bag(&frames.concat(), &mut log.clone());
            let befell = befell.expect("an order of an accepted bag");
            let mut entries: Vec<[u64; 3]> = befell.iter().map(|what| what.numbers()).collect();
            entries.sort_unstable();
            (entries, std::mem::replace(&mut end.maps, before.clone()))
        };
        let (entries, left) = hear(frames);
        let mut orders = [(); 4].map(|()| shuffled(frames.to_vec(), random));
        orders[0].sort();
        orders[1] = frames.iter().rev().cloned().collect();
        let mut others = false;
        for order in &orders {
            let (of_order, same) = hear(order);
            assert_eq!(same, left, "another order, another record");
            others |= of_order != entries;
        }
        self.heard += 1;
        self.largest += usize::from(frames.len() == MOST_FRAMES);
        self.other_entries += usize::from(others);
    }

    /// Each of 02 to 06 befell so often, and nothing else.
    #[track_caller]
    fn assert_each_befell(&self, times: usize) {
        let [opened, enough, heard @ .., all_tried, restarted] = self.tally.befell;
        assert!(heard.iter().all(|&befell| befell > times), "{self:?}");
        assert_eq!([opened, enough, all_tried, restarted], [0; 4]);
    }

    /// At least so many were heard, of the most frames, and with other entries in another order.
    #[track_caller]
    fn assert_heard(&self, least: [usize; 3]) {
        let reached = [self.heard, self.largest, self.other_entries];
        let enough = reached
            .iter()
            .zip(least)
            .all(|(&reached, least)| reached >= least);
        assert!(enough, "{self:?}");
    }
}

/// An end with a fresh record or with any that passes.
fn any_end(table: &Table, probe: u16, random: &mut Random) -> End {
    let mut end = match random.one_in(2) {
        true => End::fresh(table, probe),
        false => End::with(table, probe, &any_record(table, probe, random)),
    };
    end.numbers.lend_longer(random);
    end
}

#[test]
fn bags_of_frames_that_may_arrive() {
    let mut reached = Reached::default();
    each_table(133, 3_000, |table, random| {
        let probe = any_probe(table, random);
        for _ in 0..4 {
            let mut end = any_end(table, probe, random);
            let frames = any_bag(table, probe, random);
            reached.hear_in_orders(&mut end, &frames, random);
        }
    });
    assert_eq!(reached.tally.refused[..24], [0; 24]);
    reached.tally.assert_often(&[24, 26, 32]);
    reached.assert_each_befell(600);
    reached.assert_heard([4_000, 350, 400]);
}

/// Of 256 probes and 2,048 links: hubs with 255 links and random ones, with costs of all values, few
/// and one.
#[test]
fn bags_on_the_largest_sites() {
    let (mut reached, random) = (Reached::default(), &mut Random::new(134));
    for costs in [65_536, 4, 1] {
        let hubs = half_needed(largest_hubs(FULL), costs, random);
        let any = legal_of_size(FULL.probes, FULL.links, random);
        let any = half_needed(any, costs, random);
        for (table, probes) in [(hubs, [0, 0, 7, 255]), (any, [0, 77, 128, 255])] {
            for probe in probes {
                for _ in 0..12 {
                    let mut end = any_end(&table, probe, random);
                    let frames = (0..MOST_FRAMES).map(|_| any_frame(&table, probe, random).line());
                    reached.hear_in_orders(&mut end, &Vec::from_iter(frames), random);
                }
            }
        }
    }
    reached.assert_each_befell(90);
    reached.assert_heard([100, 100, 70]);
}

/// Frames damaged in their numbers or bytes, or the bag's bytes as a whole.
#[test]
fn damaged_bags() {
    let mut reached = Reached::default();
    each_table(135, 4_000, |table, random| {
        let probe = any_probe(table, random);
        let mut end = any_end(table, probe, random);
        for _ in 0..6 {
            let mut frames = any_bag(table, probe, random);
            let log = any_log(frames.len(), random);
            for _ in 0..random.below(3).min(frames.len()) {
                let damages = random.pick(&[[1, 0], [2, 0], [0, 1], [1, 1]]);
                let frame = any_frame(table, probe, random);
                let place = random.below(frames.len());
                frames[place] = damaged_line(frame, damages, table, random);
            }
            let mut bag = frames.concat();
            if random.one_in(4) {
                damage_line(&mut bag, random);
            }
            reached.heard += usize::from(reached.hear(&mut end, &bag, &log));
        }
    });
    reached.tally.assert_often(&[1, 2, 9, 23, 24, 26, 32]);
    reached.assert_each_befell(300);
    reached.assert_heard([2_500, 0, 0]);
}

/// The refusals of the table and of the record are those of resting, whatever the bag.
#[test]
fn damaged_tables_and_records() {
    let mut reached = Reached::default();
    each_table(136, 4_000, |table, random| {
        let short = random.short();
        let probe = any_probe(table, random);
        let probe = random.pick(&[probe, probe, probe, table.needs.len() as u16, short]);
        for _ in 0..4 {
            let mut end = any_end(table, probe, random);
            if random.one_in(2) {
                end.numbers = Numbers::damaged(table, random.below(2), random);
            }
            if random.one_in(2) {
                damage_record(&mut end, table, random);
            }
            let own = own_links(table, probe).first().copied().unwrap_or(0);
            let state = of_state(end.rests(own as u16).err());
            let bag = any_bag(table, probe, random).concat();
            let (log, before) = (any_log(MOST_FRAMES, random), end.maps.clone());
            let answer = end.hear_bag(&bag, &mut log.clone());
            assert_eq!(of_state(answer.as_ref().err().copied()), state);
            reached.tally.count_bag(&answer);
            end.maps = before;
        }
    });
    let numbers = [3, 4, 5, 8, 20, 21, 22, 24, 26, 32];
    reached.tally.assert_often(&numbers);
    reached.assert_each_befell(200);
}
