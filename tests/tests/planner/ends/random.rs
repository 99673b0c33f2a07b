//! Random tables, records and frames, legal and damaged, for each call of an end.

use planner_tests::compare_ends::End;
use planner_tests::ends::{Kind, What, LINE};
use planner_tests::events::{
    any_frame, any_probe, any_room, befall, damage_record, damaged_line, each_table, fresh,
    of_state, own_links, reached,
};
use planner_tests::random::Random;
use planner_tests::reference::Table;
use planner_tests::sites::Numbers;
use planner_tests::tally::Tally;

/// Tables in a test, and frames heard for each.
const TABLES: u64 = 4_000;
const FRAMES: usize = 12;

/// A link's place: often an own one, else any or none.
fn any_link(table: &Table, probe: u16, random: &mut Random) -> u16 {
    let (own, links) = (own_links(table, probe), table.links.len());
    let (any, short) = (random.below(links + 1) as u16, random.short());
    let own = match own.is_empty() {
        true => any,
        false => random.pick(&own) as u16,
    };
    random.pick(&[own, own, own, own, any, links as u16, 0xffff, short])
}

/// Asks for both frames on a link, and whether it rests.
fn ask(end: &mut End, table: &Table, random: &mut Random) {
    let link = any_link(table, end.probe, random);
    let longer = LINE + random.below(20);
    let length = random.pick(&[LINE, LINE, LINE + 1, longer, LINE - 1, 0]);
    let rests = end.rests(link);
    for kind in Kind::BOTH {
        let asked = end.ask(kind, link, length);
        let expected = if length < LINE { Some(8) } else { rests.err() };
        assert_eq!(asked.err(), expected);
    }
}

/// Asks, opens and hears the line, each on the same record, and leaves that.
fn call(end: &mut End, line: &[u8], table: &Table, random: &mut Random) -> Result<What, u8> {
    let (free, before) = (any_room(random), end.maps.clone());
    ask(end, table, random);
    let opened = end.open(free);
    end.maps.clone_from(&before);
    let heard = end.hear(line, free);
    assert_eq!(of_state(opened.err()), of_state(heard.err()));
    end.maps = before;
    heard
}

/// A frame's line: right, or damaged in its numbers, its bytes or both.
fn any_line(table: &Table, probe: u16, random: &mut Random) -> Vec<u8> {
    let frame = any_frame(table, probe, random);
    let damages = random.pick(&[[0, 0], [1, 0], [2, 0], [0, 1], [1, 1], [0, 2]]);
    damaged_line(frame, damages, table, random)
}

#[test]
fn records_reached_and_frames_that_may_arrive() {
    let mut tally = Tally::default();
    each_table(7, TABLES, |table, random| {
        let probe = any_probe(table, random);
        let mut end = fresh(table, probe, random);
        for _ in 0..FRAMES {
            let line = any_frame(table, probe, random).line();
            tally.count(call(&mut end, &line, table, random));
            tally.count(befall(&mut end, table, random));
        }
    });
    assert_eq!(tally.refused[..24], [0; 24]);
    tally.assert_often(&[24, 26]);
    tally.assert_each_befell_an_end(300);
    assert!(tally.answers() > 50_000);
}

#[test]
fn damaged_frames() {
    let mut tally = Tally::default();
    each_table(8, TABLES, |table, random| {
        let probe = any_probe(table, random);
        let mut end = reached(table, probe, random);
        for _ in 0..FRAMES {
            let line = any_line(table, probe, random);
            tally.count(call(&mut end, &line, table, random));
        }
    });
    tally.assert_often(&[1, 2, 9, 23, 24, 26]);
    assert!(tally.answers() > 30_000);
}

#[test]
fn damaged_records() {
    let mut tally = Tally::default();
    each_table(9, TABLES, |table, random| {
        let probe = any_probe(table, random);
        let mut end = reached(table, probe, random);
        let maps = end.maps.clone();
        for _ in 0..FRAMES {
            for _ in 0..1 + random.below(2) {
                damage_record(&mut end, table, random);
            }
            let line = match random.one_in(2) {
                true => any_frame(table, probe, random).line(),
                false => any_line(table, probe, random),
            };
            tally.count(call(&mut end, &line, table, random));
            end.maps.clone_from(&maps);
        }
    });
    tally.assert_often(&[1, 2, 9, 20, 21, 22, 23, 24, 26]);
    assert!(tally.answers() > 30_000);
}

#[test]
fn damaged_tables() {
    let mut tally = Tally::default();
    each_table(10, TABLES, |table, random| {
        let short = random.short();
        let probe = any_probe(table, random);
        let probe = random.pick(&[probe, probe, probe, table.needs.len() as u16, short]);
        let mut end = End::fresh(table, probe);
        for _ in 0..FRAMES {
            let times = random.below(2);
            end.numbers = Numbers::damaged(table, times, random);
            let line = any_line(table, probe, random);
            tally.count(call(&mut end, &line, table, random));
            if random.one_in(2) {
                damage_record(&mut end, table, random);
            }
        }
    });
    tally.assert_often(&[3, 4, 5, 8, 20, 21, 24]);
    assert!(tally.answers() > 30_000);
}
