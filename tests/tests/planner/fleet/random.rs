//! Random tables, records and lines, legal and damaged.

use planner_tests::channel::{any_bytes, any_frame, any_mix, any_opening, any_restart, Channel};
use planner_tests::compare_fleet::Fleet;
use planner_tests::events::{any_room, damaged_line, each_table, of_state};
use planner_tests::fleet::{permits, BYTES, MARKS};
use planner_tests::random::Random;
use planner_tests::reference::Table;
use planner_tests::sites::Numbers;
use planner_tests::tally::Tally;

/// Tables in a test, and lines for each.
const TABLES: u64 = 4_000;
const LINES: usize = 12;

/// A fresh fleet; often its slices have random entries beyond the table's own.
fn fresh(table: &Table, random: &mut Random) -> Fleet {
    let mut fleet = Fleet::fresh(table);
    fleet.numbers.lend_longer(random);
    fleet
}

/// Hears what the channel brings next; answers the last line of it.
fn hear_next(fleet: &mut Fleet, channel: &mut Channel, random: &mut Random) -> Vec<u8> {
    let mut last = Vec::new();
    for line in channel.next(random) {
        fleet.event(&line, 0, 1).ok();
        last = line;
    }
    last
}

/// An opening, a restart or a frame; with damage in its numbers, its bytes or both, or of any bytes.
fn any_line(table: &Table, damaged: bool, random: &mut Random) -> Vec<u8> {
    let (opening, frame) = (any_opening(table, random), any_frame(table, random));
    let restart = any_restart(table, random);
    let frame = random.pick(&[opening, opening, restart, frame, frame, frame]);
    if !damaged {
        return frame.line();
    }
    match random.pick(&[[1, 0], [2, 0], [0, 1], [1, 1], [0, 2], [0, 0]]) {
        [0, 0] => any_bytes(random),
        damages => damaged_line(frame, damages, table, random),
    }
}

/// Asks whether it is finished, hears the line on the same record, and leaves that. Answers whether
/// it is finished.
fn call(fleet: &mut Fleet, line: &[u8], tally: &mut Tally, random: &mut Random) -> bool {
    let before = fleet.record().to_vec();
    let used = random.pick(&[0, 1, 1023, 1024, 70_000]);
    let room = match random.one_in(16) {
        true => random.below(used + 1),
        false => used.saturating_add(any_room(random)),
    };
    let finished = fleet.finished();
    let answer = fleet.event(line, used, room);
    assert_eq!(finished.err(), of_state(answer.err()));
    tally.count(answer.map(|entry| entry.what));
    fleet.set_record(&before);
    finished == Ok(true)
}

#[test]
fn records_reached() {
    let (mut tally, mut finished) = (Tally::default(), 0);
    each_table(42, TABLES, |table, random| {
        let mut fleet = fresh(table, random);
        let mut channel = Channel::over(table, any_mix(random));
        for _ in 0..3 * LINES {
            for _ in 0..random.below(4) {
                hear_next(&mut fleet, &mut channel, random);
            }
            let before = fleet.record().to_vec();
            let next = hear_next(&mut fleet, &mut channel, random);
            let damaged = random.one_in(2);
            let any = any_line(table, damaged, random);
            let line = random.pick(&[&next, &next, &next, &any]);
            let after = fleet.record().to_vec();
            fleet.set_record(&before);
            finished += usize::from(call(&mut fleet, line, &mut tally, random));
            fleet.set_record(&after);
        }
    });
    tally.assert_often(&[1, 2, 9, 23, 24, 26, 27]);
    tally.assert_each_befell(200);
    assert!(finished > 300 && tally.answers() >= 120_000);
}

/// A record that 20, 21 and 22 let pass, whether a list of events leads to it or not.
fn any_record(table: &Table, random: &mut Random) -> Vec<u8> {
    let likely = random.pick(&[[0, 1, 2], [1, 1, 0], [1, 1, 2], [0, 2, 2]]);
    let mut left = [table.spares(), table.spares()];
    let mut record = vec![0; BYTES * table.links.len()];
    let start = random.below(table.links.len().max(1));
    for step in 0..table.links.len() {
        let place = (start + step) % table.links.len();
        let [low, high] = table.links[place].ends();
        for (at, probe) in [low, high, high, low].into_iter().enumerate() {
            let byte = random.pick(&likely);
            let left = &mut left[at % 2][probe];
            record[BYTES * place + at] = match byte {
                1 if *left == 0 => random.pick(&[0, 2]),
                _ => byte,
            };
            let byte = record[BYTES * place + at];
            *left -= usize::from(byte == 1);
            let mark = permits(at, byte) || random.one_in(2);
            record[BYTES * place + MARKS + at] = u8::from(mark);
        }
    }
    record
}

#[test]
fn records_from_outside() {
    let mut tally = Tally::default();
    each_table(43, TABLES, |table, random| {
        let mut fleet = fresh(table, random);
        for _ in 0..LINES {
            fleet.set_record(&any_record(table, random));
            let line = any_line(table, false, random);
            call(&mut fleet, &line, &mut tally, random);
        }
    });
    assert_eq!(tally.refused[..26], [0; 26]);
    tally.assert_often(&[26, 27]);
    tally.assert_each_befell(300);
    assert!(tally.answers() >= 40_000);
}

/// Makes the record one that 20, 21 or 22 may refuse.
fn damage_record(record: &mut Vec<u8>, random: &mut Random) {
    let any = random.byte();
    let links = record.len() / BYTES;
    let at = random.below(MARKS);
    let byte = BYTES * random.below(links.max(1)) + at;
    match random.below(24) {
        0 => drop(record.pop()),
        1 => record.push(random.pick(&[0, 1, any])),
        2 => record.resize(MARKS * links, 0),
        3 => record.resize(random.below(record.len() + 9), 0),
        _ if links == 0 => record.push(1),
        4 | 5 => record[byte] = random.pick(&[3, 3, 255, any]),
        6 | 7 => record[byte + MARKS] = random.pick(&[2, 2, 255, any]),
        // A byte that permits its frame, without its mark.
        8 | 9 => (record[byte], record[byte + MARKS]) = ([1, 2][at % 2], 0),
        _ => (record[byte], record[byte + MARKS]) = (1, 1),
    }
}

#[test]
fn damaged_records() {
    let mut tally = Tally::default();
    each_table(44, TABLES, |table, random| {
        let mut fleet = fresh(table, random);
        for _ in 0..LINES {
            let mut record = any_record(table, random);
            (0..1 + random.below(2)).for_each(|_| damage_record(&mut record, random));
            fleet.set_record(&record);
            let damaged = random.one_in(2);
            let line = any_line(table, damaged, random);
            call(&mut fleet, &line, &mut tally, random);
        }
    });
    tally.assert_often(&[1, 2, 9, 20, 21, 22, 23, 24, 26, 27]);
    assert!(tally.answers() >= 40_000);
}

#[test]
fn damaged_tables() {
    let mut tally = Tally::default();
    each_table(45, TABLES, |table, random| {
        let mut fleet = Fleet::fresh(table);
        for _ in 0..LINES {
            let times = random.below(2);
            fleet.numbers = Numbers::damaged(table, times, random);
            let line = any_line(table, true, random);
            call(&mut fleet, &line, &mut tally, random);
            if random.one_in(2) {
                let mut record = fleet.record().to_vec();
                damage_record(&mut record, random);
                fleet.set_record(&record);
            }
        }
    });
    tally.assert_often(&[3, 4, 5, 8, 20, 21]);
    assert!(tally.answers() >= 40_000);
}
