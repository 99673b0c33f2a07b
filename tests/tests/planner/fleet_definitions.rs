//! Without the library: the second implementations of fleet and script, by 01's and 02's samples.

use planner_tests::channel::{any_mix, opening, Channel};
use planner_tests::ends::{self, Entry, Frame, Kind, What, LINE};
use planner_tests::events::each_table;
use planner_tests::fleet::{changes, own_record, Site, BYTES};
use planner_tests::reach::{Reach, Reached};
use planner_tests::reference::Table;
use planner_tests::samples::{self, input, M11, M11_PRINTED, M4, M4_PRINTED};
use planner_tests::samples::{LATE, LATE_BEFORE, LATE_PRINTED, LATE_SCRIPT};
use planner_tests::samples::{RESTARTED, RESTARTED_PRINTED, VALLEY, VALLEY_PRINTED, VALLEY_SCRIPT};
use planner_tests::script::{output, Script};
use planner_tests::sites::{every_order_of_three, Numbers};
use std::collections::BTreeSet;

#[test]
fn m4() {
    assert_eq!(output(&input(3, &M4)), samples::text(&M4_PRINTED));
}

#[test]
fn m11() {
    assert_eq!(output(&input(1, &M11)), samples::text(&M11_PRINTED));
}

#[test]
fn valley() {
    let input = [VALLEY.as_slice(), &VALLEY_SCRIPT]
        .map(samples::text)
        .concat();
    assert_eq!(output(&input), samples::text(&VALLEY_PRINTED));
}

#[test]
fn late_frame() {
    for (events, last) in [(4, LATE_BEFORE), (5, LATE_PRINTED[5])] {
        let input = [LATE.as_slice(), &LATE_SCRIPT[..events]];
        let printed = [&LATE_PRINTED[..events], &[last]].concat();
        assert_eq!(
            output(&input.map(samples::text).concat()),
            samples::text(&printed)
        );
    }
}

#[test]
fn restarted() {
    let printed = samples::text(&RESTARTED_PRINTED);
    assert_eq!(output(&input(1, &RESTARTED)), printed);
}

/// What the end that opens or hears does alone, and its record after; one that restarts is fresh.
fn alone(table: &Table, line: &[u8], record: &[u8]) -> (Result<Entry, u8>, Vec<u8>) {
    let numbers = Numbers::of(table);
    let frame = Frame::of_line(line).expect("an accepted line");
    let mut own = own_record(table, frame.to, record);
    let probe = frame.to;
    let answer = match frame.kind {
        0 => ends::open(numbers.slices(), probe, &mut own, 1),
        3 => {
            own.fill(0);
            let what = What::Restarted;
            Ok(Entry { probe, what })
        }
        _ => ends::hear(numbers.slices(), probe, &mut own, line, 1),
    };
    (answer, own)
}

#[test]
fn fleet_beside_its_ends() {
    let mut accepted = 0;
    each_table(90, 1_000, |table, random| {
        let site = Site::of_legal(table.clone());
        let mut record = vec![0; BYTES * table.links.len()];
        let mut channel = Channel::over(table, any_mix(random));
        for line in (0..60).flat_map(|_| channel.next(random)) {
            let before = record.clone();
            let answer = site.event(&mut record, &line, 0, 1);
            let Ok(entry) = answer else {
                assert_eq!(record, before);
                continue;
            };
            let restarted = entry.what == What::Restarted;
            assert!(restarted || changes(&before, &record) == entry.what.changes());
            let own = own_record(table, entry.probe, &record);
            assert_eq!(alone(table, &line, &before), (answer, own));
            accepted += 1;
        }
    });
    assert!(accepted > 30_000, "{accepted}");
}

#[test]
fn script_counts_the_bytes_that_differ() {
    let mut changed = 0;
    each_table(92, 300, |table, random| {
        let mut script = Script::fresh(table.clone());
        let mut channel = Channel::over(table, any_mix(random));
        let mut differ = 0;
        for line in (0..300).flat_map(|_| channel.next(random)) {
            let before = script.record.clone();
            let befell = script.line(&line).map(|entry| entry.what);
            if befell != Ok(What::Restarted) {
                differ += changes(&before, &script.record);
            }
        }
        assert_eq!(script.changed, differ);
        changed += differ;
    });
    assert!(changed > 5_000, "{changed}");
}

/// Every opening, and every frame that the end asked for it writes.
fn sendable(table: &Table, record: &[u8]) -> Vec<Vec<u8>> {
    let numbers = Numbers::of(table);
    let mut lines = Vec::new();
    for probe in 0..numbers.probes {
        lines.push(opening(table, probe).line());
        let own = own_record(table, probe, record);
        for link in 0..numbers.links {
            for kind in Kind::BOTH {
                let mut line = vec![0; LINE];
                let asked = ends::ask(numbers.slices(), probe, &own, kind, link, &mut line);
                lines.extend((asked == Ok(true)).then_some(line));
            }
        }
    }
    lines
}

/// `finished` is what trying every opening and every frame that may be sent shows.
#[test]
fn finished_as_defined() {
    let mut times = [0, 0];
    each_table(91, 600, |table, random| {
        if table.links.len() > 40 {
            return;
        }
        let site = Site::of_legal(table.clone());
        let mut record = vec![0; BYTES * table.links.len()];
        let mut channel = Channel::over(table, any_mix(random));
        let events = random.below(300);
        for line in (0..events).flat_map(|_| channel.next(random)) {
            site.event(&mut record, &line, 0, 1).ok();
        }
        let alters = sendable(table, &record).iter().any(|line| {
            let mut after = record.clone();
            site.event(&mut after, line, 0, 1).expect("may be sent");
            changes(&record, &after) > 0
        });
        assert_eq!(site.finished(&record), !alters);
        times[usize::from(alters)] += 1;
    });
    assert!(times.iter().all(|&times| times > 50), "{times:?}");
}

/// By what the ends could be asked for so far: a frame that passes the checks before 27 is refused by
/// it exactly when no end could ever send it.
#[test]
fn frames_go_by_what_could_once_be_sent() {
    let (mut times, mut late) = ([0, 0], 0);
    each_table(93, 400, |table, random| {
        if table.links.len() > 40 {
            return;
        }
        let site = Site::of_legal(table.clone());
        let mut record = vec![0; BYTES * table.links.len()];
        let mut channel = Channel::over(table, any_mix(random));
        let mut sent: BTreeSet<Vec<u8>> = BTreeSet::new();
        for line in (0..60).flat_map(|_| channel.next(random)) {
            let now = sendable(table, &record);
            let known = |line: &Vec<u8>| now.contains(line);
            sent.extend(now.iter().cloned());
            let answer = site.event(&mut record, &line, 0, 1);
            let is_frame = line.starts_with(b"01") || line.starts_with(b"02");
            if is_frame && matches!(answer, Ok(_) | Err(27)) {
                assert_eq!(answer.is_ok(), sent.contains(&line));
                times[usize::from(answer.is_ok())] += 1;
                late += usize::from(answer.is_ok() && !known(&line));
            }
        }
    });
    let reached = (times, late);
    assert!(
        times.iter().all(|&times| times > 1_000) && late > 300,
        "{reached:?}"
    );
}

/// Demand 3's claims of every record, with restarts, on three probes with every set of links in every
/// order of their costs.
#[test]
fn every_record_of_three_probes() {
    let mut reached = Reached::default();
    every_order_of_three(|table| {
        let site = &mut Site::of_legal(table.clone());
        reached.add(Reach::of(table, true, site).check());
    });
    assert_eq!([reached.records, reached.finished], [426_633, 5_823]);
}
