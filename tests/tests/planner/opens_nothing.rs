//! 02's "Two kinds of quiet": an opening that opens nothing says 01 where the offers standing equal
//! the spare, and otherwise 07, every link tried.

use crate::programs::{run, WHOLE};
use planner_tests::buffer::Buffer;
use planner_tests::compare_ends::End;
use planner_tests::compare_fleet::Fleet;
use planner_tests::compare_log::Log;
use planner_tests::compare_script::{in_pieces, text, Pieces};
use planner_tests::ends::{Entry, What};
use planner_tests::events::own_links;
use planner_tests::ffi;
use planner_tests::fleet::{own_record, with_marks, without_marks, Site, MARKS};
use planner_tests::lines::{offer, opening, refusal};
use planner_tests::maps::OwnMaps;
use planner_tests::random::Random;
use planner_tests::reference::{table_of_text, Behind, Caller, Table};
use planner_tests::samples::{self, VALLEY};
use planner_tests::script::{Script, LOG};
use planner_tests::sites::{every_table, marked, site};

/// A site, the lines of a script for it, and a probe that opens behind them.
struct Case {
    table: Table,
    lines: Vec<Vec<u8>>,
    probe: u16,
}

impl Case {
    /// The fleet's record behind the lines, each of which is accepted.
    fn record(&self) -> Vec<u8> {
        let mut script = Script::fresh(self.table.clone());
        for line in &self.lines {
            assert!(script.line(line).is_ok());
        }
        script.record
    }

    /// Every caller of an opening says this, alters no record and counts no change.
    #[track_caller]
    fn says(&self, what: What) {
        let entry = Entry {
            probe: self.probe,
            what,
        };
        let record = self.record();
        let own = own_record(&self.table, self.probe, &record);
        end_says(&self.table, &own, entry);
        fleet_says(&self.table, &record, entry);
        piece_says(&self.table, &record, entry);
        script_says(self, entry);
    }
}

/// The entry's line by 01 and 02 alone.
fn printed(entry: Entry) -> String {
    let code = match entry.what {
        What::Enough => "01",
        What::AllTried => "07",
        other => panic!("{other:?} is not an opening that opens nothing"),
    };
    format!("{:04x}{code}ffffffff", entry.probe)
}

/// An end alone, without a log and with one.
#[track_caller]
fn end_says(table: &Table, own: &[u8], entry: Entry) {
    let mut end = End::with(table, entry.probe, own);
    assert_eq!(end.open(0), Err(26));
    assert_eq!(end.open(1), Ok(entry.what));
    assert_eq!(end.record(), own);
    let mut log = Log::of(5, 2, &mut Random::new(110));
    log.lend(Ok(entry), |log, used| {
        ffi::probe_open_logged(end.numbers.slices(), end.probe, end.maps.lend(), log, used)
    });
    log.read();
    assert_eq!(end.record(), own);
}

/// A fleet, without a log and with one; whether it is finished stays.
#[track_caller]
fn fleet_says(table: &Table, record: &[u8], entry: Entry) {
    let line = opening(entry.probe);
    let mut fleet = Fleet::with(table, record);
    let finished = fleet.finished();
    assert_eq!(fleet.event(&line, 1, 1), Err(26));
    assert_eq!(fleet.event(&line, 0, 1), Ok(entry));
    assert_eq!(fleet.record(), record);
    assert_eq!(fleet.finished(), finished);
    let (mut log, mut after) = (Log::of(5, 2, &mut Random::new(111)), record.to_vec());
    log.lend(Ok(entry), |log, used| {
        ffi::fleet_event_logged(fleet.numbers.slices(), &mut after, &line, log, used)
    });
    log.read();
    assert_eq!(after, record);
}

/// A piece of a script, on a record that was lent.
#[track_caller]
fn piece_says(table: &Table, record: &[u8], entry: Entry) {
    let random = &mut Random::new(112);
    let (line, expected) = (opening(entry.probe), samples::text(&[&printed(entry)]));
    let mut pieces = Pieces::fresh(table, random);
    pieces.record = Buffer::holding(record, || 7);
    let answer = pieces.piece(&line, expected.len(), random);
    assert_eq!(answer, Ok(expected));
    assert_eq!(pieces.record.entries(), record);
    assert_eq!([pieces.used(), pieces.changed()], [1, 0]);
}

/// The whole script as a text, in pieces and through the program: the opening adds its line, and the
/// last line stays.
#[track_caller]
fn script_says(case: &Case, entry: Entry) {
    let random = &mut Random::new(113);
    let before = case.lines.concat();
    let script = [&before[..], &opening(case.probe)].concat();
    let input = [case.table.text(), script.clone()].concat();
    let without = text(&[case.table.text(), before].concat(), random);
    let mut lines: Vec<&[u8]> = without.split_inclusive(|&byte| byte == b'\n').collect();
    let line = samples::text(&[&printed(entry)]);
    lines.insert(case.lines.len(), &line);
    let expected = lines.concat();
    assert_eq!(text(&input, random), expected);
    for size in [1, 15, 40] {
        assert_eq!(
            in_pieces(&case.table, script.chunks(size), random),
            expected
        );
    }
    assert_eq!(run("script", &input, &WHOLE), expected);
}

/// Probe 0 of a site with the links 0-1 at 5 and 0-2 at 6. A neighbour with a need refuses its offer.
fn forked(needs: [u16; 3], lines: Vec<Vec<u8>>) -> Case {
    Case {
        table: site(&[[0, 1, 5], [0, 2, 6]], &needs),
        lines,
        probe: 0,
    }
}

/// Probe 0 of that site offers 0-2, which is refused, then 0-1.
fn one_refused() -> Vec<Vec<u8>> {
    vec![opening(0), offer(0, 2), refusal(2, 0), opening(0)]
}

/// Probe 1 of M5 offers its one link, and learns that it is refused.
fn m5_refused() -> Case {
    Case {
        table: marked(4),
        lines: vec![opening(1), offer(1, 0), refusal(0, 1)],
        probe: 1,
    }
}

fn after_m11(probe: u16) -> Case {
    Case {
        table: marked(1),
        lines: samples::M11.map(|line| samples::text(&[line])).to_vec(),
        probe,
    }
}

/// All links needed, no link, no link and a need of 2, and short probes.
#[test]
fn spare_0_is_enough() {
    let valley = table_of_text(Caller::Full, &samples::text(&VALLEY), Behind::Nothing);
    let valley = valley.expect("a legal table");
    for (table, probe) in [
        (marked(4), 0),
        (marked(2), 0),
        (site(&[[0, 2, 7]], &[0, 0, 0]), 1),
        (site(&[], &[2]), 0),
        (site(&[[0, 1, 5], [1, 2, 6]], &[0, 2, 0]), 1),
        (site(&[[0, 1, 5], [1, 2, 6]], &[0, 3, 0]), 1),
        (valley, 1),
    ] {
        assert_eq!(table.spares()[usize::from(probe)], 0);
        let case = Case {
            table,
            lines: Vec::new(),
            probe,
        };
        case.says(What::Enough);
    }
}

/// No list of events leads there, but 20 to 22 let the record pass.
#[test]
fn every_link_refused_goes_by_the_spare() {
    for (probe, what) in [(0, What::AllTried), (1, What::Enough), (2, What::AllTried)] {
        for need in [2, 3, 65_535] {
            let table = site(&[[0, 1, 5], [1, 2, 6]], &[0, need, 0]);
            let record = with_marks(&[2, 0, 2, 0, 2, 0, 2, 0]);
            let entry = Entry { probe, what };
            end_says(&table, &own_record(&table, probe, &record), entry);
            fleet_says(&table, &record, entry);
            piece_says(&table, &record, entry);
        }
    }
}

#[test]
fn all_refused_is_all_tried() {
    m5_refused().says(What::AllTried);
    // Both links of a probe with spare 2.
    let lines = [one_refused(), vec![offer(0, 1), refusal(1, 0)]].concat();
    forked([0, 1, 1], lines).says(What::AllTried);
    // Each has one link.
    for probe in [0, 3] {
        after_m11(probe).says(What::AllTried);
    }
}

/// One stands, of a spare of 2.
#[test]
fn fewer_standing_and_the_rest_refused_is_all_tried() {
    let case = forked([0, 0, 1], one_refused());
    assert_eq!(without_marks(&case.record()), [1, 0, 0, 0, 2, 2, 0, 0]);
    case.says(What::AllTried);
}

/// M2's probe 1 has offered 1-2 and not 0-1. After M11 that still holds, and probe 2 has offered 1-2
/// and not 2-3.
#[test]
fn spare_standing_with_a_link_untried_is_enough() {
    let case = Case {
        table: marked(1),
        lines: vec![opening(1)],
        probe: 1,
    };
    case.says(What::Enough);
    for probe in [1, 2] {
        after_m11(probe).says(What::Enough);
    }
}

/// Every link stands, or all but the refused ones do.
#[test]
fn spare_standing_with_none_untried_is_enough() {
    let m4 = Case {
        table: marked(3),
        lines: vec![opening(0)],
        probe: 0,
    };
    m4.says(What::Enough);
    forked([0, 0, 1], vec![opening(0), opening(0)]).says(What::Enough);
    let case = forked([1, 0, 1], one_refused());
    assert_eq!(without_marks(&case.record()), [1, 0, 0, 0, 2, 2, 0, 0]);
    case.says(What::Enough);
}

/// Openings of a probe that has tried every link take entries of the log too.
#[test]
fn log_full_of_all_tried() {
    let case = m5_refused();
    let script = [case.lines.concat(), opening(1).repeat(1_100)].concat();
    let output = text(&[case.table.text(), script].concat(), &mut Random::new(114));
    let tried = LOG - case.lines.len();
    let behind = [
        "000107ffffffff\n".repeat(tried),
        "e026\n".repeat(1_100 - tried),
        "0100000003\n".to_owned(),
    ];
    assert!(output.ends_with(behind.concat().as_bytes()));
    assert_eq!(output.len(), 3 * 15 + behind.concat().len());
}

/// Bytes from 0 to 2, so many of them, in every choice.
fn every_choice(length: usize) -> impl Iterator<Item = Vec<u8>> {
    let digit = |choice: usize, place: usize| (choice / 3_usize.pow(place as u32) % 3) as u8;
    let bytes = move |choice| (0..length).map(|place| digit(choice, place)).collect();
    (0..3_usize.pow(length as u32)).map(bytes)
}

/// How many openings opened, and said 01, and 07.
#[derive(Debug, Default, PartialEq)]
struct Counted {
    opened: usize,
    enough: usize,
    all_tried: usize,
}

impl Counted {
    /// Holds an answer to 02's sentence, by the probe's outbound bytes before; whether the record
    /// changed comes with it.
    #[track_caller]
    fn count(&mut self, what: What, outbound: &[u8], spare: usize, changed: bool) {
        let standing = outbound.iter().filter(|&&byte| byte == 1).count();
        assert_eq!(changed, matches!(what, What::Opened(_)));
        assert_eq!(changed, standing < spare && outbound.contains(&0));
        match what {
            What::Opened(_) => self.opened += 1,
            _ if standing == spare => {
                assert_eq!(what, What::Enough);
                self.enough += 1;
            }
            _ => {
                assert_eq!(what, What::AllTried);
                self.all_tried += 1;
            }
        }
    }
}

/// Every record of every end that 20 to 22 let pass, on every table of three probes with costs 0 and
/// 1 and needs up to two above the links.
#[test]
fn every_record_of_an_end() {
    let mut counted = Counted::default();
    every_table(3, 2, |table| {
        for (probe, spare) in (0..3).zip(table.spares()) {
            let own = own_links(table, probe);
            let mut end = End::fresh(table, probe);
            for bytes in every_choice(2 * own.len()) {
                let outbound: Vec<u8> = bytes.iter().copied().step_by(2).collect();
                let mut record = vec![0; 2 * table.links.len()];
                for (place, two) in own.iter().zip(bytes.chunks_exact(2)) {
                    record[2 * place..][..2].copy_from_slice(two);
                }
                end.maps = OwnMaps::turned(&record);
                match end.open(1) {
                    Ok(what) => {
                        let changed = end.record() != record;
                        counted.count(what, &outbound, spare, changed);
                    }
                    refused => assert_eq!(refused, Err(22)),
                }
            }
        }
    });
    let expected = Counted {
        opened: 56_520,
        enough: 80_217,
        all_tried: 29_592,
    };
    assert_eq!(counted, expected);
}

/// Every record of a fleet that 20 to 22 let pass, on three probes with three links and spares of 2,
/// 1 and 0. Of 9, 8 and 4 choices of a probe's two outbound bytes, 5, 3 and 0 open, 1, 4 and 4 are
/// enough, 3, 1 and 0 all tried.
#[test]
fn every_record_of_a_fleet() {
    let table = site(&[[0, 1, 1], [0, 2, 2], [1, 2, 3]], &[0, 1, 2]);
    assert_eq!(table.spares(), [2, 1, 0]);
    let checks = Site::of_legal(table.clone());
    let mut fleet = Fleet::fresh(&table);
    let (mut records, mut counted) = (0, Counted::default());
    for bytes in every_choice(MARKS * table.links.len()) {
        let record = with_marks(&bytes);
        if checks.check_record(&record).is_err() {
            continue;
        }
        records += 1;
        for (probe, spare) in (0..3).zip(table.spares()) {
            fleet.set_record(&record);
            let entry = fleet.event(&opening(probe), 0, 1).expect("an opening");
            assert_eq!(entry.probe, probe);
            let own = own_record(&table, probe, &record);
            let outbound = own_links(&table, probe)
                .into_iter()
                .map(|place| own[2 * place]);
            let outbound: Vec<u8> = outbound.collect();
            counted.count(entry.what, &outbound, spare, fleet.record() != record);
        }
    }
    assert_eq!(records, 82_944);
    let expected = Counted {
        opened: 77_184,
        enough: 133_632,
        all_tried: 38_016,
    };
    assert_eq!(counted, expected);
}
