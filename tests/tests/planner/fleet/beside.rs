//! Each end alone, on the maps of its own bytes of the fleet's record, does what the fleet does.

use planner_tests::channel::{any_mix, Channel};
use planner_tests::compare_ends::End;
use planner_tests::compare_fleet::Fleet;
use planner_tests::ends::{Entry, Frame, Kind, What, LINE};
use planner_tests::events::each_table;
use planner_tests::fleet::own_record;
use planner_tests::maps::OwnMaps;
use planner_tests::random::Random;
use planner_tests::reference::Table;

fn end_of(table: &Table, probe: u16, record: &[u8]) -> End {
    End::with(table, probe, &own_record(table, probe, record))
}

/// The end that opens or hears does the same alone. One that restarts is fresh; it knows no such
/// frame.
#[track_caller]
fn same_alone(table: &Table, before: &[u8], line: &[u8], entry: Entry, after: &[u8]) {
    let mut end = end_of(table, entry.probe, before);
    let kind = Frame::of_line(line).map(|frame| frame.kind);
    let alone = match kind {
        Ok(0) => end.open(1),
        Ok(3) => {
            assert_eq!(end.hear(line, 1), Err(9));
            end = End::fresh(table, entry.probe);
            Ok(What::Restarted)
        }
        _ => end.hear(line, 1),
    };
    assert_eq!(alone, Ok(entry.what));
    let own = own_record(table, entry.probe, after);
    assert_eq!(end.maps, OwnMaps::turned(&own));
}

/// A frame may be sent exactly when its end writes it; the fleet accepts it then.
#[track_caller]
fn asked(table: &Table, record: &[u8], random: &mut Random) -> usize {
    let mut written = 0;
    let place = random.below(table.links.len());
    for end in table.links[place].ends() {
        for kind in Kind::BOTH {
            let line = end_of(table, end as u16, record).ask(kind, place as u16, LINE);
            if let Some(line) = line.expect("an end of the link") {
                assert!(Fleet::with(table, record).event(&line, 0, 1).is_ok());
                written += 1;
            }
        }
    }
    written
}

#[test]
fn ends_beside_the_fleet() {
    let (mut accepted, mut restarted, mut written) = (0, 0, 0);
    each_table(40, 600, |table, random| {
        let mut fleet = Fleet::fresh(table);
        let mut channel = Channel::over(table, any_mix(random));
        for _ in 0..40 {
            for line in channel.next(random) {
                let before = fleet.record().to_vec();
                if let Ok(entry) = fleet.event(&line, 0, 1) {
                    same_alone(table, &before, &line, entry, fleet.record());
                    accepted += 1;
                    restarted += usize::from(entry.what == What::Restarted);
                }
            }
            if !table.links.is_empty() {
                written += asked(table, fleet.record(), random);
            }
        }
    });
    let reached = [accepted, restarted, written];
    assert!(
        accepted > 10_000 && restarted > 300 && written > 3_000,
        "{reached:?}"
    );
}
