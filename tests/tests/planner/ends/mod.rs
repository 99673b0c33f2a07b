//! One end alone: bad records, frames and bags, the rules of an end, and random calls.

mod bad_bags;
mod bags;
mod maps;
mod random;
mod random_bags;
mod refusals;
mod rules;

use planner_tests::compare_ends::End;
use planner_tests::events::own_links;
use planner_tests::reference::Table;
use planner_tests::sites::marked;

/// Probe 1 of M2: its links 0-1 and 1-2 have places 0 and 1, and its spare is 1.
fn m2_end() -> End {
    End::fresh(&marked(1), 1)
}

/// With the maps of these bytes.
fn m2_end_with(record: &[u8]) -> End {
    End::with(&marked(1), 1, record)
}

/// M2 where probe 1 needs both its links.
fn without_spare() -> Table {
    let mut table = marked(1);
    table.needs[1] = 2;
    table
}

/// Every choice of so many digits below the base.
fn every_choice(count: u32, base: usize) -> impl Iterator<Item = Vec<u8>> {
    let digit = move |number: usize, place: u32| (number / base.pow(place) % base) as u8;
    (0..base.pow(count)).map(move |number| (0..count).map(|place| digit(number, place)).collect())
}

/// Every record with bytes up to 2 on the probe's own links.
fn every_record(table: &Table, probe: u16) -> impl Iterator<Item = Vec<u8>> {
    let (own, links) = (own_links(table, probe), table.links.len());
    every_choice(2 * own.len() as u32, 3).map(move |bytes| {
        let mut record = vec![0; 2 * links];
        for (place, two) in own.iter().zip(bytes.chunks_exact(2)) {
            record[2 * place..][..2].copy_from_slice(two);
        }
        record
    })
}
