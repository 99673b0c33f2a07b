//! A fleet: bad records and lines, its events, restarts, random calls, and runs to the finish.

mod beside;
mod random;
mod refusals;
mod restarts;
mod rules;
mod runs;
mod states;

use planner_tests::compare_fleet::Fleet;
use planner_tests::ends::{Entry, What};
use planner_tests::fleet::with_marks;
use planner_tests::sites::marked;

/// M2: the links 0-1, 1-2 and 2-3, and each probe has a spare of 1.
fn m2() -> Fleet {
    Fleet::fresh(&marked(1))
}

fn m2_with(record: &[u8]) -> Fleet {
    Fleet::with(&marked(1), record)
}

/// With these bytes, four a link, and the marks that they ask for.
fn m2_with_bytes(bytes: &[u8]) -> Fleet {
    m2_with(&with_marks(bytes))
}

fn befell(probe: u16, what: What) -> Result<Entry, u8> {
    Ok(Entry { probe, what })
}
