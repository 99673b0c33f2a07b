//! A fleet in the library and the second implementation, compared with its record.

use crate::buffer::Buffer;
use crate::compare::assert_same;
use crate::ends::{Entry, What};
use crate::ffi;
use crate::fleet::{self, own_record, permits, Site, BYTES, MARKS};
use crate::random::Random;
use crate::reference::{table_of_slices, Caller, Slices, Table};
use crate::sites::Numbers;

/// By 02 a mark says that the frame which its byte permits could once have been sent. So after an
/// event it is 1 exactly if it was before or its byte now permits the frame.
#[track_caller]
pub fn assert_marked([before, after]: [&[u8]; 2]) {
    for (before, after) in before.chunks_exact(BYTES).zip(after.chunks_exact(BYTES)) {
        for at in 0..MARKS {
            let mark = before[MARKS + at] == 1 || permits(at, after[at]);
            assert_eq!(after[MARKS + at], u8::from(mark));
        }
    }
}

/// What an accepted event may alter: a restart wipes the probe's own bytes and no others.
#[track_caller]
fn assert_altered(given: Slices, entry: Entry, [before, after]: [&[u8]; 2]) {
    assert_marked([before, after]);
    if entry.what != What::Restarted {
        assert_eq!(fleet::changes(before, after), entry.what.changes());
        return;
    }
    let table = table_of_slices(Caller::Full, given).expect("a legal table");
    let own = [before, after].map(|record| own_record(&table, entry.probe, record));
    assert!(own[1].iter().all(|&byte| byte == 0));
    let wiped = own[0].iter().filter(|&&byte| byte != 0).count();
    assert_eq!(fleet::changes(before, after), wiped);
}

/// A fleet and its record, which each accepted event alters. A call hands back what both agree on.
pub struct Fleet {
    pub numbers: Numbers,
    /// The library's and the second implementation's.
    records: [Buffer<u8>; 2],
    random: Random,
}

impl Fleet {
    pub fn fresh(table: &Table) -> Fleet {
        Fleet::with(table, &vec![0; BYTES * table.links.len()])
    }

    pub fn with(table: &Table, record: &[u8]) -> Fleet {
        let mut random = Random::new(record.len() as u64);
        let lent = Buffer::holding(record, || random.byte());
        Fleet {
            numbers: Numbers::of(table),
            records: [lent.clone(), lent],
            random,
        }
    }

    pub fn record(&self) -> &[u8] {
        self.records[0].entries()
    }

    /// Also one of another length.
    pub fn set_record(&mut self, record: &[u8]) {
        let lent = Buffer::holding(record, || self.random.byte());
        self.records = [lent.clone(), lent];
    }

    /// Hears a line, of any bytes; a refusal changes no byte.
    #[track_caller]
    pub fn event(&mut self, line: &[u8], used: usize, room: usize) -> Result<Entry, u8> {
        self.befall(line, used, room, |given, record| {
            fleet::event(given, record, line, used, room)
        })
    }

    /// The same on a record that events led to, with the table checked already: in a large site
    /// the second implementation then takes less time.
    #[track_caller]
    pub fn event_on(&mut self, site: &Site, line: &[u8], used: usize) -> Result<Entry, u8> {
        let room = used + 1;
        self.befall(line, used, room, |_, record| {
            site.event(record, line, used, room)
        })
    }

    #[track_caller]
    fn befall(
        &mut self,
        line: &[u8],
        used: usize,
        room: usize,
        reference: impl Fn(Slices, &mut [u8]) -> Result<Entry, u8>,
    ) -> Result<Entry, u8> {
        let given = self.numbers.slices();
        let before = self.records[0].clone();
        let [by_library, by_reference] = &mut self.records;
        let answer = ffi::fleet_event(given, by_library.lend(), line, used, room);
        let result = reference(given, by_reference.lend());
        assert_same(
            "fleet event",
            [answer, ffi::entry_answer(&result)],
            [by_library, by_reference],
        );
        let records = [before.entries(), by_library.entries()];
        match result {
            Ok(entry) => assert_altered(given, entry, records),
            Err(_) => assert!(*by_library == before),
        }
        result
    }

    #[track_caller]
    pub fn finished(&self) -> Result<bool, u8> {
        let (given, lent) = (self.numbers.slices(), self.records[0].clone());
        let answer = ffi::fleet_finished(given, lent.entries());
        let result = fleet::finished(given, self.records[1].entries());
        assert_same(
            "fleet finished",
            [answer, ffi::yes_answer(&result)],
            [&lent, &self.records[1]],
        );
        result
    }
}
