//! A lent log in the library, held to the entries that went into it.

use crate::buffer::Buffer;
use crate::ends::Entry;
use crate::ffi;
use crate::random::Random;
use std::slice;

/// A log that is lent from call to call. Beforehand each of its numbers is random, also in the used
/// places.
#[derive(Clone, Debug, PartialEq)]
pub struct Log {
    numbers: Buffer<u64>,
    pub used: usize,
    /// The answers of the calls that stored an entry, and where the first of them stands.
    answers: Vec<u64>,
    first: usize,
}

impl Log {
    /// So many entries, so many of them used.
    pub fn of(length: usize, used: usize, random: &mut Random) -> Log {
        Log {
            numbers: Buffer::filled(length, || random.word()),
            used,
            answers: Vec::new(),
            first: used,
        }
    }

    pub fn length(&self) -> usize {
        self.numbers.entries().len()
    }

    /// How many entries are free.
    pub fn free(&self) -> usize {
        self.length().saturating_sub(self.used)
    }

    /// Lends it to a call that is to store these entries behind the used ones, in their order; no
    /// other number changes. Hands back the call's answer.
    #[track_caller]
    pub fn lend_for(
        &mut self,
        entries: &[Entry],
        call: impl FnOnce(&mut [u64], usize) -> u64,
    ) -> u64 {
        let mut after = self.numbers.clone();
        let answer = call(self.numbers.lend(), self.used);
        for entry in entries {
            let number = ffi::entry_answer(&Ok(*entry));
            after.lend()[self.used] = number;
            self.used += 1;
            self.answers.push(number);
        }
        assert!(self.numbers == after, "another log");
        answer
    }

    /// Lends it to a call that is to answer this: an accepted one stores its entry.
    #[track_caller]
    pub fn lend(
        &mut self,
        expected: Result<Entry, u8>,
        call: impl FnOnce(&mut [u64], usize) -> u64,
    ) {
        let entries = expected.as_ref().map_or(&[][..], slice::from_ref);
        let answer = self.lend_for(entries, call);
        assert_eq!(answer, ffi::entry_answer(&expected));
    }

    /// Reads every entry that was stored, and that there is none past the used ones or past the
    /// log's end.
    #[track_caller]
    pub fn read(&self) {
        let (log, length) = (self.numbers.entries(), self.length());
        let read = |place: usize| ffi::log_entry(log, self.used, place);
        for (place, answer) in (self.first..).zip(&self.answers) {
            assert_eq!(read(place), *answer);
        }
        for place in [self.used, self.used + 1, self.used + length, usize::MAX] {
            assert_eq!(read(place), 0);
        }
        for place in [length, length + 1, usize::MAX - 1] {
            assert_eq!(ffi::log_entry(log, usize::MAX, place), 0);
        }
    }
}
