//! One end in the library and the second implementation, compared with every buffer.

use crate::buffer::Buffer;
use crate::compare::assert_same;
use crate::compare_log::Log;
use crate::ends::{self, differ, Entry, Kind, What, LINE};
use crate::ffi;
use crate::maps::{self, words, Four, LentMaps, Maps, OwnMaps, MAPS};
use crate::random::Random;
use crate::reference::Table;
use crate::sites::Numbers;

/// Each map is lent in a buffer of its own.
pub type Buffers = Four<Buffer<u64>>;

impl Buffers {
    /// Copies of the maps between random margins.
    pub fn holding(maps: Maps, random: &mut Random) -> Buffers {
        maps.map(|map| Buffer::holding(map, || random.word()))
    }

    /// Random words, so many for each map.
    pub fn filled(lengths: [usize; MAPS], random: &mut Random) -> Buffers {
        Four::of(lengths).map(|length| Buffer::filled(length, || random.word()))
    }

    pub fn entries(&self) -> Maps<'_> {
        self.each_ref().map(Buffer::entries)
    }

    pub fn lend(&mut self) -> LentMaps<'_> {
        self.each_mut().map(Buffer::lend)
    }

    fn kept_beyond(&self, count: usize, before: &Buffers) -> bool {
        let both = self.each_ref().array().into_iter();
        let mut both = both.zip(before.each_ref().array());
        both.all(|(after, before)| after.kept_beyond(count, before))
    }
}

/// An end and its record, which each accepted event alters. A call hands back what both agree on.
pub struct End {
    pub numbers: Numbers,
    pub probe: u16,
    pub maps: OwnMaps,
    random: Random,
}

impl End {
    pub fn fresh(table: &Table, probe: u16) -> End {
        End {
            numbers: Numbers::of(table),
            probe,
            maps: OwnMaps::fresh(table.links.len()),
            random: Random::new(probe.into()),
        }
    }

    /// With the maps of these bytes.
    pub fn with(table: &Table, probe: u16, record: &[u8]) -> End {
        let mut end = End::fresh(table, probe);
        end.maps = OwnMaps::turned(record);
        end
    }

    /// The bytes that the maps stand for.
    pub fn record(&self) -> Vec<u8> {
        self.maps.slices().turned(self.numbers.links.into())
    }

    /// Lends the maps to an event; a refusal changes no word.
    #[track_caller]
    fn befall(
        &mut self,
        call: &str,
        library: impl Fn(&End, LentMaps) -> u64,
        reference: impl Fn(&End, LentMaps) -> Result<Entry, u8>,
    ) -> Result<What, u8> {
        let before = Buffers::holding(self.maps.slices(), &mut self.random);
        let (mut by_library, mut by_reference) = (before.clone(), before.clone());
        let answer = library(self, by_library.lend());
        let result = reference(self, by_reference.lend());
        assert_same(
            call,
            [answer, ffi::entry_answer(&result)],
            [&by_library, &by_reference],
        );
        match result {
            Ok(entry) => {
                assert_eq!(entry.probe, self.probe);
                let record = self.record();
                self.maps = by_library.entries().map(<[u64]>::to_vec);
                let changes = differ(&record, &self.record());
                assert_eq!(changes, entry.what.changes(), "{call}");
            }
            Err(_) => assert!(by_library == before, "{call}"),
        }
        result.map(|entry| entry.what)
    }

    #[track_caller]
    pub fn open(&mut self, free: usize) -> Result<What, u8> {
        self.befall(
            "open",
            |end, lent| ffi::probe_open(end.numbers.slices(), end.probe, lent, free),
            |end, lent| maps::open(end.numbers.slices(), end.probe, lent, free),
        )
    }

    #[track_caller]
    pub fn hear(&mut self, line: &[u8], free: usize) -> Result<What, u8> {
        self.befall(
            "hear",
            |end, lent| ffi::probe_hear(end.numbers.slices(), end.probe, lent, line, free),
            |end, lent| maps::hear(end.numbers.slices(), end.probe, lent, line, free),
        )
    }

    /// Hears a bag with a lent log; hands back what befell with each frame. A refused bag changes no
    /// word of the maps and no entry of the log.
    #[track_caller]
    pub fn hear_bag(&mut self, bag: &[u8], log: &mut Log) -> Result<Vec<What>, u8> {
        let before = Buffers::holding(self.maps.slices(), &mut self.random);
        let (mut by_library, mut by_reference) = (before.clone(), before.clone());
        let lent = Buffer::holding(bag, || self.random.byte());
        let (given, probe) = (self.numbers.slices(), self.probe);
        let (same, log_before) = (lent.clone(), log.clone());
        let result = maps::hear_bag(given, probe, by_reference.lend(), bag, log.free());
        let entries = result.as_deref().unwrap_or(&[]);
        let answer = log.lend_for(entries, |log, used| {
            let maps = by_library.lend();
            ffi::probe_hear_bag(given, probe, maps, lent.entries(), log, used)
        });
        assert_same(
            "hear a bag",
            [answer, ffi::bag_answer(&result)],
            [&by_library, &by_reference],
        );
        assert!(lent == same, "hearing changes no byte of the bag");
        match &result {
            Ok(entries) => {
                assert!(entries.iter().all(|entry| entry.probe == probe));
                self.hear_singly(bag, entries, (before, log_before), (&by_library, log));
                self.maps = by_library.entries().map(<[u64]>::to_vec);
            }
            Err(_) => assert!(by_library == before, "a refused bag"),
        }
        result.map(|entries| entries.into_iter().map(|entry| entry.what).collect())
    }

    /// Each frame heard by a call of its own leaves the same maps and the same log.
    #[track_caller]
    fn hear_singly(
        &self,
        bag: &[u8],
        entries: &[Entry],
        (mut maps, mut log): (Buffers, Log),
        after: (&Buffers, &Log),
    ) {
        let (given, probe) = (self.numbers.slices(), self.probe);
        for (frame, entry) in ends::frames(bag).into_iter().zip(entries) {
            log.lend(Ok(*entry), |log, used| {
                ffi::probe_hear_logged(given, probe, maps.lend(), frame, log, used)
            });
        }
        assert!((&maps, &log) == after, "another record or log singly");
    }

    /// Asks for a frame with a slice of this length; hands back the line if it is written.
    #[track_caller]
    pub fn ask(&mut self, kind: Kind, link: u16, length: usize) -> Result<Option<Vec<u8>>, u8> {
        let lent = Buffers::holding(self.maps.slices(), &mut self.random);
        let before = Buffer::filled(length, || self.random.byte());
        let (mut by_library, mut by_reference) = (before.clone(), before.clone());
        let (given, probe, same) = (self.numbers.slices(), self.probe, lent.clone());
        let answer = ffi::probe_ask(given, probe, lent.entries(), kind, link, by_library.lend());
        let own = self.maps.slices();
        let result = maps::ask(given, probe, own, kind, link, by_reference.lend());
        assert_same(
            "ask",
            [answer, ffi::yes_answer(&result)],
            [&by_library, &by_reference],
        );
        assert!(lent == same, "an end asked changes no record");
        let written = if result == Ok(true) { LINE } else { 0 };
        assert!(by_library.kept_beyond(written, &before));
        result.map(|yes| yes.then(|| by_library.entries()[..LINE].to_vec()))
    }

    #[track_caller]
    pub fn rests(&mut self, link: u16) -> Result<bool, u8> {
        let lent = Buffers::holding(self.maps.slices(), &mut self.random);
        let (given, same) = (self.numbers.slices(), lent.clone());
        let answer = ffi::probe_rests(given, self.probe, lent.entries(), link);
        let result = maps::rests(given, self.probe, self.maps.slices(), link);
        assert_same("rests", [answer, ffi::yes_answer(&result)], [&lent, &same]);
        result
    }

    /// Turns the bytes into maps, which get so many words each beforehand; hands back the maps'
    /// own words.
    #[track_caller]
    pub fn maps_of(&mut self, record: &[u8], lengths: [usize; MAPS]) -> Result<OwnMaps, u8> {
        let lent = Buffer::holding(record, || self.random.byte());
        let before = Buffers::filled(lengths, &mut self.random);
        let (mut by_library, mut by_reference) = (before.clone(), before.clone());
        let (given, probe, same) = (self.numbers.slices(), self.probe, lent.clone());
        let answer = ffi::probe_maps_of(given, probe, lent.entries(), by_library.lend());
        let result = maps::maps_of(given, probe, record, by_reference.lend());
        assert_same(
            "maps of",
            [answer, ffi::turned_answer(&result)],
            [&by_library, &by_reference],
        );
        assert!(lent == same, "turning changes no byte");
        let words = words(given.links.into());
        let written = if result.is_ok() { words } else { 0 };
        assert!(by_library.kept_beyond(written, &before));
        result.map(|()| by_library.entries().map(|map| map[..words].to_vec()))
    }

    /// Turns the maps into bytes, of which so many are lent; hands back the record's own.
    #[track_caller]
    pub fn bytes_of(&mut self, length: usize) -> Result<Vec<u8>, u8> {
        let lent = Buffers::holding(self.maps.slices(), &mut self.random);
        let before = Buffer::filled(length, || self.random.byte());
        let (mut by_library, mut by_reference) = (before.clone(), before.clone());
        let (given, probe, same) = (self.numbers.slices(), self.probe, lent.clone());
        let answer = ffi::probe_bytes_of(given, probe, lent.entries(), by_library.lend());
        let own = self.maps.slices();
        let result = maps::bytes_of(given, probe, own, by_reference.lend());
        assert_same(
            "bytes of",
            [answer, ffi::turned_answer(&result)],
            [&by_library, &by_reference],
        );
        assert!(lent == same, "turning changes no map");
        let bytes = 2 * usize::from(given.links);
        let written = if result.is_ok() { bytes } else { 0 };
        assert!(by_library.kept_beyond(written, &before));
        result.map(|()| by_library.entries()[..bytes].to_vec())
    }
}
