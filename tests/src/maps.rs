//! The second implementation of an end's record as maps, from document 02 alone: the maps are turned
//! into bytes, the rules of `ends` are applied to these, and the bytes are turned back. A refusal is its
//! number there.

use crate::ends::{self, other_end, Entry, Kind, LINE};
use crate::reference::{table_of_slices, Caller, Slices, Table};

/// One thing for each of the maps.
#[derive(Clone, Copy, Debug, Default, PartialEq)]
pub struct Four<T> {
    pub standing: T,
    pub refused_out: T,
    pub held: T,
    pub refused_in: T,
}

/// A record in slices of 64-bit words.
pub type Maps<'a> = Four<&'a [u64]>;

/// The slices lent to a call.
pub type LentMaps<'a> = Four<&'a mut [u64]>;

pub type OwnMaps = Four<Vec<u64>>;

/// How many maps there are.
pub const MAPS: usize = 4;

impl<T> Four<T> {
    /// In the order of the parameters.
    pub fn of([standing, refused_out, held, refused_in]: [T; MAPS]) -> Four<T> {
        Four {
            standing,
            refused_out,
            held,
            refused_in,
        }
    }

    pub fn array(self) -> [T; MAPS] {
        [self.standing, self.refused_out, self.held, self.refused_in]
    }

    pub fn map<U>(self, of: impl FnMut(T) -> U) -> Four<U> {
        Four::of(self.array().map(of))
    }

    pub fn each_ref(&self) -> Four<&T> {
        Four {
            standing: &self.standing,
            refused_out: &self.refused_out,
            held: &self.held,
            refused_in: &self.refused_in,
        }
    }

    pub fn each_mut(&mut self) -> Four<&mut T> {
        Four {
            standing: &mut self.standing,
            refused_out: &mut self.refused_out,
            held: &mut self.held,
            refused_in: &mut self.refused_in,
        }
    }

    /// By its place in that order.
    pub fn at(&mut self, place: usize) -> &mut T {
        match place {
            0 => &mut self.standing,
            1 => &mut self.refused_out,
            2 => &mut self.held,
            3 => &mut self.refused_in,
            _ => panic!("there are {MAPS} maps"),
        }
    }
}

/// A word for every 64 links begun.
pub fn words(links: usize) -> usize {
    links.div_ceil(64)
}

/// The lowest bit of a word is its first link's.
pub fn bit(map: &[u64], link: usize) -> bool {
    map[link / 64] >> (link % 64) & 1 == 1
}

pub fn flip(map: &mut [u64], link: usize) {
    map[link / 64] ^= 1 << (link % 64);
}

impl OwnMaps {
    pub fn fresh(links: usize) -> OwnMaps {
        Four::of([(); MAPS].map(|()| vec![0; words(links)]))
    }

    /// The maps of a record's bytes, two a link.
    pub fn turned(record: &[u8]) -> OwnMaps {
        let links = record.len() / 2;
        let mut maps = OwnMaps::fresh(links);
        for link in 0..links {
            match record[2 * link] {
                1 => flip(&mut maps.standing, link),
                2 => flip(&mut maps.refused_out, link),
                _ => {}
            }
            match record[2 * link + 1] {
                1 => flip(&mut maps.held, link),
                2 => flip(&mut maps.refused_in, link),
                _ => {}
            }
        }
        maps
    }

    pub fn slices(&self) -> Maps<'_> {
        self.each_ref().map(|map| &map[..])
    }

    pub fn lend(&mut self) -> LentMaps<'_> {
        self.each_mut().map(|map| &mut map[..])
    }
}

impl Maps<'_> {
    /// The bytes of so many links.
    pub fn turned(self, links: usize) -> Vec<u8> {
        let mut record = Vec::with_capacity(2 * links);
        for link in 0..links {
            let bits = self.map(|map| bit(map, link));
            for [one, two] in [
                [bits.standing, bits.refused_out],
                [bits.held, bits.refused_in],
            ] {
                record.push(match (one, two) {
                    (true, _) => 1,
                    (_, true) => 2,
                    _ => 0,
                });
            }
        }
        record
    }

    /// 20, 21, 22.
    fn check(self, table: &Table, probe: u16) -> Result<(), u8> {
        let words = words(table.links.len());
        if self.array().iter().any(|map| map.len() != words) {
            return Err(20);
        }
        for place in 0..64 * words {
            let bits = self.map(|map| bit(map, place));
            let twice = bits.standing && bits.refused_out || bits.held && bits.refused_in;
            let link = table.links.get(place);
            let own = link.is_some_and(|&link| other_end(link, probe).is_some());
            if twice || !own && bits.array().contains(&true) {
                return Err(21);
            }
        }
        let spare = table.spares().get(usize::from(probe)).copied().unwrap_or(0);
        let ones = |map: &[u64]| (0..64 * words).filter(|&place| bit(map, place)).count();
        match ones(self.standing) > spare || ones(self.held) > spare {
            true => Err(22),
            false => Ok(()),
        }
    }

    /// The table's checks, then those of the maps; the bytes that they stand for.
    fn judged(self, given: Slices, probe: u16) -> Result<Vec<u8>, u8> {
        let table = table_of_slices(Caller::Full, given)?;
        self.check(&table, probe)?;
        Ok(self.turned(table.links.len()))
    }
}

impl LentMaps<'_> {
    fn shared(&self) -> Maps<'_> {
        self.each_ref().map(|map| &**map)
    }

    /// Puts the maps of these bytes at the start.
    fn store(self, record: &[u8]) {
        let maps = OwnMaps::turned(record).array();
        for (lent, map) in self.array().into_iter().zip(maps) {
            lent[..map.len()].copy_from_slice(&map);
        }
    }
}

/// The probe opens; `free` entries of its log are free.
pub fn open(given: Slices, probe: u16, maps: LentMaps, free: usize) -> Result<Entry, u8> {
    let mut record = maps.shared().judged(given, probe)?;
    let entry = ends::open(given, probe, &mut record, free)?;
    maps.store(&record);
    Ok(entry)
}

/// The probe hears a frame, of any bytes.
pub fn hear(
    given: Slices,
    probe: u16,
    maps: LentMaps,
    line: &[u8],
    free: usize,
) -> Result<Entry, u8> {
    let mut record = maps.shared().judged(given, probe)?;
    let entry = ends::hear(given, probe, &mut record, line, free)?;
    maps.store(&record);
    Ok(entry)
}

/// The probe hears a bag of frames, of any bytes.
pub fn hear_bag(
    given: Slices,
    probe: u16,
    maps: LentMaps,
    bag: &[u8],
    free: usize,
) -> Result<Vec<Entry>, u8> {
    let mut record = maps.shared().judged(given, probe)?;
    let entries = ends::hear_bag(given, probe, &mut record, bag, free)?;
    maps.store(&record);
    Ok(entries)
}

/// Asked for a frame on a link, writes its line at the start of `out` if it may be sent now.
pub fn ask(
    given: Slices,
    probe: u16,
    maps: Maps,
    kind: Kind,
    link: u16,
    out: &mut [u8],
) -> Result<bool, u8> {
    if out.len() < LINE {
        return Err(8);
    }
    let record = maps.judged(given, probe)?;
    ends::ask(given, probe, &record, kind, link, out)
}

/// Whether the probe rests the link.
pub fn rests(given: Slices, probe: u16, maps: Maps, link: u16) -> Result<bool, u8> {
    let record = maps.judged(given, probe)?;
    ends::rests(given, probe, &record, link)
}

/// Turns the bytes into maps, at the start of the lent ones; one that is too short is among the
/// first, 8.
pub fn maps_of(given: Slices, probe: u16, record: &[u8], lent: LentMaps) -> Result<(), u8> {
    let words = words(given.links.into());
    if lent.shared().array().iter().any(|map| map.len() < words) {
        return Err(8);
    }
    ends::check_record(given, probe, record)?;
    lent.store(record);
    Ok(())
}

/// Turns the maps into bytes, at the start of the lent ones; too few are among the first, 8.
pub fn bytes_of(given: Slices, probe: u16, maps: Maps, lent: &mut [u8]) -> Result<(), u8> {
    if lent.len() < 2 * usize::from(given.links) {
        return Err(8);
    }
    let record = maps.judged(given, probe)?;
    lent[..record.len()].copy_from_slice(&record);
    Ok(())
}
