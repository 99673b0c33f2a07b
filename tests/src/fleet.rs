//! The second implementation of a fleet, from documents 01 and 02 alone; a refusal is its number
//! there.

use crate::ends::{differ, Entry, Frame, What};
use crate::reference::{dearer, table_of_slices, Caller, Link, Slices, Table};

/// A link's bytes: outbound from low, inbound at high, outbound from high, inbound at low; then their
/// four marks in the same order.
pub const BYTES: usize = 8;

/// Where the marks begin, so many behind their bytes.
pub const MARKS: usize = 4;

/// Whether a link's byte with this value permits its frame: an outbound one its offer, an inbound one
/// its refusal.
pub fn permits(at: usize, byte: u8) -> bool {
    match at % 2 {
        0 => byte == 1,
        _ => byte == 2,
    }
}

/// Gives a link's byte this value; its mark tells that its frame could once have been sent.
fn store(record: &mut [u8], link: usize, at: usize, byte: u8) {
    record[BYTES * link + at] = byte;
    if permits(at, byte) {
        record[BYTES * link + MARKS + at] = 1;
    }
}

/// Which end of a link.
#[derive(Clone, Copy, Debug, PartialEq)]
enum Side {
    Low,
    High,
}

impl Side {
    fn of(probe: u16, link: Link) -> Option<Side> {
        match probe {
            _ if probe == link.low => Some(Side::Low),
            _ if probe == link.high => Some(Side::High),
            _ => None,
        }
    }

    fn other(self) -> Side {
        match self {
            Side::Low => Side::High,
            Side::High => Side::Low,
        }
    }

    fn probe(self, link: Link) -> u16 {
        match self {
            Side::Low => link.low,
            Side::High => link.high,
        }
    }

    /// Where its outbound byte stands among the link's four.
    fn outbound(self) -> usize {
        match self {
            Side::Low => 0,
            Side::High => 2,
        }
    }

    fn inbound(self) -> usize {
        match self {
            Side::Low => 3,
            Side::High => 1,
        }
    }
}

/// A line that 1, 2, 9, 23 and 24 let pass; a frame goes by its link and the side that hears it.
#[derive(Clone, Copy)]
enum Event {
    Opening(u16),
    Restart(u16),
    Offer(usize, Side),
    Refusal(usize, Side),
}

/// A legal table, and each probe's spare.
pub struct Site {
    pub table: Table,
    spares: Vec<usize>,
}

impl Site {
    /// The table's checks.
    pub fn of(given: Slices) -> Result<Site, u8> {
        table_of_slices(Caller::Full, given).map(Site::of_legal)
    }

    pub fn of_legal(table: Table) -> Site {
        Site {
            spares: table.spares(),
            table,
        }
    }

    /// How many record bytes are 1, by probe: the first of outbound ones, the second of inbound.
    fn ones(&self, record: &[u8]) -> [Vec<usize>; 2] {
        let mut standing = vec![0; self.spares.len()];
        let mut held = standing.clone();
        for (link, bytes) in self.table.links.iter().zip(record.chunks_exact(BYTES)) {
            for side in [Side::Low, Side::High] {
                let probe = usize::from(side.probe(*link));
                standing[probe] += usize::from(bytes[side.outbound()] == 1);
                held[probe] += usize::from(bytes[side.inbound()] == 1);
            }
        }
        [standing, held]
    }

    /// 20, 21, 22.
    pub fn check_record(&self, record: &[u8]) -> Result<(), u8> {
        if record.len() != BYTES * self.table.links.len() {
            return Err(20);
        }
        if !record.chunks_exact(BYTES).all(well_marked) {
            return Err(21);
        }
        let over = |ones: &Vec<usize>| {
            ones.iter()
                .zip(&self.spares)
                .any(|(one, spare)| one > spare)
        };
        match self.ones(record).iter().any(over) {
            true => Err(22),
            false => Ok(()),
        }
    }

    /// 1, 2, 9, 23, 24.
    fn event_of(&self, line: &[u8]) -> Result<Event, u8> {
        let frame = Frame::of_line(line)?;
        if frame.kind > 3 {
            return Err(9);
        }
        if frame.number != self.table.number {
            return Err(23);
        }
        let known = frame.from == frame.to && usize::from(frame.to) < self.spares.len();
        match frame.kind {
            0 if known => return Ok(Event::Opening(frame.to)),
            3 if known => return Ok(Event::Restart(frame.to)),
            0 | 3 => return Err(24),
            _ => {}
        }
        let ends = (frame.from.min(frame.to), frame.from.max(frame.to));
        let links = &self.table.links;
        let place = links.binary_search_by_key(&ends, |link| (link.low, link.high));
        let place = place.map_err(|_| 24)?;
        let side = Side::of(frame.to, links[place]).ok_or(24)?;
        Ok(match frame.kind {
            1 => Event::Offer(place, side),
            _ => Event::Refusal(place, side),
        })
    }

    /// 27, by the mark of the byte that permits the frame.
    fn check_sent(event: Event, record: &[u8]) -> Result<(), u8> {
        let mark = |place: usize, at: usize| record[BYTES * place + MARKS + at];
        let sent = match event {
            Event::Opening(_) | Event::Restart(_) => 1,
            Event::Offer(place, side) => mark(place, side.other().outbound()),
            Event::Refusal(place, side) => mark(place, side.other().inbound()),
        };
        match sent {
            0 => Err(27),
            _ => Ok(()),
        }
    }

    /// Whether the present bytes permit the frame.
    pub fn may_be_sent(&self, frame: Frame, record: &[u8]) -> bool {
        match self.event_of(&frame.line()) {
            Ok(Event::Offer(place, side)) => record[BYTES * place + side.other().outbound()] == 1,
            Ok(Event::Refusal(place, side)) => record[BYTES * place + side.other().inbound()] == 2,
            _ => false,
        }
    }

    /// One line, of any bytes, on a record that passed the checks; `used` of the log's `room`
    /// entries are used.
    pub fn event(
        &self,
        record: &mut [u8],
        line: &[u8],
        used: usize,
        room: usize,
    ) -> Result<Entry, u8> {
        let event = self.event_of(line)?;
        Site::check_sent(event, record)?;
        if used >= room {
            return Err(26);
        }
        let at = |place: usize, side: Side| side.probe(self.table.links[place]);
        let (probe, what) = match event {
            Event::Opening(probe) => (probe, self.open(probe, record)),
            Event::Restart(probe) => (probe, self.restart(probe, record)),
            Event::Offer(place, side) => (at(place, side), self.hear_offer(place, side, record)),
            Event::Refusal(place, side) => (at(place, side), hear_refusal(place, side, record)),
        };
        Ok(Entry { probe, what })
    }

    /// The probe's links: the place, its side, the link's bytes.
    fn own<'a>(
        &'a self,
        probe: u16,
        record: &'a [u8],
    ) -> impl Iterator<Item = (usize, Side, &'a [u8])> {
        let links = self.table.links.iter().zip(record.chunks_exact(BYTES));
        links
            .enumerate()
            .filter_map(move |(place, (&link, bytes))| {
                Side::of(probe, link).map(|side| (place, side, bytes))
            })
    }

    fn dearer(&self, place: usize, other: usize) -> bool {
        dearer(self.table.links[place], self.table.links[other])
    }

    fn open(&self, probe: u16, record: &mut [u8]) -> What {
        let mut standing = 0;
        let mut dearest: Option<(usize, Side)> = None;
        for (place, side, bytes) in self.own(probe, record) {
            match bytes[side.outbound()] {
                0 if dearest.is_none_or(|(found, _)| self.dearer(place, found)) => {
                    dearest = Some((place, side));
                }
                1 => standing += 1,
                _ => {}
            }
        }
        match dearest {
            _ if standing == self.spares[usize::from(probe)] => What::Enough,
            Some((place, side)) => {
                store(record, place, side.outbound(), 1);
                What::Opened(place)
            }
            None => What::AllTried,
        }
    }

    /// The probe's own bytes become 0, and all marks stay.
    fn restart(&self, probe: u16, record: &mut [u8]) -> What {
        let links = self.table.links.iter();
        for (link, bytes) in links.zip(record.chunks_exact_mut(BYTES)) {
            if let Some(side) = Side::of(probe, *link) {
                bytes[side.outbound()] = 0;
                bytes[side.inbound()] = 0;
            }
        }
        What::Restarted
    }

    fn hear_offer(&self, link: usize, side: Side, record: &mut [u8]) -> What {
        let inbound = side.inbound();
        if record[BYTES * link + inbound] != 0 {
            return What::NoChange(link);
        }
        let probe = side.probe(self.table.links[link]);
        let mut held = 0;
        let mut cheapest: Option<(usize, Side)> = None;
        for (place, side, bytes) in self.own(probe, record) {
            if bytes[side.inbound()] == 1 {
                held += 1;
                if cheapest.is_none_or(|(found, _)| self.dearer(found, place)) {
                    cheapest = Some((place, side));
                }
            }
        }
        if held < self.spares[usize::from(probe)] {
            store(record, link, inbound, 1);
            return What::Taken(link);
        }
        match cheapest {
            Some((place, side)) if self.dearer(link, place) => {
                store(record, link, inbound, 1);
                store(record, place, side.inbound(), 2);
                let displaced = side.other().probe(self.table.links[place]);
                What::Displacing { link, displaced }
            }
            _ => {
                store(record, link, inbound, 2);
                What::Refused(link)
            }
        }
    }

    /// Whether some opening would open.
    fn may_open(&self, record: &[u8]) -> bool {
        let [standing, _] = self.ones(record);
        let mut links = self.table.links.iter().zip(record.chunks_exact(BYTES));
        links.any(|(link, bytes)| {
            [Side::Low, Side::High].iter().any(|side| {
                let probe = usize::from(side.probe(*link));
                bytes[side.outbound()] == 0 && standing[probe] < self.spares[probe]
            })
        })
    }

    /// No opening and no frame that the present bytes permit would alter a byte.
    pub fn finished(&self, record: &[u8]) -> bool {
        let alters = |way: &[u8]| matches!(way, [1, 0] | [0 | 1, 2]);
        let alters = |link: &[u8]| alters(&link[..2]) || alters(&link[2..MARKS]);
        !record.chunks_exact(BYTES).any(alters) && !self.may_open(record)
    }
}

/// A link's bytes are at most 2, its marks at most 1, and 1 where the byte permits its frame. Every
/// byte is looked at, so that no branch stands between them.
fn well_marked(link: &[u8]) -> bool {
    let (bytes, marks) = link.split_at(MARKS);
    let both = bytes.iter().zip(marks).enumerate();
    both.fold(true, |fine, (at, (&byte, &mark))| {
        fine & (byte <= 2) & (mark <= 1) & (mark >= u8::from(permits(at, byte)))
    })
}

fn hear_refusal(link: usize, side: Side, record: &mut [u8]) -> What {
    let outbound = side.outbound();
    if record[BYTES * link + outbound] == 2 {
        return What::NoChange(link);
    }
    store(record, link, outbound, 2);
    What::Learnt(link)
}

/// One line, of any bytes, with all checks.
pub fn event(
    given: Slices,
    record: &mut [u8],
    line: &[u8],
    used: usize,
    room: usize,
) -> Result<Entry, u8> {
    let site = Site::of(given)?;
    site.check_record(record)?;
    site.event(record, line, used, room)
}

/// Whether the fleet is finished, with all checks.
pub fn finished(given: Slices, record: &[u8]) -> Result<bool, u8> {
    let site = Site::of(given)?;
    site.check_record(record)?;
    Ok(site.finished(record))
}

/// The record with these bytes, four a link, and a mark where one permits its frame.
pub fn with_marks(bytes: &[u8]) -> Vec<u8> {
    let mark = |(at, byte): (usize, &u8)| u8::from(permits(at, *byte));
    let links = bytes.chunks_exact(MARKS);
    let link = |bytes: &[u8]| [bytes.to_vec(), bytes.iter().enumerate().map(mark).collect()];
    links.flat_map(link).flatten().collect()
}

/// The links' bytes without the marks, four a link.
pub fn without_marks(record: &[u8]) -> Vec<u8> {
    let links = record.chunks_exact(BYTES);
    links.flat_map(|link| &link[..MARKS]).copied().collect()
}

/// Whether the low end and whether the high end rest the link with these bytes.
pub fn rested(bytes: &[u8]) -> [bool; 2] {
    [Side::Low, Side::High].map(|side| bytes[side.outbound()] == 1 && bytes[side.inbound()] == 1)
}

/// How many bytes of the links differ; marks count nowhere.
pub fn changes(before: &[u8], after: &[u8]) -> usize {
    let links = before.chunks_exact(BYTES).zip(after.chunks_exact(BYTES));
    let changes = |(before, after): (&[u8], &[u8])| differ(&before[..MARKS], &after[..MARKS]);
    links.map(changes).sum()
}

/// The probe's own bytes, as the record of an end alone.
pub fn own_record(table: &Table, probe: u16, record: &[u8]) -> Vec<u8> {
    let links = table.links.iter().zip(record.chunks_exact(BYTES));
    let own = |(link, bytes): (&Link, &[u8])| match Side::of(probe, *link) {
        Some(side) => [bytes[side.outbound()], bytes[side.inbound()]],
        None => [0, 0],
    };
    links.flat_map(own).collect()
}
