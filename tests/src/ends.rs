//! The second implementation of one end on a record in bytes, from documents 01 and 02 alone; a refusal
//! is its number there. `maps` has the same on maps.

use crate::reference::{counted_need, dearer, table_of_slices, Caller, Link, Slices};

/// What befell a probe.
#[derive(Clone, Copy, Debug, PartialEq)]
pub enum What {
    Opened(usize),
    /// Opened nothing: its offers standing equal its spare.
    Enough,
    Taken(usize),
    Displacing {
        link: usize,
        displaced: u16,
    },
    Refused(usize),
    Learnt(usize),
    NoChange(usize),
    /// Opened nothing: fewer offers stand than its spare, and it has tried every link.
    AllTried,
    /// Its record was wiped; a fleet alone tells it.
    Restarted,
}

/// How many bytes differ.
pub fn differ(before: &[u8], after: &[u8]) -> usize {
    let both = before.iter().zip(after);
    both.filter(|(one, other)| one != other).count()
}

/// Stands for a link or probe that is absent.
const ABSENT: u64 = 0xffff;

impl What {
    /// 01's or 02's code, the link and the displaced probe.
    pub fn numbers(self) -> [u64; 3] {
        match self {
            What::Opened(link) => [0, link as u64, ABSENT],
            What::Enough => [1, ABSENT, ABSENT],
            What::Taken(link) => [2, link as u64, ABSENT],
            What::Displacing { link, displaced } => [3, link as u64, displaced.into()],
            What::Refused(link) => [4, link as u64, ABSENT],
            What::Learnt(link) => [5, link as u64, ABSENT],
            What::NoChange(link) => [6, link as u64, ABSENT],
            What::AllTried => [7, ABSENT, ABSENT],
            What::Restarted => [8, ABSENT, ABSENT],
        }
    }

    /// How many changes it counts: a wipe counts none.
    pub fn changes(self) -> usize {
        match self {
            What::Enough | What::AllTried | What::NoChange(_) | What::Restarted => 0,
            What::Displacing { .. } => 2,
            _ => 1,
        }
    }
}

#[derive(Clone, Copy, Debug, PartialEq)]
pub struct Entry {
    pub probe: u16,
    pub what: What,
}

/// The kinds of frame that an end knows.
#[derive(Clone, Copy, Debug, PartialEq)]
pub enum Kind {
    Offer = 1,
    Refusal = 2,
}

impl Kind {
    pub const BOTH: [Kind; 2] = [Kind::Offer, Kind::Refusal];
}

/// The numbers of a frame's line, with a meaning or without.
#[derive(Clone, Copy, Debug, PartialEq)]
pub struct Frame {
    pub kind: u8,
    pub number: u16,
    pub from: u16,
    pub to: u16,
}

/// A frame's line has 14 digits and a line feed.
pub const LINE: usize = 15;

impl Frame {
    pub fn line(self) -> Vec<u8> {
        let Frame {
            kind,
            number,
            from,
            to,
        } = self;
        format!("{kind:02x}{number:04x}{from:04x}{to:04x}\n").into_bytes()
    }

    /// 1 for another length, also where a line feed stands inside; then 2.
    pub fn of_line(line: &[u8]) -> Result<Frame, u8> {
        let end = line.iter().position(|&byte| byte == b'\n');
        if line.len() != LINE || end != Some(LINE - 1) {
            return Err(1);
        }
        let digits = std::str::from_utf8(&line[..LINE - 1]).map_err(|_| 2)?;
        if !digits
            .bytes()
            .all(|byte| b"0123456789abcdef".contains(&byte))
        {
            return Err(2);
        }
        let number = |from, to| u16::from_str_radix(&digits[from..to], 16).map_err(|_| 2);
        Ok(Frame {
            kind: number(0, 2)? as u8,
            number: number(2, 6)?,
            from: number(6, 10)?,
            to: number(10, 14)?,
        })
    }

    fn known_kind(self) -> Result<Kind, u8> {
        match self.kind {
            1 => Ok(Kind::Offer),
            2 => Ok(Kind::Refusal),
            _ => Err(9),
        }
    }
}

/// One of the probe's own links, with its two bytes of the record.
#[derive(Clone, Copy)]
struct Own {
    place: usize,
    link: Link,
    other: u16,
    outbound: u8,
    inbound: u8,
}

/// A probe with its own links, from dearest to cheapest.
struct End {
    spare: usize,
    own: Vec<Own>,
}

/// The link's other end, if the probe is an end of it.
pub fn other_end(link: Link, probe: u16) -> Option<u16> {
    match probe {
        _ if probe == link.low => Some(link.high),
        _ if probe == link.high => Some(link.low),
        _ => None,
    }
}

impl End {
    /// The table's checks, then 20, 21, 22.
    fn of(given: Slices, probe: u16, record: &[u8]) -> Result<End, u8> {
        let table = table_of_slices(Caller::Full, given)?;
        if record.len() != 2 * table.links.len() {
            return Err(20);
        }
        let mut own = Vec::new();
        for (place, &link) in table.links.iter().enumerate() {
            let (outbound, inbound) = (record[2 * place], record[2 * place + 1]);
            let other = other_end(link, probe);
            if outbound.max(inbound) > if other.is_some() { 2 } else { 0 } {
                return Err(21);
            }
            own.extend(other.map(|other| Own {
                place,
                link,
                other,
                outbound,
                inbound,
            }));
        }
        own.sort_by(|one, next| dearer(next.link, one.link).cmp(&dearer(one.link, next.link)));
        let need = table.needs.get(usize::from(probe)).copied().unwrap_or(0);
        let spare = own.len() - counted_need(need, own.len());
        let end = End { spare, own };
        match end.standing().max(end.held()) > spare {
            true => Err(22),
            false => Ok(end),
        }
    }

    fn standing(&self) -> usize {
        self.own.iter().filter(|own| own.outbound == 1).count()
    }

    fn held(&self) -> usize {
        self.own.iter().filter(|own| own.inbound == 1).count()
    }

    fn store(&self, record: &mut [u8]) {
        for own in &self.own {
            record[2 * own.place] = own.outbound;
            record[2 * own.place + 1] = own.inbound;
        }
    }

    fn open(&mut self) -> What {
        if self.standing() == self.spare {
            return What::Enough;
        }
        match self.own.iter_mut().find(|own| own.outbound == 0) {
            Some(own) => {
                own.outbound = 1;
                What::Opened(own.place)
            }
            None => What::AllTried,
        }
    }

    /// `at` is a place among the own links.
    fn hear_offer(&mut self, at: usize) -> What {
        let link = self.own[at].place;
        if self.own[at].inbound != 0 {
            return What::NoChange(link);
        }
        if self.held() < self.spare {
            self.own[at].inbound = 1;
            return What::Taken(link);
        }
        match self.own.iter().rposition(|own| own.inbound == 1) {
            Some(cheapest) if at < cheapest => {
                self.own[at].inbound = 1;
                self.own[cheapest].inbound = 2;
                let displaced = self.own[cheapest].other;
                What::Displacing { link, displaced }
            }
            _ => {
                self.own[at].inbound = 2;
                What::Refused(link)
            }
        }
    }

    fn hear_refusal(&mut self, at: usize) -> What {
        let own = &mut self.own[at];
        if own.outbound == 2 {
            return What::NoChange(own.place);
        }
        own.outbound = 2;
        What::Learnt(own.place)
    }

    /// The frame's kind and the place of its link among the own ones: 1, 2, 9, 23, 24.
    fn judge(&self, given: Slices, probe: u16, line: &[u8]) -> Result<(Kind, usize), u8> {
        let frame = Frame::of_line(line)?;
        let kind = frame.known_kind()?;
        if frame.number != given.number {
            return Err(23);
        }
        let from_there = |own: &Own| frame.to == probe && own.other == frame.from;
        let at = self.own.iter().position(from_there).ok_or(24)?;
        Ok((kind, at))
    }

    fn hear(&mut self, (kind, at): (Kind, usize)) -> What {
        match kind {
            Kind::Offer => self.hear_offer(at),
            Kind::Refusal => self.hear_refusal(at),
        }
    }

    /// The own link with this place in the table, or 24.
    fn on(&self, link: u16) -> Result<Own, u8> {
        let own = self.own.iter().find(|own| own.place == link.into());
        own.copied().ok_or(24)
    }
}

fn check_log(free: usize, entries: usize) -> Result<(), u8> {
    match free < entries {
        true => Err(26),
        false => Ok(()),
    }
}

/// The table's checks, then 20, 21, 22 of the bytes.
pub fn check_record(given: Slices, probe: u16, record: &[u8]) -> Result<(), u8> {
    End::of(given, probe, record).map(|_| ())
}

/// The probe opens; `free` entries of its log are free.
pub fn open(given: Slices, probe: u16, record: &mut [u8], free: usize) -> Result<Entry, u8> {
    let mut end = End::of(given, probe, record)?;
    if probe >= given.probes {
        return Err(24);
    }
    check_log(free, 1)?;
    let what = end.open();
    end.store(record);
    Ok(Entry { probe, what })
}

/// The probe hears a frame, of any bytes.
pub fn hear(
    given: Slices,
    probe: u16,
    record: &mut [u8],
    line: &[u8],
    free: usize,
) -> Result<Entry, u8> {
    let mut end = End::of(given, probe, record)?;
    let judged = end.judge(given, probe, line)?;
    check_log(free, 1)?;
    let what = end.hear(judged);
    end.store(record);
    Ok(Entry { probe, what })
}

/// The most frames in a bag.
pub const MOST_FRAMES: usize = 64;

/// The frames of a bag: each ends at its line feed, and a last piece without one counts.
pub fn frames(bag: &[u8]) -> Vec<&[u8]> {
    bag.split_inclusive(|&byte| byte == b'\n').collect()
}

/// The probe hears a bag of frames, of any bytes: all are judged before the first is heard. The
/// entries stand in the bag's order.
pub fn hear_bag(
    given: Slices,
    probe: u16,
    record: &mut [u8],
    bag: &[u8],
    free: usize,
) -> Result<Vec<Entry>, u8> {
    let mut end = End::of(given, probe, record)?;
    let frames = frames(bag);
    if frames.len() > MOST_FRAMES {
        return Err(32);
    }
    let mut judged = Vec::new();
    for frame in &frames {
        judged.push(end.judge(given, probe, frame)?);
    }
    if probe >= given.probes {
        return Err(24);
    }
    check_log(free, frames.len())?;
    let heard = judged.into_iter().map(|frame| end.hear(frame));
    let entries = heard.map(|what| Entry { probe, what }).collect();
    end.store(record);
    Ok(entries)
}

/// Asked for a frame on a link, writes its line at the start of `out` if it may be sent now.
pub fn ask(
    given: Slices,
    probe: u16,
    record: &[u8],
    kind: Kind,
    link: u16,
    out: &mut [u8],
) -> Result<bool, u8> {
    if out.len() < LINE {
        return Err(8);
    }
    let own = End::of(given, probe, record)?.on(link)?;
    let may_be_sent = match kind {
        Kind::Offer => own.outbound == 1,
        Kind::Refusal => own.inbound == 2,
    };
    if may_be_sent {
        let frame = Frame {
            kind: kind as u8,
            number: given.number,
            from: probe,
            to: own.other,
        };
        out[..LINE].copy_from_slice(&frame.line());
    }
    Ok(may_be_sent)
}

/// Whether the probe rests the link.
pub fn rests(given: Slices, probe: u16, record: &[u8], link: u16) -> Result<bool, u8> {
    let own = End::of(given, probe, record)?.on(link)?;
    Ok((own.outbound, own.inbound) == (1, 1))
}
