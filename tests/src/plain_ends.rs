//! An end's opening and hearing as plain Rust, apart from the second implementation, to time the library
//! against: on maps with all checks, and on bytes, as a yardstick, for a legal table.

use crate::ends::{Entry, Frame, Kind, What, LINE, MOST_FRAMES};
use crate::events::shuffled;
use crate::ffi;
use crate::maps::{words, LentMaps};
use crate::random::Random;
use crate::reference::{counted_need, falling, Slices, Table, FULL};
use crate::sites::{half_needed, largest_hubs, legal_of_size, Numbers};

/// Cost, then place: of two links of a legal table the dearer has the larger key.
type Key = (u16, usize);

fn key(given: Slices, link: usize) -> Key {
    (given.costs[link], link)
}

fn other_end(given: Slices, link: usize, probe: u16) -> u16 {
    given.lows[link] ^ given.highs[link] ^ probe
}

fn spare(given: Slices, probe: u16, degree: usize) -> usize {
    let need = given.needs[..given.probes.into()].get(usize::from(probe));
    degree - counted_need(need.copied().unwrap_or(0), degree)
}

/// A frame's line, each digit read once.
fn read(line: &[u8]) -> Result<Frame, u8> {
    let [digits @ .., b'\n'] = line else {
        return Err(1);
    };
    if digits.len() != LINE - 1 || digits.contains(&b'\n') {
        return Err(1);
    }
    let mut all = 0u64;
    for &byte in digits {
        let digit = match byte {
            b'0'..=b'9' => byte - b'0',
            b'a'..=b'f' => byte - b'a' + 10,
            _ => return Err(2),
        };
        all = all << 4 | u64::from(digit);
    }
    Ok(Frame {
        kind: (all >> 48) as u8,
        number: (all >> 32) as u16,
        from: (all >> 16) as u16,
        to: all as u16,
    })
}

/// The frame's kind and sender: 1, 2, 9, 23, then 24 where it is for another probe.
fn heard(given: Slices, probe: u16, line: &[u8]) -> Result<(Kind, u16), u8> {
    let Frame {
        kind,
        number,
        from,
        to,
    } = read(line)?;
    let kind = match kind {
        1 => Kind::Offer,
        2 => Kind::Refusal,
        _ => return Err(9),
    };
    if number != given.number {
        return Err(23);
    }
    if to != probe {
        return Err(24);
    }
    Ok((kind, from))
}

/// The places of a word's ones, beyond so many words.
fn ones(place: usize, mut word: u64) -> impl Iterator<Item = usize> {
    std::iter::from_fn(move || {
        let bit = word.trailing_zeros() as usize;
        let one = (word != 0).then_some(64 * place + bit);
        word &= word.wrapping_sub(1);
        one
    })
}

/// The words of the most links.
const MOST: usize = FULL.links / 64;

/// A legal table's end whose maps pass 20 to 22.
struct End<'a> {
    given: Slices<'a>,
    probe: u16,
    maps: LentMaps<'a>,
    /// A one for each of its links.
    own: [u64; MOST],
    spare: usize,
    standing: usize,
    held: usize,
}

impl<'a> End<'a> {
    /// One pass over the links, which ends at the first that is refused, and one over the words.
    fn of(given: Slices<'a>, probe: u16, maps: LentMaps<'a>) -> Result<End<'a>, u8> {
        let (probes, links) = (usize::from(given.probes), usize::from(given.links));
        let length = given.lows.len();
        if given.needs.len() < probes
            || length != given.highs.len()
            || length != given.costs.len()
            || length < links
        {
            return Err(8);
        }
        if probes == 0 || FULL.exceeded(probes, links) {
            return Err(3);
        }
        let (mut own, mut last) = ([0; MOST], 0);
        let ends = given.lows[..links].iter().zip(&given.highs[..links]);
        for (place, (&low, &high)) in ends.enumerate() {
            if low >= high || high >= given.probes {
                return Err(4);
            }
            // No pair is 0, for high is above low.
            let pair = u32::from(low) << 16 | u32::from(high);
            if pair <= last {
                return Err(5);
            }
            last = pair;
            if low == probe || high == probe {
                own[place / 64] |= 1 << (place % 64);
            }
        }
        let words = words(links);
        if maps.each_ref().array().iter().any(|map| map.len() != words) {
            return Err(20);
        }
        let ([mut degree, mut standing, mut held], mut wrong) = ([0; 3], 0);
        for place in 0..words {
            let four = maps.each_ref().map(|map| map[place]);
            let [out, into] = [
                four.standing | four.refused_out,
                four.held | four.refused_in,
            ];
            wrong |= four.standing & four.refused_out;
            wrong |= four.held & four.refused_in;
            wrong |= (out | into) & !own[place];
            degree += own[place].count_ones() as usize;
            standing += four.standing.count_ones() as usize;
            held += four.held.count_ones() as usize;
        }
        if wrong != 0 {
            return Err(21);
        }
        let spare = spare(given, probe, degree);
        if standing > spare || held > spare {
            return Err(22);
        }
        Ok(End {
            given,
            probe,
            maps,
            own,
            spare,
            standing,
            held,
        })
    }

    /// The own links whose bit stands in the words that `of` makes.
    fn links(&self, of: impl Fn(usize) -> u64) -> impl Iterator<Item = usize> {
        (0..self.maps.standing.len()).flat_map(move |place| ones(place, of(place)))
    }

    fn open(&mut self) -> What {
        if self.standing == self.spare {
            return What::Enough;
        }
        let tried = |place: usize| self.maps.standing[place] | self.maps.refused_out[place];
        let untried = self.links(|place| self.own[place] & !tried(place));
        match untried.max_by_key(|&link| key(self.given, link)) {
            Some(link) => {
                self.maps.standing[link / 64] |= 1 << (link % 64);
                What::Opened(link)
            }
            None => What::AllTried,
        }
    }

    fn hear_offer(&mut self, link: usize) -> What {
        let (word, bit) = (link / 64, 1 << (link % 64));
        if (self.maps.held[word] | self.maps.refused_in[word]) & bit != 0 {
            return What::NoChange(link);
        }
        if self.held < self.spare {
            self.maps.held[word] |= bit;
            self.held += 1;
            return What::Taken(link);
        }
        let held = self.links(|place| self.maps.held[place]);
        match held.min_by_key(|&held| key(self.given, held)) {
            Some(cheapest) if key(self.given, cheapest) < key(self.given, link) => {
                self.maps.held[word] |= bit;
                self.maps.held[cheapest / 64] &= !(1 << (cheapest % 64));
                self.maps.refused_in[cheapest / 64] |= 1 << (cheapest % 64);
                let displaced = other_end(self.given, cheapest, self.probe);
                What::Displacing { link, displaced }
            }
            _ => {
                self.maps.refused_in[word] |= bit;
                What::Refused(link)
            }
        }
    }

    fn hear_refusal(&mut self, link: usize) -> What {
        let (word, bit) = (link / 64, 1 << (link % 64));
        if self.maps.refused_out[word] & bit != 0 {
            return What::NoChange(link);
        }
        self.maps.standing[word] &= !bit;
        self.maps.refused_out[word] |= bit;
        What::Learnt(link)
    }

    /// The frame's kind and its link: 1, 2, 9, 23, 24.
    fn judge(&self, line: &[u8]) -> Result<(Kind, usize), u8> {
        let (kind, from) = heard(self.given, self.probe, line)?;
        let from_there = |&link: &usize| other_end(self.given, link, self.probe) == from;
        let link = self.links(|place| self.own[place]).find(from_there);
        Ok((kind, link.ok_or(24)?))
    }

    fn hear(&mut self, (kind, link): (Kind, usize)) -> What {
        match kind {
            Kind::Offer => self.hear_offer(link),
            Kind::Refusal => self.hear_refusal(link),
        }
    }
}

pub fn open(given: Slices, probe: u16, maps: LentMaps, free: usize) -> Result<Entry, u8> {
    let mut end = End::of(given, probe, maps)?;
    if probe >= given.probes {
        return Err(24);
    }
    if free == 0 {
        return Err(26);
    }
    let what = end.open();
    Ok(Entry { probe, what })
}

pub fn hear(
    given: Slices,
    probe: u16,
    maps: LentMaps,
    line: &[u8],
    free: usize,
) -> Result<Entry, u8> {
    let mut end = End::of(given, probe, maps)?;
    let judged = end.judge(line)?;
    if free == 0 {
        return Err(26);
    }
    let what = end.hear(judged);
    Ok(Entry { probe, what })
}

/// All checks once; the entries go behind the used ones of the log. The frames heard.
pub fn hear_bag(
    given: Slices,
    probe: u16,
    maps: LentMaps,
    bag: &[u8],
    log: &mut [u64],
    used: usize,
) -> Result<usize, u8> {
    let mut end = End::of(given, probe, maps)?;
    let frames = || bag.split_inclusive(|&byte| byte == b'\n');
    let count = frames().take(MOST_FRAMES + 1).count();
    if count > MOST_FRAMES {
        return Err(32);
    }
    let mut judged = [(Kind::Offer, 0); MOST_FRAMES];
    for (judged, frame) in judged.iter_mut().zip(frames()) {
        *judged = end.judge(frame)?;
    }
    if probe >= given.probes {
        return Err(24);
    }
    let free = log.get_mut(used..).unwrap_or_default();
    if free.len() < count {
        return Err(26);
    }
    for (stored, &judged) in free.iter_mut().zip(&judged[..count]) {
        let what = end.hear(judged);
        *stored = ffi::entry_answer(&Ok(Entry { probe, what }));
    }
    Ok(count)
}

/// The yardstick: an end of a legal table on its bytes, without the table's checks.
struct ByteEnd<'a> {
    given: Slices<'a>,
    probe: u16,
    record: &'a mut [u8],
    spare: usize,
    standing: usize,
    held: usize,
}

impl<'a> ByteEnd<'a> {
    fn of(given: Slices<'a>, probe: u16, record: &'a mut [u8]) -> Result<ByteEnd<'a>, u8> {
        let links = usize::from(given.links);
        if record.len() != 2 * links {
            return Err(20);
        }
        let [mut degree, mut standing, mut held] = [0; 3];
        let ends = given.lows[..links].iter().zip(&given.highs[..links]);
        for ((&low, &high), bytes) in ends.zip(record.chunks_exact(2)) {
            let own = low == probe || high == probe;
            if bytes[0].max(bytes[1]) > if own { 2 } else { 0 } {
                return Err(21);
            }
            degree += usize::from(own);
            standing += usize::from(bytes[0] == 1);
            held += usize::from(bytes[1] == 1);
        }
        let spare = spare(given, probe, degree);
        if standing > spare || held > spare {
            return Err(22);
        }
        Ok(ByteEnd {
            given,
            probe,
            record,
            spare,
            standing,
            held,
        })
    }

    fn own(&self) -> impl Iterator<Item = usize> + use<'a> {
        let (links, probe) = (usize::from(self.given.links), self.probe);
        let [lows, highs] = [self.given.lows, self.given.highs].map(|ends| ends[..links].iter());
        let ends = lows.zip(highs).enumerate();
        ends.filter_map(move |(link, (&low, &high))| {
            (low == probe || high == probe).then_some(link)
        })
    }

    fn open(&mut self) -> What {
        if self.standing == self.spare {
            return What::Enough;
        }
        let mut dearest = None;
        for link in self.own().filter(|link| self.record[2 * link] == 0) {
            dearest = dearest.max(Some(key(self.given, link)));
        }
        match dearest {
            Some((_, link)) => {
                self.record[2 * link] = 1;
                What::Opened(link)
            }
            None => What::AllTried,
        }
    }

    fn hear_offer(&mut self, link: usize) -> What {
        if self.record[2 * link + 1] != 0 {
            return What::NoChange(link);
        }
        if self.held < self.spare {
            self.record[2 * link + 1] = 1;
            return What::Taken(link);
        }
        let held = self.own().filter(|link| self.record[2 * link + 1] == 1);
        match held.min_by_key(|&held| key(self.given, held)) {
            Some(cheapest) if key(self.given, cheapest) < key(self.given, link) => {
                self.record[2 * link + 1] = 1;
                self.record[2 * cheapest + 1] = 2;
                let displaced = other_end(self.given, cheapest, self.probe);
                What::Displacing { link, displaced }
            }
            _ => {
                self.record[2 * link + 1] = 2;
                What::Refused(link)
            }
        }
    }

    fn hear_refusal(&mut self, link: usize) -> What {
        if self.record[2 * link] == 2 {
            return What::NoChange(link);
        }
        self.record[2 * link] = 2;
        What::Learnt(link)
    }
}

pub fn open_bytes(given: Slices, probe: u16, record: &mut [u8], free: usize) -> Result<Entry, u8> {
    let mut end = ByteEnd::of(given, probe, record)?;
    if probe >= given.probes {
        return Err(24);
    }
    if free == 0 {
        return Err(26);
    }
    let what = end.open();
    Ok(Entry { probe, what })
}

pub fn hear_bytes(
    given: Slices,
    probe: u16,
    record: &mut [u8],
    line: &[u8],
    free: usize,
) -> Result<Entry, u8> {
    let mut end = ByteEnd::of(given, probe, record)?;
    let (kind, from) = heard(given, probe, line)?;
    let link = end
        .own()
        .find(|&link| other_end(given, link, probe) == from);
    let link = link.ok_or(24)?;
    if free == 0 {
        return Err(26);
    }
    let what = match kind {
        Kind::Offer => end.hear_offer(link),
        Kind::Refusal => end.hear_refusal(link),
    };
    Ok(Entry { probe, what })
}

/// An end to time: half of its spare stand, its dearest links, and half are held, its cheapest.
pub struct Timed {
    pub site: &'static str,
    pub numbers: Numbers,
    pub probe: u16,
    pub record: Vec<u8>,
    /// The line of an offer that it takes, on its dearest link.
    pub line: Vec<u8>,
    /// As many frames as a bag may have: offers and refusals of its neighbours, which come again where
    /// it has fewer than half as many.
    pub bag: Vec<u8>,
}

impl Timed {
    fn of(site: &'static str, table: &Table, probe: u16) -> Timed {
        let order = falling(&table.links).into_iter();
        let own = |&link: &usize| table.links[link].ends().contains(&probe.into());
        let own: Vec<usize> = order.filter(own).collect();
        let half = table.spares()[usize::from(probe)] / 2;
        let mut record = vec![0; 2 * table.links.len()];
        for (&standing, &held) in own.iter().zip(own.iter().rev()).take(half) {
            record[2 * standing] = 1;
            record[2 * held + 1] = 1;
        }
        let frame = |kind: Kind, link: usize| {
            let [low, high] = table.links[link].ends();
            let frame = Frame {
                kind: kind as u8,
                number: table.number,
                from: (low + high) as u16 - probe,
                to: probe,
            };
            frame.line()
        };
        let random = &mut Random::new(36);
        let neighbours = shuffled(own.clone(), random).into_iter().cycle();
        let chosen = neighbours.take(MOST_FRAMES / 2);
        let both = chosen.flat_map(|link| Kind::BOTH.map(|kind| frame(kind, link)));
        Timed {
            site,
            numbers: Numbers::of(table),
            probe,
            record,
            line: frame(Kind::Offer, own[0]),
            bag: shuffled(both.collect(), random).concat(),
        }
    }
}

/// On 256 probes and 2,048 links, each probe needing half of its links: a probe of middle degree at
/// random links, and a hub with a link to each other probe.
pub fn timed() -> [Timed; 2] {
    let random = &mut Random::new(35);
    let any = half_needed(legal_of_size(256, 2048, random), 65_536, random);
    let degrees = any.degrees();
    let mut probes: Vec<usize> = (0..256).collect();
    probes.sort_by_key(|&probe| degrees[probe]);
    let hubs = half_needed(largest_hubs(FULL), 65_536, random);
    [
        Timed::of("random costs", &any, probes[128] as u16),
        Timed::of("8 hubs", &hubs, 0),
    ]
}
