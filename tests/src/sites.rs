//! Sites to compare: 01's marked ones, random legal ones, and damaged ones.

use crate::random::Random;
use crate::reference::{table_of_text, Behind, Caller, Limits, Link, Slices, Table, DISPLAY, FULL};

/// The texts of M1 to M8, each as table 0001.
pub const MARKED: [&str; 8] = [
    "000100040003\n0000\n0001\n0001\n0000\n000000010005\n000100020005\n000200030005\nffff\n",
    "000100040003\n0000\n0001\n0001\n0000\n000000010005\n000100020006\n000200030005\nffff\n",
    "000100010000\n0000\nffff\n",
    "000100020001\n0000\n0000\n000000010007\nffff\n",
    "000100020001\n0001\n0000\n000000010007\nffff\n",
    "000100030003\n0001\n0001\n0001\n000000010001\n000000020002\n000100020003\nffff\n",
    "000100030003\n0001\n0001\n0001\n000000010004\n000000020004\n000100020004\nffff\n",
    "000100040003\n0000\n0001\n0001\n0000\n000000010000\n000100020000\n000200030000\nffff\n",
];

pub const M2: &str = MARKED[1];

/// M1 stands in place 0.
pub fn marked(place: usize) -> Table {
    let text = MARKED[place].as_bytes();
    table_of_text(Caller::Full, text, Behind::Nothing).expect("a marked site is legal")
}

/// Table 0001 with these links (low, high, cost) and needs.
pub fn site(links: &[[u16; 3]], needs: &[u16]) -> Table {
    let link = |&[low, high, cost]: &[u16; 3]| Link { low, high, cost };
    Table {
        number: 1,
        needs: needs.to_vec(),
        links: links.iter().map(link).collect(),
    }
}

/// A random legal table; most are small, some as large as may be.
pub fn legal(random: &mut Random) -> Table {
    let probes = match random.below(32) {
        0 => FULL.probes,
        1 => 1 + random.below(FULL.probes),
        2..=7 => 1 + random.below(40),
        _ => 1 + random.below(8),
    };
    let most = FULL.links.min(probes * (probes - 1) / 2);
    let links = match random.below(4) {
        0 => most,
        1 => random.below(most + 1) / 8,
        _ => random.below(most + 1),
    };
    legal_of_size(probes, links, random)
}

/// A random legal table within the display's limits; many have the most probes, the most links or
/// both.
pub fn for_display(random: &mut Random) -> Table {
    let any = 1 + random.below(DISPLAY.probes);
    let probes = random.pick(&[DISPLAY.probes, any]);
    let most = DISPLAY.links.min(probes * (probes - 1) / 2);
    let any = random.below(most + 1);
    let links = random.pick(&[most, any]);
    legal_of_size(probes, links, random)
}

/// A random legal table with these counts.
pub fn legal_of_size(probes: usize, links: usize, random: &mut Random) -> Table {
    let mut table = Table {
        number: random.short(),
        needs: vec![0; probes],
        links: pairs(probes, links, random),
    };
    let (first, range) = random.pick(&[(0, 1), (7, 1), (0, 3), (65_534, 2), (0, 65_536)]);
    set_costs(&mut table, || (first + random.below(range)) as u16);
    let more = random.one_in(2);
    set_needs(&mut table, |_, degree| {
        let need = random.below(degree + 1);
        let all = if more {
            all_or_more(degree, random)
        } else {
            degree
        };
        random.pick(&[0, 1.min(degree), all, need])
    });
    table
}

/// A need of all links of a probe or, mostly, of more than it has.
pub fn all_or_more(degree: usize, random: &mut Random) -> usize {
    let any = degree + random.below(65_536 - degree);
    random.pick(&[degree, degree + 1, degree + 2, any, 65_535])
}

pub fn set_costs(table: &mut Table, mut cost: impl FnMut() -> u16) {
    for link in &mut table.links {
        link.cost = cost();
    }
}

/// Sets each need from the probe's number and its number of links.
pub fn set_needs(table: &mut Table, mut need: impl FnMut(usize, usize) -> usize) {
    for (probe, degree) in table.degrees().into_iter().enumerate() {
        table.needs[probe] = need(probe, degree) as u16;
    }
}

/// At most four different costs, so that many are equal.
fn set_few_costs(table: &mut Table, random: &mut Random) {
    let near = [0, 1, 2, 255, 256, 32_767, 32_768, 65_534, 65_535];
    let costs = [0; 4].map(|_| random.pick(&near));
    let different = 1 + random.below(4);
    set_costs(table, || random.pick(&costs[..different]));
}

/// A random legal table of more than eight probes, with many equal costs.
pub fn crowded(random: &mut Random) -> Table {
    let probes = match random.below(64) {
        0 => FULL.probes,
        _ => 9 + random.below(40),
    };
    let most = FULL.links.min(probes * (probes - 1) / 2);
    let links = random.below(most + 1);
    let mut table = legal_of_size(probes, links, random);
    set_few_costs(&mut table, random);
    table
}

/// The same with links only between probes of near numbers and with little spare, so that
/// displaced offers go far.
pub fn banded(random: &mut Random) -> Table {
    let probes = 9 + random.below(FULL.probes - 8) as u16;
    let width = 1 + random.below(4) as u16;
    let near = |low: u16| (low + 1..probes.min(low + 1 + width)).map(move |high| [low, high, 0]);
    let mut links: Vec<[u16; 3]> = (0..probes).flat_map(near).collect();
    links.retain(|_| !random.one_in(16));
    let mut table = site(&links, &vec![0; probes.into()]);
    set_few_costs(&mut table, random);
    set_needs(&mut table, |_, degree| {
        match random.pick(&[0, 1, 1, 1, 1, 1, 2]) {
            0 => all_or_more(degree, random),
            spare => degree.saturating_sub(spare),
        }
    });
    table
}

/// The links' places ordered by what `by` makes of the cost; at equal cost lower numbers go first.
pub fn lower_first<Key: Ord>(links: &[Link], by: impl Fn(u16) -> Key) -> Vec<usize> {
    let mut places: Vec<usize> = (0..links.len()).collect();
    places.sort_by_key(|&place| by(links[place].cost));
    places
}

/// So many hubs, each joined to all other probes; costs and needs are 0.
pub fn hubs(probes: u16, hubs: u16) -> Table {
    let of_hub = |low| (low + 1..probes).map(move |high| [low, high, 0]);
    let links: Vec<[u16; 3]> = (0..hubs).flat_map(of_hub).collect();
    site(&links, &vec![0; probes.into()])
}

/// The largest site within the limits whose first probes are joined to all others: eight of the full
/// limits, two of the display's. Costs and needs are 0.
pub fn largest_hubs(limits: Limits) -> Table {
    let mut table = hubs(limits.probes as u16, limits.probes as u16 - 1);
    table.links.truncate(limits.links);
    table
}

/// Gives the table costs below this, and each probe a need of half its links.
pub fn half_needed(mut table: Table, costs: usize, random: &mut Random) -> Table {
    set_costs(&mut table, || random.below(costs) as u16);
    set_needs(&mut table, |_, degree| degree / 2);
    table
}

/// So many of all pairs of probes, in rising order, at cost 0.
fn pairs(probes: usize, links: usize, random: &mut Random) -> Vec<Link> {
    let mut left = probes * (probes - 1) / 2;
    let mut chosen = Vec::new();
    for low in 0..probes as u16 {
        for high in low + 1..probes as u16 {
            if random.below(left) < links - chosen.len() {
                chosen.push(Link { low, high, cost: 0 });
            }
            left -= 1;
        }
    }
    chosen
}

/// Counts up, digit by digit; false once all are back at 0.
fn count_up(digits: &mut [u16], bases: &[u16]) -> bool {
    for (digit, &base) in digits.iter_mut().zip(bases) {
        *digit = (*digit + 1) % base;
        if *digit > 0 {
            return true;
        }
    }
    false
}

/// The table with every choice of needs that are at most two above the links.
fn every_need(mut table: Table, act: &mut impl FnMut(&Table)) {
    let degrees = table.degrees().into_iter();
    let bases: Vec<u16> = degrees.map(|degree| degree as u16 + 3).collect();
    table.needs.fill(0);
    act(&table);
    while count_up(&mut table.needs, &bases) {
        act(&table);
    }
}

/// Every table of so many probes whose costs are below the limit and whose needs are at most two
/// above the links.
pub fn every_table(probes: usize, limit: u16, mut act: impl FnMut(&Table)) {
    let pairs = pairs(probes, probes * (probes - 1) / 2, &mut Random::new(0));
    let bases = vec![limit + 1; pairs.len()];
    // For each pair its cost, or the limit where it is no link.
    let mut costs = vec![0; pairs.len()];
    loop {
        let chosen = pairs.iter().zip(&costs).filter(|(_, &cost)| cost < limit);
        let table = Table {
            number: 1,
            needs: vec![0; probes],
            links: chosen.map(|(&pair, &cost)| Link { cost, ..pair }).collect(),
        };
        every_need(table, &mut act);
        if !count_up(&mut costs, &bases) {
            return;
        }
    }
}

/// Tables of three probes with every set of links, these in every order from dearest to cheapest, and
/// needs as above. At equal cost the later link is dearer, so that costs 0 and 1 give all orders but
/// one: three links, each dearer than the later ones, take costs 2, 1 and 0.
pub fn every_order_of_three(mut act: impl FnMut(&Table)) {
    every_table(3, 2, &mut act);
    let falling = site(&[[0, 1, 2], [0, 2, 1], [1, 2, 0]], &[0; 3]);
    every_need(falling, &mut act);
}

/// Damages a link in a way that 4 or 5 may refuse, or changes a need, which nothing refuses.
pub fn damage_table(table: &mut Table, random: &mut Random) {
    let probe = random.below(table.needs.len());
    let links = table.links.len();
    if links == 0 || random.one_in(8) {
        table.needs[probe] = all_or_more(table.degrees()[probe], random) as u16;
        return;
    }
    let place = random.below(links);
    let any = random.below(links);
    let other = random.pick(&[(place + 1) % links, any]);
    let link = table.links[place];
    match random.below(7) {
        0 => table.links[place].low = link.high,
        1 => table.links[place].high = table.needs.len() as u16,
        2 => table.links[place].high = random.short(),
        3 => table.links[place].low = probe as u16,
        4 => table.links[other] = link,
        5 => table.links.swap(place, other),
        _ => {
            table.links[place].low = link.high;
            table.links[place].high = link.low;
        }
    }
}

const BYTES: &[u8] = b"\n\n\r \0/09:@AFG`afgx\x7f\x80\xff";

/// Damages the text in one place or a few.
pub fn damage_text(text: &mut Vec<u8>, random: &mut Random) {
    let place = random.below(text.len() + 1);
    let (likely, any) = (random.pick(BYTES), random.byte());
    let byte = random.pick(&[likely, any]);
    match random.below(9) {
        0 if place < text.len() => text[place] = byte,
        1 if place < text.len() => text[place] = random.pick(b"0123456789abcdef"),
        2 if place < text.len() => drop(text.remove(place)),
        3 => text.insert(place, byte),
        4 => text.truncate(place),
        5 => text.extend(random.pick::<&[u8]>(&[b"ffff\n", b"\n", b"0", b"00000100000000\n"])),
        6 => damage_header(text, random),
        _ => damage_lines(text, random),
    }
}

/// A count near the given one or near a limit, or any.
fn other_count(old: u16, random: &mut Random) -> u16 {
    let (more, less, any) = (old.wrapping_add(1), old.wrapping_sub(1), random.short());
    random.pick(&[more, more, less, less, 0, 256, 257, 2048, 2049, 65_535, any])
}

/// Changes one of the header's numbers.
pub fn damage_header(text: &mut [u8], random: &mut Random) {
    let place = 4 * random.below(3);
    let Some(digits) = text.get_mut(place..place + 4) else {
        return;
    };
    let old = std::str::from_utf8(digits).unwrap_or("");
    let old = u16::from_str_radix(old, 16).unwrap_or(0);
    let new = other_count(old, random);
    digits.copy_from_slice(format!("{new:04x}").as_bytes());
}

/// Swaps, repeats or drops a line.
fn damage_lines(text: &mut Vec<u8>, random: &mut Random) {
    let mut lines: Vec<&[u8]> = text.split_inclusive(|&byte| byte == b'\n').collect();
    if lines.is_empty() {
        return;
    }
    let line = random.below(lines.len());
    let any = random.below(lines.len());
    let other = random.pick(&[(line + 1) % lines.len(), any]);
    match random.below(4) {
        0 => lines.insert(other, lines[line]),
        1 => drop(lines.remove(line)),
        _ => lines.swap(line, other),
    }
    *text = lines.concat();
}

/// Lengths of needs, lows, highs and costs for these counts: often right, else short, unequal or
/// longer.
pub fn lengths(probes: usize, links: usize, random: &mut Random) -> [usize; 4] {
    let right = [probes, links, links, links];
    let which = random.below(4);
    let (more, some) = (1 + random.below(4), random.below(links + 2));
    let mut lengths = right;
    match random.below(9) {
        0 => lengths[which] = right[which].saturating_sub(1),
        1 => lengths[which] += more,
        2 => lengths = [probes, some, some, some],
        3 => lengths = right.map(|length| length + more),
        4 => lengths = right.map(|length| (length + random.below(3)).saturating_sub(1)),
        _ => {}
    }
    lengths
}

/// A table in slices that can be damaged where a `Table` cannot.
#[derive(Clone)]
pub struct Numbers {
    pub number: u16,
    pub probes: u16,
    pub links: u16,
    /// Needs, lows, highs, costs.
    pub entries: [Vec<u16>; 4],
    /// How many of each are lent.
    pub lent: [usize; 4],
}

impl AsMut<Numbers> for Numbers {
    fn as_mut(&mut self) -> &mut Numbers {
        self
    }
}

impl Numbers {
    pub fn of(table: &Table) -> Numbers {
        let of_links = |number: fn(&Link) -> u16| table.links.iter().map(number).collect();
        let entries = [
            table.needs.clone(),
            of_links(|link| link.low),
            of_links(|link| link.high),
            of_links(|link| link.cost),
        ];
        Numbers {
            number: table.number,
            probes: table.needs.len() as u16,
            links: table.links.len() as u16,
            lent: entries.each_ref().map(Vec::len),
            entries,
        }
    }

    /// The table damaged so many times, and often its counts or the lengths of its slices too.
    pub fn damaged(table: &Table, times: usize, random: &mut Random) -> Numbers {
        let mut damaged = table.clone();
        for _ in 0..times {
            damage_table(&mut damaged, random);
        }
        let mut numbers = Numbers::of(&damaged);
        if random.one_in(3) {
            numbers.damage_counts(random);
        }
        let right = [table.needs.len(), table.links.len()];
        let told = [numbers.probes.into(), numbers.links.into()];
        let [probes, links] = random.pick(&[right, told]);
        numbers.lend(lengths(probes, links, random), random);
        numbers
    }

    /// Lends so many entries of each; those beyond the table's own are random.
    pub fn lend(&mut self, lengths: [usize; 4], random: &mut Random) {
        for (entries, length) in self.entries.iter_mut().zip(lengths) {
            while entries.len() < length {
                entries.push(random.short());
            }
        }
        self.lent = lengths;
    }

    /// Lends up to two entries more than the table's own.
    pub fn lend_longer(&mut self, random: &mut Random) {
        let [needs, links, ..] = self.lent;
        let (links, needs) = (links + random.below(3), needs + random.below(3));
        self.lend([needs, links, links, links], random);
    }

    pub fn set_link(&mut self, place: usize, low: u16, high: u16) {
        self.entries[1][place] = low;
        self.entries[2][place] = high;
    }

    /// Changes one of the counts.
    fn damage_counts(&mut self, random: &mut Random) {
        let count = match random.one_in(2) {
            true => &mut self.probes,
            false => &mut self.links,
        };
        *count = other_count(*count, random);
    }

    pub fn slices(&self) -> Slices<'_> {
        let lent = |which: usize| &self.entries[which][..self.lent[which]];
        Slices {
            number: self.number,
            probes: self.probes,
            links: self.links,
            needs: lent(0),
            lows: lent(1),
            highs: lent(2),
            costs: lent(3),
        }
    }
}
