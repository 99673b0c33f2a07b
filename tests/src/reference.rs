//! The second implementation, written from documents 01 and 02 alone. A refusal is its number there.

#[derive(Clone, Copy, Debug, PartialEq)]
pub struct Link {
    pub low: u16,
    pub high: u16,
    pub cost: u16,
}

impl Link {
    pub fn ends(self) -> [usize; 2] {
        [self.low.into(), self.high.into()]
    }

    fn line(self) -> String {
        format!("{:04x}{:04x}{:04x}\n", self.low, self.high, self.cost)
    }
}

/// A site's table, legal or not; the probes are numbered by their place among the needs.
#[derive(Clone, Debug, PartialEq)]
pub struct Table {
    pub number: u16,
    pub needs: Vec<u16>,
    pub links: Vec<Link>,
}

/// A table in slices goes with its number, probe count and link count.
#[derive(Clone, Copy)]
pub struct Slices<'a> {
    pub number: u16,
    pub probes: u16,
    pub links: u16,
    pub needs: &'a [u16],
    pub lows: &'a [u16],
    pub highs: &'a [u16],
    pub costs: &'a [u16],
}

/// The slices lent to a reading.
pub struct Lent<'a> {
    pub needs: &'a mut [u16],
    pub lows: &'a mut [u16],
    pub highs: &'a mut [u16],
    pub costs: &'a mut [u16],
}

/// What may stand behind the closing line.
#[derive(Clone, Copy, Debug, PartialEq)]
pub enum Behind {
    Nothing,
    Anything,
}

impl Behind {
    pub const BOTH: [Behind; 2] = [Behind::Nothing, Behind::Anything];

    /// What the caller's readings let stand there: the display reads no prefix.
    pub fn of(caller: Caller) -> &'static [Behind] {
        match caller {
            Caller::Full => &Behind::BOTH,
            Caller::Display => &[Behind::Nothing],
        }
    }
}

/// Who calls, and so which limits a table is held to.
#[derive(Clone, Copy, Debug, PartialEq)]
pub enum Caller {
    Full,
    /// The well-head display of 02.
    Display,
}

/// The most probes and links that a table may have.
#[derive(Clone, Copy)]
pub struct Limits {
    pub probes: usize,
    pub links: usize,
}

pub const FULL: Limits = Limits {
    probes: 256,
    links: 2048,
};

pub const DISPLAY: Limits = Limits {
    probes: 16,
    links: 40,
};

impl Caller {
    pub const BOTH: [Caller; 2] = [Caller::Full, Caller::Display];

    pub fn limits(self) -> Limits {
        match self {
            Caller::Full => FULL,
            Caller::Display => DISPLAY,
        }
    }
}

impl Limits {
    /// Whether this many probes or links are too many.
    pub fn exceeded(self, probes: usize, links: usize) -> bool {
        probes > self.probes || links > self.links
    }
}

pub const CLOSING: &[u8] = b"ffff\n";

/// The refusals that 02 withdraws, and that no call makes: of a need above the probe's links, and of a
/// refusal where outbound is 0.
pub const WITHDRAWN: [u8; 2] = [7, 25];

/// Whether a packed answer is one of them.
pub fn is_withdrawn(answer: u64) -> bool {
    WITHDRAWN.map(u64::from).contains(&answer)
}

const DIGITS: &[u8; 16] = b"0123456789abcdef";

/// Larger cost; at equal cost, larger low end; then larger high end.
pub fn dearer(link: Link, other: Link) -> bool {
    if link.cost != other.cost {
        link.cost > other.cost
    } else if link.low != other.low {
        link.low > other.low
    } else {
        link.high > other.high
    }
}

/// The smaller of a probe's need and its number of links.
pub fn counted_need(need: u16, degree: usize) -> usize {
    degree.min(need.into())
}

impl Table {
    /// Each probe's number of links.
    pub fn degrees(&self) -> Vec<usize> {
        let mut degrees = vec![0; self.needs.len()];
        for link in &self.links {
            for end in link.ends() {
                if let Some(degree) = degrees.get_mut(end) {
                    *degree += 1;
                }
            }
        }
        degrees
    }

    /// What `of` makes of each probe's need and number of links.
    fn of_probes<T>(&self, of: impl Fn(u16, usize) -> T) -> Vec<T> {
        let numbers = self.needs.iter().zip(self.degrees());
        numbers.map(|(&need, degree)| of(need, degree)).collect()
    }

    pub fn counted_needs(&self) -> Vec<usize> {
        self.of_probes(counted_need)
    }

    /// Each probe's number of links less its counted need.
    pub fn spares(&self) -> Vec<usize> {
        self.of_probes(|need, degree| degree - counted_need(need, degree))
    }

    /// The short probes, in number order: those with a need above their number of links, and how
    /// many links each is missing.
    pub fn short_probes(&self) -> Vec<(usize, usize)> {
        let missing = self.of_probes(|need, degree| usize::from(need).saturating_sub(degree));
        let probes = missing.into_iter().enumerate();
        probes.filter(|&(_, missing)| missing > 0).collect()
    }

    pub fn has_short(&self) -> bool {
        !self.short_probes().is_empty()
    }

    /// Adds a link, unless 4 or 5 refuses it.
    fn add(&mut self, link: Link) -> Result<(), u8> {
        if link.low >= link.high || link.high as usize >= self.needs.len() {
            return Err(4);
        }
        if let Some(last) = self.links.last() {
            if (link.low, link.high) <= (last.low, last.high) {
                return Err(5);
            }
        }
        self.links.push(link);
        Ok(())
    }

    /// The table's text, whether the table is legal or not.
    pub fn text(&self) -> Vec<u8> {
        let (probes, links) = (self.needs.len(), self.links.len());
        let mut text = format!("{:04x}{:04x}{:04x}\n", self.number, probes, links);
        for need in &self.needs {
            text += &format!("{need:04x}\n");
        }
        for link in &self.links {
            text += &link.line();
        }
        text += "ffff\n";
        text.into_bytes()
    }
}

/// The length of the text of a table with these counts.
pub fn text_length(probes: usize, links: usize) -> usize {
    13 + 5 * probes + 13 * links + 5
}

/// 3, by the caller's own limits.
fn check_counts(caller: Caller, probes: usize, links: usize) -> Result<(), u8> {
    if probes == 0 || caller.limits().exceeded(probes, links) {
        return Err(3);
    }
    Ok(())
}

/// `lent` holds the lengths of needs, lows, highs and costs.
fn check_lengths(probes: usize, links: usize, lent: [usize; 4]) -> Result<(), u8> {
    let [needs, lows, highs, costs] = lent;
    if needs < probes || lows != highs || highs != costs || lows < links {
        return Err(8);
    }
    Ok(())
}

/// Takes a line of `N` numbers, four digits each, off the start of the text.
fn take_line<const N: usize>(text: &mut &[u8]) -> Result<[u16; N], u8> {
    let end = text.iter().position(|&byte| byte == b'\n').ok_or(1)?;
    let line = &text[..end];
    if line.len() != 4 * N {
        return Err(1);
    }
    let mut numbers = [0; N];
    for (place, byte) in line.iter().enumerate() {
        let digit = DIGITS.iter().position(|digit| digit == byte).ok_or(2)?;
        numbers[place / 4] = numbers[place / 4] * 16 + digit as u16;
    }
    *text = &text[end + 1..];
    Ok(numbers)
}

/// The legal table a text holds: 1, 2, then 3, or 4 and 5, line by line; then 6.
pub fn table_of_text(caller: Caller, mut text: &[u8], behind: Behind) -> Result<Table, u8> {
    let [number, probes, links] = take_line(&mut text)?;
    check_counts(caller, probes.into(), links.into())?;
    let mut table = Table {
        number,
        needs: Vec::new(),
        links: Vec::new(),
    };
    for _ in 0..probes {
        let [need] = take_line(&mut text)?;
        table.needs.push(need);
    }
    for _ in 0..links {
        let [low, high, cost] = take_line(&mut text)?;
        table.add(Link { low, high, cost })?;
    }
    let closed = match behind {
        Behind::Nothing => text == CLOSING,
        Behind::Anything => text.starts_with(CLOSING),
    };
    match closed {
        true => Ok(table),
        false => Err(6),
    }
}

/// The legal table that slices hold: 8, 3, then 4 and 5 link by link.
pub fn table_of_slices(caller: Caller, given: Slices) -> Result<Table, u8> {
    let (probes, links) = (given.probes as usize, given.links as usize);
    let lent = [given.needs, given.lows, given.highs, given.costs].map(<[u16]>::len);
    check_lengths(probes, links, lent)?;
    check_counts(caller, probes, links)?;
    let mut table = Table {
        number: given.number,
        needs: given.needs[..probes].to_vec(),
        links: Vec::with_capacity(links),
    };
    for place in 0..links {
        let (low, high, cost) = (given.lows[place], given.highs[place], given.costs[place]);
        table.add(Link { low, high, cost })?;
    }
    Ok(table)
}

/// Fills the lent slices from a text; 8 comes last.
pub fn read_table(caller: Caller, text: &[u8], behind: Behind, lent: Lent) -> Result<Table, u8> {
    let table = table_of_text(caller, text, behind)?;
    let lengths = [
        lent.needs.len(),
        lent.lows.len(),
        lent.highs.len(),
        lent.costs.len(),
    ];
    check_lengths(table.needs.len(), table.links.len(), lengths)?;
    lent.needs[..table.needs.len()].copy_from_slice(&table.needs);
    for (place, link) in table.links.iter().enumerate() {
        lent.lows[place] = link.low;
        lent.highs[place] = link.high;
        lent.costs[place] = link.cost;
    }
    Ok(table)
}

pub fn check_table(caller: Caller, given: Slices) -> Result<(), u8> {
    table_of_slices(caller, given).map(|_| ())
}

/// Fills the lent text from its start and answers the length; a short `out` is among the first, 8.
pub fn write_table(caller: Caller, given: Slices, out: &mut [u8]) -> Result<usize, u8> {
    if out.len() < text_length(given.probes.into(), given.links.into()) {
        return Err(8);
    }
    put_text(&table_of_slices(caller, given)?.text(), out)
}

/// Fills `out` from its start and answers the length; 8 where it is too short.
pub fn put_text(text: &[u8], out: &mut [u8]) -> Result<usize, u8> {
    out.get_mut(..text.len()).ok_or(8)?.copy_from_slice(text);
    Ok(text.len())
}

/// Which links are kept, how many, and their total cost.
#[derive(Clone, Debug, PartialEq)]
pub struct Plan {
    pub kept: Vec<bool>,
    pub count: usize,
    pub cost: u64,
}

impl Plan {
    pub fn keeping(kept: Vec<bool>, table: &Table) -> Plan {
        let costs = table.links.iter().map(|link| link.cost as u64);
        Plan {
            count: kept.iter().filter(|&&kept| kept).count(),
            cost: costs
                .zip(&kept)
                .map(|(cost, &kept)| cost * kept as u64)
                .sum(),
            kept,
        }
    }

    /// What the plan program prints.
    pub fn text(&self, table: &Table) -> Vec<u8> {
        let mut text = format!("{:04x}{:04x}{:08x}\n", table.number, self.count, self.cost);
        for (link, _) in table.links.iter().zip(&self.kept).filter(|(_, &kept)| kept) {
            text += &link.line();
        }
        for (probe, missing) in table.short_probes() {
            text += &format!("{probe:04x}{missing:04x}\n");
        }
        text += "ffff\n";
        text.into_bytes()
    }
}

/// The plan by its definition.
pub fn plan(table: &Table) -> Plan {
    rest_in_order(&falling(&table.links), table)
}

/// The links' places from dearest to cheapest.
pub fn falling(links: &[Link]) -> Vec<usize> {
    let mut places: Vec<usize> = (0..links.len()).collect();
    places.sort_by(|&one, &other| {
        let (one, other) = (links[one], links[other]);
        dearer(other, one).cmp(&dearer(one, other))
    });
    places
}

/// Goes through the links' places in this order; a link is rested exactly when both ends still
/// have more links than their counted needs.
pub fn rest_in_order(order: &[usize], table: &Table) -> Plan {
    let mut kept = vec![true; table.links.len()];
    let mut left = table.spares();
    for &place in order {
        let [low, high] = table.links[place].ends();
        if left[low] > 0 && left[high] > 0 {
            left[low] -= 1;
            left[high] -= 1;
            kept[place] = false;
        }
    }
    Plan::keeping(kept, table)
}

/// A way to a legal table's plan.
pub type Method = fn(&Table) -> Plan;

/// Fills the lent plan from its start; a short one is among the first, 8.
pub fn fill_plan(
    caller: Caller,
    given: Slices,
    method: Method,
    bytes: &mut [u8],
) -> Result<Plan, u8> {
    if bytes.len() < given.links.into() {
        return Err(8);
    }
    let plan = method(&table_of_slices(caller, given)?);
    for (byte, &kept) in bytes.iter_mut().zip(&plan.kept) {
        *byte = kept.into();
    }
    Ok(plan)
}

/// The same with lent working bytes, at least four a link and all zero after.
pub fn fill_plan_and_work(
    caller: Caller,
    given: Slices,
    method: Method,
    bytes: &mut [u8],
    work: &mut [u8],
) -> Result<Plan, u8> {
    if work.len() < 4 * given.links as usize {
        return Err(8);
    }
    let plan = fill_plan(caller, given, method, bytes)?;
    work.fill(0);
    Ok(plan)
}

/// What a program prints for a refusal.
pub fn refusal_line(refusal: u8) -> Vec<u8> {
    format!("e{refusal:03}\n").into_bytes()
}

/// The plan program's whole output for an input; the display's text has the same form.
pub fn plan_output(caller: Caller, text: &[u8]) -> Vec<u8> {
    match table_of_text(caller, text, Behind::Nothing) {
        Ok(table) => plan(&table).text(&table),
        Err(refusal) => refusal_line(refusal),
    }
}

/// Fills `out` from its start with the plan program's output and answers the length.
pub fn plan_text(caller: Caller, text: &[u8], out: &mut [u8]) -> Result<usize, u8> {
    put_text(&plan_output(caller, text), out)
}
