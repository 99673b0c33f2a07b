//! How deep each call for C goes on sites of its caller's largest sizes and on others.

use crate::ends::{other_end, Kind, MOST_FRAMES};
use crate::events::each_table;
use crate::ffi::{self, ANSWER_BASE};
use crate::fleet::{own_record, BYTES};
use crate::lines::{offer, opening, refusal, restart};
use crate::maps::OwnMaps;
use crate::random::Random;
use crate::reference::{Behind, Caller, Lent, Limits, Table, DISPLAY, FULL};
use crate::script::room_for;
use crate::sites::{half_needed, largest_hubs, legal_of_size, set_needs, site, Numbers};
use crate::stack::depth;

/// More than twice what the deepest call needs.
pub const ENOUGH: usize = 256 * 1024;

/// Each probe is joined to so many next ones, has one link to spare, and the links get dearer from
/// the first to the last. So it offers the last of these neighbours first. At the end of the turns one
/// offer displaces nearly every probe's, one in the other.
fn rising_band(probes: u16, width: u16) -> Table {
    let near = |low: u16| (low + 1..probes.min(low + 1 + width)).map(move |high| [low, high]);
    let pairs = (0..probes).flat_map(near).zip(0..);
    let links: Vec<[u16; 3]> = pairs.map(|([low, high], cost)| [low, high, cost]).collect();
    let mut table = site(&links, &vec![0; probes.into()]);
    set_needs(&mut table, |_, degree| degree - 1);
    table
}

/// The rising band of so many probes, as wide as the links of the most probes may be: eight for the
/// full caller, two for the display.
pub fn band_for(caller: Caller, probes: u16) -> Table {
    match caller {
        Caller::Full => rising_band(probes, 8),
        Caller::Display => rising_band(probes, 2),
    }
}

/// Three times openings of all probes, then offers and refusals both ways, of a large site on every
/// fifth link; behind the first time a restart of each probe; table 0001.
pub fn bargaining(table: &Table) -> Vec<Vec<u8>> {
    let step = 1 + table.links.len() / 500;
    let openings = (0..table.needs.len() as u16).map(opening);
    let ways = |frame: fn(u16, u16) -> Vec<u8>| {
        let links = table.links.iter().step_by(step);
        links.flat_map(move |link| [frame(link.low, link.high), frame(link.high, link.low)])
    };
    let lines: Vec<Vec<u8>> = openings.chain(ways(offer)).chain(ways(refusal)).collect();
    let restarts: Vec<Vec<u8>> = (0..table.needs.len() as u16).map(restart).collect();
    [&lines[..], &restarts, &lines, &lines].concat()
}

/// What the calls are given.
pub struct Site {
    numbers: Numbers,
    text: Vec<u8>,
    /// A bargaining of the fleet, as lines, as one piece, and behind the table's text.
    lines: Vec<Vec<u8>>,
    piece: Vec<u8>,
    input: Vec<u8>,
    /// The fleet's record after it.
    reached: Vec<u8>,
    /// A probe with the most links, and its own part of that record, in bytes and as maps.
    probe: u16,
    own: Vec<u8>,
    maps: OwnMaps,
    bags: Vec<Vec<u8>>,
}

/// Offers of all neighbours of the probe, then refusals, over and over until they fill bags of the
/// most frames; table 0001.
fn bags(table: &Table, probe: u16) -> Vec<Vec<u8>> {
    let others = table.links.iter().flat_map(|&link| other_end(link, probe));
    let offers = others.clone().map(|other| offer(other, probe));
    let refusals = others.map(|other| refusal(other, probe));
    let frames: Vec<Vec<u8>> = offers.chain(refusals).collect();
    let count = frames.len().next_multiple_of(MOST_FRAMES);
    let frames: Vec<&Vec<u8>> = frames.iter().cycle().take(count).collect();
    let bag = |bag: &[&Vec<u8>]| bag.iter().flat_map(|frame| frame.iter().copied()).collect();
    frames.chunks(MOST_FRAMES).map(bag).collect()
}

impl Site {
    pub fn of(table: &Table) -> Site {
        let degrees = table.degrees();
        let probe = (0..degrees.len()).max_by_key(|&probe| degrees[probe]);
        let probe = probe.expect("a site has a probe") as u16;
        let (numbers, text, lines) = (Numbers::of(table), table.text(), bargaining(table));
        let mut reached = vec![0; BYTES * table.links.len()];
        for line in &lines {
            ffi::fleet_event(numbers.slices(), &mut reached, line, 0, 1);
        }
        let piece = lines.concat();
        let own = own_record(table, probe, &reached);
        Site {
            numbers,
            input: [&text[..], &piece].concat(),
            text,
            lines,
            piece,
            maps: OwnMaps::turned(&own),
            own,
            reached,
            bags: bags(table, probe),
            probe,
        }
    }
}

/// What is lent to a call: fresh records, and room for what it writes.
struct Lending {
    caller: Caller,
    needs: Vec<u16>,
    lows: Vec<u16>,
    highs: Vec<u16>,
    costs: Vec<u16>,
    plan: Vec<u8>,
    work: Vec<u8>,
    own: Vec<u8>,
    maps: OwnMaps,
    record: Vec<u8>,
    line: [u8; 16],
    log: [u64; MOST_FRAMES + 1],
    out: Vec<u8>,
}

impl Lending {
    fn to(site: &Site, caller: Caller) -> Lending {
        let Limits { probes, links } = caller.limits();
        let [lows, highs, costs] = [(); 3].map(|()| vec![0; links]);
        Lending {
            caller,
            needs: vec![0; probes],
            lows,
            highs,
            costs,
            plan: vec![9; links],
            work: vec![9; 4 * links],
            own: vec![9; site.own.len()],
            maps: OwnMaps::fresh(site.own.len() / 2),
            record: vec![0; site.reached.len()],
            line: [9; 16],
            log: [ANSWER_BASE; MOST_FRAMES + 1],
            out: vec![9; room_for(site.input.len())],
        }
    }

    fn read(&mut self, text: &[u8], behind: Behind) -> u64 {
        let lent = Lent {
            needs: &mut self.needs,
            lows: &mut self.lows,
            highs: &mut self.highs,
            costs: &mut self.costs,
        };
        ffi::read(self.caller, text, behind, lent)
    }
}

fn largest(answers: impl Iterator<Item = u64>) -> u64 {
    answers.max().unwrap_or(0)
}

/// As much of the slice as what was printed takes: printed into that, it is counted beforehand.
fn just_holding(answer: u64, out: &mut [u8]) -> &mut [u8] {
    &mut out[..answer.saturating_sub(ANSWER_BASE) as usize]
}

/// Asks the probe for a frame on each link.
fn ask(site: &Site, kind: Kind, out: &mut [u8]) -> u64 {
    let given = site.numbers.slices();
    let ask = |link| ffi::probe_ask(given, site.probe, site.maps.slices(), kind, link, out);
    largest((0..given.links).map(ask))
}

fn check_table(site: &Site, lent: &mut Lending) -> u64 {
    match ffi::check(lent.caller, site.numbers.slices()) {
        0 => ANSWER_BASE,
        refusal => refusal.into(),
    }
}

fn read_table(site: &Site, lent: &mut Lending) -> u64 {
    lent.read(&site.text, Behind::Nothing)
}

fn write_table(site: &Site, lent: &mut Lending) -> u64 {
    ffi::write(lent.caller, site.numbers.slices(), &mut lent.out)
}

fn plan_slse(site: &Site, lent: &mut Lending) -> u64 {
    ffi::plan_by_slse(lent.caller, site.numbers.slices(), &mut lent.plan)
}

fn plan_turns(site: &Site, lent: &mut Lending) -> u64 {
    let (given, plan) = (site.numbers.slices(), &mut lent.plan);
    ffi::plan_by_turns(lent.caller, given, plan, &mut lent.work)
}

fn plan_text(site: &Site, lent: &mut Lending) -> u64 {
    ffi::print_plan(lent.caller, &site.text, &mut lent.out)
}

/// A function for C.
pub struct Call {
    pub name: &'static str,
    pub caller: Caller,
    /// Calls it once or several times; the largest answer.
    make: fn(&Site, &mut Lending) -> u64,
}

const fn full(name: &'static str, make: fn(&Site, &mut Lending) -> u64) -> Call {
    let caller = Caller::Full;
    Call { name, caller, make }
}

const fn display(name: &'static str, make: fn(&Site, &mut Lending) -> u64) -> Call {
    let caller = Caller::Display;
    Call { name, caller, make }
}

pub const CALLS: [Call; 30] = [
    full("planner_check_table", check_table),
    display("planner_display_check_table", check_table),
    display("planner_display_plan_slse", plan_slse),
    display("planner_display_plan_text", plan_text),
    display("planner_display_plan_turns", plan_turns),
    display("planner_display_read_table", read_table),
    display("planner_display_write_table", write_table),
    full("planner_fleet_event", |site, lent| {
        let (given, record) = (site.numbers.slices(), &mut lent.record);
        let event = |line: &Vec<u8>| ffi::fleet_event(given, record, line, 0, 1);
        largest(site.lines.iter().map(event))
    }),
    full("planner_fleet_event_logged", |site, lent| {
        let (given, record, log) = (site.numbers.slices(), &mut lent.record, &mut lent.log);
        let event = |line: &Vec<u8>| ffi::fleet_event_logged(given, record, line, log, 1);
        largest(site.lines.iter().map(event))
    }),
    full("planner_fleet_finished", |site, lent| {
        let finished = |record: &Vec<u8>| ffi::fleet_finished(site.numbers.slices(), record);
        largest([&lent.record, &site.reached].into_iter().map(finished))
    }),
    full("planner_log_entry", |_, lent| {
        ffi::log_entry(&lent.log, 2, 1)
    }),
    full("planner_plan_slse", plan_slse),
    full("planner_plan_text", plan_text),
    full("planner_plan_turns", plan_turns),
    full("planner_probe_ask_offer", |site, lent| {
        ask(site, Kind::Offer, &mut lent.out)
    }),
    full("planner_probe_ask_refusal", |site, lent| {
        ask(site, Kind::Refusal, &mut lent.out)
    }),
    full("planner_probe_bytes_of", |site, lent| {
        let (given, maps) = (site.numbers.slices(), site.maps.slices());
        ffi::probe_bytes_of(given, site.probe, maps, &mut lent.own)
    }),
    full("planner_probe_hear", |site, lent| {
        let (given, maps) = (site.numbers.slices(), &mut lent.maps);
        ffi::probe_open(given, site.probe, maps.lend(), 1);
        let hear = |line: &Vec<u8>| ffi::probe_hear(given, site.probe, maps.lend(), line, 1);
        largest(site.lines.iter().map(hear))
    }),
    full("planner_probe_hear_bag", |site, lent| {
        let (given, maps, log) = (site.numbers.slices(), &mut lent.maps, &mut lent.log);
        ffi::probe_open(given, site.probe, maps.lend(), 1);
        let hear = |bag: &Vec<u8>| ffi::probe_hear_bag(given, site.probe, maps.lend(), bag, log, 1);
        largest(site.bags.iter().map(hear))
    }),
    full("planner_probe_hear_logged", |site, lent| {
        let (given, maps, log) = (site.numbers.slices(), &mut lent.maps, &mut lent.log);
        ffi::probe_open(given, site.probe, maps.lend(), 1);
        let hear =
            |line: &Vec<u8>| ffi::probe_hear_logged(given, site.probe, maps.lend(), line, log, 1);
        largest(site.lines.iter().map(hear))
    }),
    full("planner_probe_maps_of", |site, lent| {
        let (given, maps) = (site.numbers.slices(), lent.maps.lend());
        ffi::probe_maps_of(given, site.probe, &site.own, maps)
    }),
    full("planner_probe_open", |site, lent| {
        let (given, maps) = (site.numbers.slices(), &mut lent.maps);
        largest((0..20).map(|_| ffi::probe_open(given, site.probe, maps.lend(), 1)))
    }),
    full("planner_probe_open_logged", |site, lent| {
        let (given, maps, log) = (site.numbers.slices(), &mut lent.maps, &mut lent.log);
        largest((0..20).map(|_| ffi::probe_open_logged(given, site.probe, maps.lend(), log, 1)))
    }),
    full("planner_probe_rests", |site, _| {
        let (given, maps) = (site.numbers.slices(), site.maps.slices());
        let rests = |link| ffi::probe_rests(given, site.probe, maps, link);
        largest((0..given.links).map(rests))
    }),
    full("planner_read_table", read_table),
    full("planner_read_table_prefix", |site, lent| {
        lent.read(&site.input, Behind::Anything)
    }),
    full("planner_script_end", |site, lent| {
        let (given, out) = (site.numbers.slices(), &mut lent.out);
        let end = |record: &Vec<u8>| ffi::script_end(given, record, 3, 7, out);
        largest([&lent.record, &site.reached].into_iter().map(end))
    }),
    full("planner_script_piece", |site, lent| {
        let (given, line, piece) = (site.numbers.slices(), &mut lent.line, &site.piece);
        let mut again = lent.record.clone();
        let (record, out) = (&mut lent.record, &mut lent.out);
        let answer = ffi::script_piece(given, record, line, &mut [0; 3], piece, out);
        let out = just_holding(answer, out);
        answer.max(ffi::script_piece(
            given,
            &mut again,
            line,
            &mut [0; 3],
            piece,
            out,
        ))
    }),
    full("planner_script_text", |site, lent| {
        let text = |input: &Vec<u8>| {
            let answer = ffi::script_text(input, &mut lent.out);
            answer.max(ffi::script_text(input, just_holding(answer, &mut lent.out)))
        };
        largest([&site.text, &site.input].into_iter().map(text))
    }),
    full("planner_write_table", write_table),
];

impl Call {
    /// The largest answer, and how deep the call goes with so many bytes of stack.
    pub fn measured(&self, site: &Site, limit: usize) -> (u64, usize) {
        let (mut answer, mut lent) = (0, Lending::to(site, self.caller));
        let depth = depth(limit, &mut || answer = (self.make)(site, &mut lent));
        (answer, depth)
    }
}

/// Of the caller's largest size: random and equal costs, hubs, all links needed, all probes short;
/// and the rising band.
pub fn largest_sites(caller: Caller) -> Vec<Table> {
    let (limits, random) = (caller.limits(), &mut Random::new(90));
    let [random_costs, equal_costs] = [65_536, 1].map(|costs| {
        let table = legal_of_size(limits.probes, limits.links, random);
        half_needed(table, costs, random)
    });
    let hubs = [65_536, 1].map(|costs| half_needed(largest_hubs(limits), costs, random));
    let [needed, short] = [0, 1].map(|more| {
        let mut table = random_costs.clone();
        set_needs(&mut table, |_, degree| degree + more);
        table
    });
    let band = band_for(caller, limits.probes as u16);
    let mut sites = vec![random_costs, equal_costs, needed, short, band];
    sites.extend(hubs);
    sites
}

/// Both callers' largest sites, one of each once more with its last link not after the one before it,
/// and random small ones, so that the calls take every way; each with whether it is legal, as table
/// 0001.
pub fn sites() -> Vec<(Table, bool)> {
    let mut legal = Vec::new();
    let mut refused = Vec::new();
    for (caller, Limits { links, .. }) in [(Caller::Full, FULL), (Caller::Display, DISPLAY)] {
        legal.extend(largest_sites(caller));
        let mut table = largest_sites(caller).swap_remove(0);
        table.links[links - 1] = table.links[links - 2];
        refused.push((table, false));
    }
    each_table(91, 100, |table, _| legal.push(table.clone()));
    legal.retain(|table| !table.links.is_empty());
    let mut sites: Vec<(Table, bool)> = legal.into_iter().map(|table| (table, true)).collect();
    sites.extend(refused);
    for (table, _) in &mut sites {
        table.number = 1;
    }
    sites
}

/// The deepest that each planning call goes: by S-LSE, by turns, the plan's text.
pub fn of_planning() -> Vec<(&'static str, usize)> {
    let sites: Vec<Site> = sites().iter().map(|(table, _)| Site::of(table)).collect();
    let planning = CALLS.iter().filter(|call| call.name.contains("_plan_"));
    let deepest = |call: &Call| {
        let depths = sites.iter().map(|site| call.measured(site, ENOUGH).1);
        (call.name, depths.max().unwrap_or(0))
    };
    planning.map(deepest).collect()
}
