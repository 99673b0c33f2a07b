//! Random events for an end, and damaged frames and records.

use crate::compare_ends::End;
use crate::ends::{other_end, Frame, What, MOST_FRAMES};
use crate::maps::{bit, flip, MAPS};
use crate::random::{each_seed, Random};
use crate::reference::Table;
use crate::sites::{all_or_more, crowded, hubs, legal, legal_of_size, set_costs, set_needs};

/// A legal table; most are small and dense or have hubs, with equal costs and little spare, so that
/// offers are often refused or displaced.
pub fn any_table(random: &mut Random) -> Table {
    let probes = 3 + random.below(6);
    let mut table = match random.below(16) {
        0 => return crowded(random),
        1 | 2 => return legal(random),
        3..=6 => hubs(2 * probes as u16, 1 + random.below(2) as u16),
        _ => {
            let most = probes * (probes - 1) / 2;
            legal_of_size(probes, most - random.below(probes), random)
        }
    };
    table.number = random.short();
    let costs = random.pick(&[1, 2, 4, 32]);
    set_costs(&mut table, || random.below(costs) as u16);
    set_needs(&mut table, |_, degree| match random.below(4) {
        0 => all_or_more(degree, random),
        spare => degree.saturating_sub(spare),
    });
    table
}

/// Runs with so many random tables, each from a seed of its own in this series. More than a quarter
/// have a short probe.
#[track_caller]
pub fn each_table(series: u64, count: u64, mut run: impl FnMut(&Table, &mut Random)) {
    let mut with_short = 0;
    each_seed(series, count, |random| {
        let table = any_table(random);
        with_short += u64::from(table.has_short());
        run(&table, random);
    });
    assert!(4 * with_short > count, "{with_short} with a short probe");
}

/// A refusal for the table or the record, which every call makes.
pub fn of_state(refusal: Option<u8>) -> Option<u8> {
    refusal.filter(|number| matches!(number, 3..=5 | 8 | 20..=22))
}

/// The places of the probe's links.
pub fn own_links(table: &Table, probe: u16) -> Vec<usize> {
    let own = |&place: &usize| other_end(table.links[place], probe).is_some();
    (0..table.links.len()).filter(own).collect()
}

/// A probe, often one with links.
pub fn any_probe(table: &Table, random: &mut Random) -> u16 {
    let any = random.below(table.needs.len()) as u16;
    if table.links.is_empty() {
        return any;
    }
    let link = table.links[random.below(table.links.len())];
    random.pick(&[link.low, link.high, link.high, any])
}

/// An offer or a refusal to the probe from another end of its links; from itself where it has none.
pub fn any_frame(table: &Table, probe: u16, random: &mut Random) -> Frame {
    let own = own_links(table, probe);
    let from = match own.is_empty() {
        true => Some(probe),
        false => other_end(table.links[random.pick(&own)], probe),
    };
    Frame {
        kind: random.pick(&[1, 1, 2]),
        number: table.number,
        from: from.unwrap_or(probe),
        to: probe,
    }
}

/// The frames of a bag: offers and refusals to the probe, often a few of them many times. One bag in
/// twelve has too many.
pub fn any_bag(table: &Table, probe: u16, random: &mut Random) -> Vec<Vec<u8>> {
    let (few, many) = (random.below(9), random.below(MOST_FRAMES + 1));
    let too_many = MOST_FRAMES + 1 + random.below(40);
    let count = match random.below(12) {
        0 => too_many,
        1 => MOST_FRAMES,
        2..=4 => many,
        _ => few,
    };
    let different = 1 + random.below(count + 1);
    let frames: Vec<Vec<u8>> = (0..different)
        .map(|_| any_frame(table, probe, random).line())
        .collect();
    let chosen = (0..count).map(|_| frames[random.below(different)].clone());
    chosen.collect()
}

/// How many entries are free: seldom none.
pub fn any_room(random: &mut Random) -> usize {
    random.pick(&[0, 1, 1, 2, 1024, usize::MAX])
}

/// Lets an opening or a frame that passes 24 befall the end, with an entry free.
#[track_caller]
pub fn befall(end: &mut End, table: &Table, random: &mut Random) -> Result<What, u8> {
    match random.below(3) {
        0 => end.open(1),
        _ => end.hear(&any_frame(table, end.probe, random).line(), 1),
    }
}

/// A fresh end; often its slices have random entries beyond the table's own.
pub fn fresh(table: &Table, probe: u16, random: &mut Random) -> End {
    let mut end = End::fresh(table, probe);
    end.numbers.lend_longer(random);
    end
}

/// The same after some random events.
#[track_caller]
pub fn reached(table: &Table, probe: u16, random: &mut Random) -> End {
    let mut end = fresh(table, probe, random);
    let links = own_links(table, probe).len().min(40);
    for _ in 0..random.below(4 * links + 2) {
        let befell = befall(&mut end, table, random);
        assert!(matches!(befell, Ok(_) | Err(24)));
    }
    end
}

/// Changes one of the frame's numbers.
pub fn damage_frame(frame: &mut Frame, table: &Table, random: &mut Random) {
    let (any, short) = (random.below(table.needs.len()) as u16, random.short());
    let count = table.needs.len() as u16;
    let probe = random.pick(&[any, any, count, short, 0xffff, frame.from, frame.to]);
    match random.below(5) {
        0 => frame.kind = random.pick(&[0, 3, 4, 0x10, 0x20, 0xff]),
        1 => frame.number = random.pick(&[short, frame.number ^ 1, frame.number ^ 0x8000]),
        2 => frame.to = probe,
        3 => frame.from = probe,
        _ => (frame.from, frame.to) = (frame.to, frame.from),
    }
}

/// Cuts, lengthens or alters the line.
pub fn damage_line(line: &mut Vec<u8>, random: &mut Random) {
    let place = random.below(line.len().max(1));
    let likely = random.pick(b"\n\n\r 0AFGg/:\0\x7f\x80\xff");
    let any = random.byte();
    match random.below(6) {
        0 => line.truncate(place),
        1 => line.insert(place, random.pick(b"00af\n\r")),
        2 => line.push(random.pick(b"\n\n0\r")),
        3 => line.make_ascii_uppercase(),
        _ if line.is_empty() => line.push(any),
        _ => line[place] = random.pick(&[likely, likely, any]),
    }
}

/// The frame's line after so many damages to its numbers, then to its bytes.
pub fn damaged_line(
    mut frame: Frame,
    [in_frame, in_line]: [usize; 2],
    table: &Table,
    random: &mut Random,
) -> Vec<u8> {
    for _ in 0..in_frame {
        damage_frame(&mut frame, table, random);
    }
    let mut line = frame.line();
    for _ in 0..in_line {
        damage_line(&mut line, random);
    }
    line
}

/// Makes the record one that 20, 21 or 22 may refuse.
pub fn damage_record(end: &mut End, table: &Table, random: &mut Random) {
    let (own, any) = (own_links(table, end.probe), random.word());
    let map = end.maps.at(random.below(MAPS));
    match random.below(16) {
        0 => drop(map.pop()),
        1 => map.push(random.pick(&[0, 1, any])),
        2 => map.resize(random.below(map.len() + 3), 0),
        3 | 4 => flip_any(map, random),
        5 => {
            let (links, bits) = (table.links.len(), 64 * map.len());
            if links < bits {
                flip(map, links + random.below(bits - links));
            }
        }
        6 | 7 if !own.is_empty() => set_twice(end, random.pick(&own), random),
        _ => {
            let spare = table.spares().get(usize::from(end.probe)).copied();
            let ones = spare.unwrap_or(0) + random.below(2);
            set_ones(end, own, ones, random);
        }
    }
}

fn flip_any(map: &mut [u64], random: &mut Random) {
    if !map.is_empty() {
        flip(map, random.below(64 * map.len()));
    }
}

/// The two maps of a direction, the first of them that of the ones.
fn direction(end: &mut End, outbound: bool) -> [&mut Vec<u64>; 2] {
    let maps = end.maps.each_mut();
    match outbound {
        true => [maps.standing, maps.refused_out],
        false => [maps.held, maps.refused_in],
    }
}

/// Sets the link's bit, or takes it away, if the map reaches so far.
fn put(map: &mut [u64], link: usize, value: bool) {
    if link < 64 * map.len() && bit(map, link) != value {
        flip(map, link);
    }
}

/// Sets the link in both maps of a direction.
fn set_twice(end: &mut End, link: usize, random: &mut Random) {
    for map in direction(end, random.one_in(2)) {
        put(map, link, true);
    }
}

/// In a random order.
pub fn shuffled<T>(mut things: Vec<T>, random: &mut Random) -> Vec<T> {
    for place in (1..things.len()).rev() {
        things.swap(place, random.below(place + 1));
    }
    things
}

/// Gives so many of the own links a 1, all outbound or all inbound, and the others none there.
fn set_ones(end: &mut End, own: Vec<usize>, ones: usize, random: &mut Random) {
    let [one, two] = direction(end, random.one_in(2));
    for (done, place) in shuffled(own, random).into_iter().enumerate() {
        put(one, place, done < ones);
        put(two, place, done >= ones && random.one_in(2));
    }
}

/// The bytes of a record of the probe that 20 to 22 let pass: up to its spare stand, and up to its
/// spare are held.
pub fn any_record(table: &Table, probe: u16, random: &mut Random) -> Vec<u8> {
    let mut record = vec![0; 2 * table.links.len()];
    let own = own_links(table, probe);
    let spare = table.spares().get(usize::from(probe)).copied().unwrap_or(0);
    for side in 0..2 {
        let any = random.below(spare + 1);
        let mut ones = random.pick(&[spare, any]);
        for place in shuffled(own.clone(), random) {
            record[2 * place + side] = match ones {
                0 => random.pick(&[0, 0, 2]),
                _ => 1,
            };
            ones = ones.saturating_sub(1);
        }
    }
    record
}
