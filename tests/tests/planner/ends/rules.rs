//! What an end does: opening, taking and displacing, asking, and whole bargainings.

use super::{m2_end_with, without_spare};
use planner_tests::compare_ends::End;
use planner_tests::ends::{other_end, Frame, Kind, What, LINE};
use planner_tests::events::own_links;
use planner_tests::ffi;
use planner_tests::lines::{offer, refusal};
use planner_tests::maps::OwnMaps;
use planner_tests::random::{each_seed, Random};
use planner_tests::reference::{falling, plan, Table, FULL};
use planner_tests::sites::{half_needed, largest_hubs, legal_of_size, marked, site, Numbers};

#[test]
fn spare_0_refuses_every_offer() {
    let mut end = End::fresh(&without_spare(), 1);
    assert_eq!(end.hear(&offer(0, 1), 1), Ok(What::Refused(0)));
    assert_eq!(end.hear(&offer(2, 1), 1), Ok(What::Refused(1)));
    assert_eq!(end.hear(&offer(2, 1), 1), Ok(What::NoChange(1)));
    assert_eq!(end.open(1), Ok(What::Enough));
    assert_eq!(end.record(), [0, 2, 0, 2, 0, 0]);
    for (link, to) in [(0, 0), (1, 2)] {
        let line = Some(refusal(1, to));
        assert_eq!(end.ask(Kind::Refusal, link, LINE), Ok(line));
        assert_eq!(end.ask(Kind::Offer, link, LINE), Ok(None));
    }
}

/// Probe 3 joined to all others; it needs three of its five links.
fn star(costs: [u16; 5]) -> End {
    let ends = [[0, 3], [1, 3], [2, 3], [3, 4], [3, 5]];
    let link = |place: usize| [ends[place][0], ends[place][1], costs[place]];
    let links: Vec<[u16; 3]> = (0..5).map(link).collect();
    End::fresh(&site(&links, &[0, 0, 0, 3, 0, 0]), 3)
}

fn displacing(link: usize, displaced: u16) -> Result<What, u8> {
    Ok(What::Displacing { link, displaced })
}

/// At equal cost the lower low end is cheaper, then the lower high end.
#[test]
fn displacing_takes_the_cheapest_held() {
    let mut end = star([5; 5]);
    assert_eq!(end.hear(&offer(1, 3), 1), Ok(What::Taken(1)));
    assert_eq!(end.hear(&offer(4, 3), 1), Ok(What::Taken(3)));
    assert_eq!(end.hear(&offer(0, 3), 1), Ok(What::Refused(0)));
    assert_eq!(end.hear(&offer(2, 3), 1), displacing(2, 1));
    assert_eq!(end.hear(&offer(5, 3), 1), displacing(4, 2));
    for from in [0, 1, 2, 4, 5] {
        assert!(matches!(
            end.hear(&offer(from, 3), 1),
            Ok(What::NoChange(_))
        ));
    }
    assert_eq!(end.record(), [0, 2, 0, 2, 0, 2, 0, 1, 0, 1]);
}

#[test]
fn cost_goes_before_number() {
    let mut end = star([9, 5, 5, 4, 5]);
    assert_eq!(end.hear(&offer(4, 3), 1), Ok(What::Taken(3)));
    assert_eq!(end.hear(&offer(2, 3), 1), Ok(What::Taken(2)));
    assert_eq!(end.hear(&offer(1, 3), 1), displacing(1, 4));
    assert_eq!(end.hear(&offer(0, 3), 1), displacing(0, 1));
    assert_eq!(end.hear(&offer(5, 3), 1), displacing(4, 2));
}

#[test]
fn opening_takes_the_dearest_untried() {
    let orders = [
        ([5; 5], [4, 3, 2, 1, 0]),
        ([0; 5], [4, 3, 2, 1, 0]),
        ([9, 5, 5, 4, 5], [0, 4, 2, 1, 3]),
        ([0, 65_535, 65_535, 256, 255], [2, 1, 3, 4, 0]),
    ];
    for (costs, order) in orders {
        let mut end = star(costs);
        for (done, link) in order.into_iter().enumerate() {
            assert_eq!(end.open(1), Ok(What::Opened(link)));
            if done == 0 {
                continue;
            }
            // Two stand, its spare; a refusal makes room, and its link is not offered again.
            assert_eq!(end.open(1), Ok(What::Enough));
            let from = [0, 1, 2, 4, 5][link];
            assert_eq!(end.hear(&refusal(from, 3), 1), Ok(What::Learnt(link)));
            assert_eq!(end.hear(&refusal(from, 3), 1), Ok(What::NoChange(link)));
        }
        // One stands, and the other four are refused.
        assert_eq!(end.open(1), Ok(What::AllTried));
    }
}

#[test]
fn asking_twice_gives_the_same_line() {
    let mut end = m2_end_with(&[2, 0, 1, 2, 0, 0]);
    for length in [LINE, LINE, LINE + 1, 64] {
        assert_eq!(end.ask(Kind::Offer, 1, length), Ok(Some(offer(1, 2))));
        assert_eq!(end.ask(Kind::Refusal, 1, length), Ok(Some(refusal(1, 2))));
        for kind in Kind::BOTH {
            assert_eq!(end.ask(kind, 0, length), Ok(None));
        }
    }
    for length in 0..LINE {
        for (kind, link) in [(Kind::Offer, 1), (Kind::Refusal, 0), (Kind::Offer, 9)] {
            assert_eq!(end.ask(kind, link, length), Err(8));
        }
    }
}

#[test]
fn asked_by_the_bytes_alone() {
    for outbound in 0..=2 {
        for inbound in 0..=2 {
            let mut end = m2_end_with(&[outbound, inbound, 0, 0, 0, 0]);
            let [offered, refused] = Kind::BOTH.map(|kind| end.ask(kind, 0, LINE));
            let line = offer(1, 0);
            assert_eq!(offered, Ok((outbound == 1).then_some(line)));
            let line = refusal(1, 0);
            assert_eq!(refused, Ok((inbound == 2).then_some(line)));
            let both = outbound == 1 && inbound == 1;
            assert_eq!(end.rests(0), Ok(both));
        }
    }
}

#[test]
fn asked_line_is_heard_by_the_other_end() {
    let mut table = marked(1);
    for number in [0, 1, 0xabcd, 0xffff] {
        table.number = number;
        let [mut one, mut two] = [1, 2].map(|probe| End::fresh(&table, probe));
        assert_eq!(one.open(1), Ok(What::Opened(1)));
        let line = one.ask(Kind::Offer, 1, LINE).ok().flatten();
        let line = line.expect("a standing offer may be sent");
        let frame = Frame {
            kind: 1,
            number,
            from: 1,
            to: 2,
        };
        assert_eq!(Frame::of_line(&line), Ok(frame));
        assert_eq!(one.hear(&line, 1), Err(24));
        assert_eq!(two.hear(&line, 1), Ok(What::Taken(1)));
    }
}

/// The answers and the records as they pass: the probe from bit 40, its code from bit 32, then the
/// link and the displaced probe.
#[test]
fn answers_as_numbers() {
    let numbers = Numbers::of(&marked(1));
    let mut maps = OwnMaps::fresh(3);
    let mut open = || ffi::probe_open(numbers.slices(), 1, maps.lend(), 1);
    assert_eq!(open(), 0x8000_0100_0001_ffff);
    assert_eq!(open(), 0x8000_0101_ffff_ffff);
    let mut hear = |line: &[u8]| ffi::probe_hear(numbers.slices(), 1, maps.lend(), line, 1);
    assert_eq!(hear(b"01000100000001\n"), 0x8000_0102_0000_ffff);
    assert_eq!(hear(b"01000100020001\n"), 0x8000_0103_0001_0000);
    assert_eq!(hear(b"02000100020001\n"), 0x8000_0105_0001_ffff);
    assert_eq!(hear(b"02000100020001\n"), 0x8000_0106_0001_ffff);
    assert_eq!(hear(b"02000100000001\n"), 0x8000_0105_0000_ffff);
    assert_eq!(hear(b"03000100010001\n"), 9);
    assert_eq!(maps.clone().array(), [[0b00], [0b11], [0b10], [0b01]]);
    let mut tried = OwnMaps::turned(&[2, 0, 0, 0, 0, 0]);
    let opened = ffi::probe_open(numbers.slices(), 0, tried.lend(), 1);
    assert_eq!(opened, 0x8000_0007_ffff_ffff);
    let mut out = [9; 17];
    let mut ask = |kind, link| {
        let answer = ffi::probe_ask(numbers.slices(), 1, maps.slices(), kind, link, &mut out);
        (answer, out)
    };
    assert_eq!(ask(Kind::Offer, 1), (0x0001_0000_0000_0000, [9; 17]));
    assert_eq!(ask(Kind::Refusal, 2), (24, [9; 17]));
    let line = *b"02000100010000\n\x09\x09";
    assert_eq!(ask(Kind::Refusal, 0), (0x0001_0000_0000_0001, line));
    let rests = |maps: &OwnMaps| ffi::probe_rests(numbers.slices(), 1, maps.slices(), 1);
    assert_eq!(rests(&maps), 0x0001_0000_0000_0000);
    let mut record = [9; 7];
    let answer = ffi::probe_bytes_of(numbers.slices(), 1, maps.slices(), &mut record);
    assert_eq!((answer, record), (1 << 48, [2, 2, 2, 1, 0, 0, 9]));
    let both = [0, 0, 1, 1, 0, 0];
    let answer = ffi::probe_maps_of(numbers.slices(), 1, &both, maps.lend());
    assert_eq!(answer, 0x0001_0000_0000_0000);
    assert_eq!(maps.clone().array(), [[0b10], [0], [0b10], [0]]);
    assert_eq!(rests(&maps), 0x0001_0000_0000_0001);
    maps.held.push(0);
    assert_eq!(rests(&maps), 20);
}

/// The lines that may be sent now.
fn sendable(ends: &mut [End]) -> Vec<Vec<u8>> {
    let mut lines = Vec::new();
    for end in ends {
        for link in 0..end.numbers.links {
            for kind in Kind::BOTH {
                lines.extend(end.ask(kind, link, LINE).unwrap_or(None));
            }
        }
    }
    lines
}

/// The end that the line is for hears it; answers the changes.
#[track_caller]
fn pass_on(line: &[u8], ends: &mut [End]) -> usize {
    let to = Frame::of_line(line).expect("an asked line is a frame").to;
    let befell = ends[usize::from(to)].hear(line, 1);
    befell.expect("a frame that was sent is accepted").changes()
}

/// Each end opens, and of the frames that may then be sent some arrive; answers the changes.
#[track_caller]
fn round(ends: &mut [End], mut arrives: impl FnMut() -> bool) -> usize {
    let mut changes = 0;
    for end in ends.iter_mut() {
        changes += end.open(1).expect("an opening is accepted").changes();
    }
    for line in sendable(ends) {
        if arrives() {
            changes += pass_on(&line, ends);
        }
    }
    changes
}

fn fresh(table: &Table) -> Vec<End> {
    let probes = 0..table.needs.len() as u16;
    probes.map(|probe| End::fresh(table, probe)).collect()
}

/// The probe, the frame it hears or none where it opens, and what befalls it.
type Event = (u16, Option<Vec<u8>>, What);

/// Each frame heard may be sent then, and after the events nothing changes. Answers the changes.
#[track_caller]
fn run(table: &Table, events: &[Event]) -> usize {
    let mut ends = fresh(table);
    for (probe, heard, what) in events {
        let sent = sendable(&mut ends);
        assert!(heard.as_ref().is_none_or(|line| sent.contains(line)));
        let end = &mut ends[usize::from(*probe)];
        let befell = match heard {
            None => end.open(1),
            Some(line) => end.hear(line, 1),
        };
        assert_eq!(befell, Ok(*what));
    }
    assert_eq!(round(&mut ends, || true), 0);
    events.iter().map(|(.., what)| what.changes()).sum()
}

#[test]
fn m4_in_four_events() {
    let events = [
        (0, None, What::Opened(0)),
        (1, Some(offer(0, 1)), What::Taken(0)),
        (1, None, What::Opened(0)),
        (0, Some(offer(1, 0)), What::Taken(0)),
    ];
    assert_eq!(run(&marked(3), &events), 4);
}

#[test]
fn m11() {
    let displaced = What::Displacing {
        link: 1,
        displaced: 0,
    };
    let events = [
        (0, None, What::Opened(0)),
        (1, Some(offer(0, 1)), What::Taken(0)),
        (1, None, What::Opened(1)),
        (2, Some(offer(1, 2)), What::Taken(1)),
        (2, None, What::Opened(1)),
        (1, Some(offer(2, 1)), displaced),
        (0, Some(refusal(1, 0)), What::Learnt(0)),
        (3, None, What::Opened(2)),
        (2, Some(offer(3, 2)), What::Refused(2)),
        (3, Some(refusal(2, 3)), What::Learnt(2)),
    ];
    assert_eq!(run(&marked(1), &events), 11);
}

/// Frames are lost, repeated and late; then all arrive until nothing changes.
fn bargain(table: &Table, random: &mut Random) -> Vec<End> {
    let mut ends = fresh(table);
    let mut late = Vec::new();
    for _ in 0..random.below(8) {
        round(&mut ends, || random.one_in(4));
        late.extend(sendable(&mut ends));
        for _ in 0..random.below(late.len() + 1).min(20) {
            pass_on(&late[random.below(late.len())], &mut ends);
        }
    }
    while round(&mut ends, || true) > 0 {}
    ends
}

#[test]
fn ends_finish_with_the_plan() {
    let mut with_short = 0;
    each_seed(6, 600, |random| {
        let probes = 2 + random.below(6);
        let links = random.below(probes * (probes - 1) / 2 + 1);
        let table = legal_of_size(probes, links, random);
        let mut ends = bargain(&table, random);
        let kept = plan(&table).kept;
        for (place, link) in table.links.iter().enumerate() {
            for end in link.ends() {
                assert_eq!(ends[end].rests(place as u16), Ok(!kept[place]));
            }
        }
        with_short += usize::from(table.has_short());
    });
    assert!(with_short > 100, "{with_short}");
}

/// Offered all its links, an end holds the dearest in the end.
#[track_caller]
fn hold_the_dearest(table: &Table, probe: u16) {
    let own = own_links(table, probe);
    let order = falling(&table.links).into_iter();
    let falling: Vec<usize> = order.filter(|place| own.contains(place)).collect();
    let spare = table.spares()[usize::from(probe)];
    let mut end = End::fresh(table, probe);
    for &place in &falling[..spare] {
        assert_eq!(end.open(1), Ok(What::Opened(place)));
    }
    assert_eq!(end.open(1), Ok(What::Enough));
    for &place in &own {
        let from = other_end(table.links[place], probe).expect("an own link");
        assert!(end.hear(&offer(from, probe), 1).is_ok());
    }
    for (rank, &place) in falling.iter().enumerate() {
        assert_eq!(end.rests(place as u16), Ok(rank < spare));
        let refused = end.ask(Kind::Refusal, place as u16, LINE);
        assert_eq!(refused.map(|line| line.is_some()), Ok(rank >= spare));
    }
}

#[test]
fn largest_site() {
    let table = half_needed(largest_hubs(FULL), 3, &mut Random::new(26));
    for probe in [0, 1, 7, 8, 44, 45, 255] {
        hold_the_dearest(&table, probe);
    }
}
