//! 02's probes that hear too few: in texts and slices, in plans, in scripts and at the ends.

use planner_tests::channel::{any_mix, any_script, Channel};
use planner_tests::compare;
use planner_tests::compare_ends::End;
use planner_tests::compare_fleet::Fleet;
use planner_tests::compare_script::{in_pieces, text};
use planner_tests::ends::{Entry, Kind, What, LINE};
use planner_tests::events::{any_table, each_table, own_links};
use planner_tests::fleet::with_marks;
use planner_tests::lines::{offer, opening, refusal};
use planner_tests::random::{each_seed, Random};
use planner_tests::reference::{table_of_text, Behind, Caller, Table};
use planner_tests::samples::{self, VALLEY, VALLEY_PLANNED, VALLEY_PRINTED, VALLEY_SCRIPT};
use planner_tests::sites::{
    all_or_more, banded, crowded, hubs, legal, legal_of_size, set_needs, site, Numbers,
};

fn valley() -> Table {
    let text = samples::text(&VALLEY);
    table_of_text(Caller::Full, &text, Behind::Nothing).expect("a legal table")
}

/// What the plan's text is, line by line; both methods keep the links that it has.
#[track_caller]
fn planned(table: &Table) -> Vec<String> {
    let plan = compare::plan_table(Caller::Full, table, &mut Random::new(38));
    let output = String::from_utf8(plan.text(table)).expect("only digits are printed");
    output.lines().map(str::to_owned).collect()
}

#[test]
fn plan_of_the_valley() {
    assert_eq!(planned(&valley()), VALLEY_PLANNED);
    let plan = compare::plan_table(Caller::Full, &valley(), &mut Random::new(39));
    assert_eq!(plan.kept, [true, false, true, false]);
}

#[test]
fn need_65_535() {
    let pair = site(&[[0, 1, 7]], &[65_535, 0]);
    let expected = ["0001000100000007", "000000010007", "0000fffe", "ffff"];
    assert_eq!(planned(&pair), expected);
    let alone = site(&[], &[65_535]);
    let expected = ["0001000000000000", "0000ffff", "ffff"];
    assert_eq!(planned(&alone), expected);
}

#[test]
fn no_links_and_need_2() {
    let expected = ["0001000000000000", "00000002", "ffff"];
    assert_eq!(planned(&site(&[], &[2])), expected);
    // Beside a pair that rests its link.
    let beside = site(&[[0, 2, 7]], &[0, 2, 0]);
    let expected = ["0001000000000000", "00010002", "ffff"];
    assert_eq!(planned(&beside), expected);
}

/// The middle of a star has four links.
#[test]
fn need_equal_to_the_links_is_not_listed() {
    let star = |need| {
        let links: Vec<[u16; 3]> = (1..5).map(|high| [0, high, 3]).collect();
        planned(&site(&links, &[need, 0, 0, 0, 0]))
    };
    assert_eq!(star(3)[0], "0001000300000009");
    let equal = star(4);
    assert_eq!(equal[0], "000100040000000c");
    assert_eq!(equal[5..], ["ffff"]);
    for (need, short) in [(5, "00000001"), (6, "00000002"), (260, "00000100")] {
        let above = star(need);
        assert_eq!(above[..5], equal[..5]);
        assert_eq!(above[5..], [short, "ffff"]);
    }
}

/// Every other probe of a ring is short: the short lines stand in number order behind the kept
/// links, and the kept count does not count them.
#[test]
fn place_and_order_of_the_short_lines() {
    let mut links: Vec<[u16; 3]> = (0..11).map(|low| [low, low + 1, 20 - low]).collect();
    links.insert(1, [0, 11, 2]);
    let needs = [0, 65_535, 0, 3, 1, 4, 2, 300, 0, 5, 2, 3];
    let output = planned(&site(&links, &needs));
    let short = [
        "0001fffd", "00030001", "00050002", "0007012a", "00090003", "000b0001",
    ];
    // Each link has a short end, so that all are kept.
    assert_eq!(output[0], "0001000c000000a7");
    assert!(output[1..13].iter().all(|line| line.len() == 12));
    assert_eq!(output[13..19], short);
    assert_eq!(output[19..], ["ffff"]);
}

/// From the need as given, not from the counted one.
#[test]
fn missing_is_the_need_less_the_links() {
    for (need, missing) in [
        (3, 1),
        (4, 2),
        (0x100, 0xfe),
        (0x1234, 0x1232),
        (0xffff, 0xfffd),
    ] {
        let output = planned(&site(&[[0, 1, 5], [1, 2, 6]], &[0, need, 0]));
        assert_eq!(
            output[3..],
            [format!("0001{missing:04x}"), "ffff".to_owned()]
        );
    }
}

/// Each of the 256 probes of the largest site is short, by another count.
#[test]
fn all_256_probes_short_at_2_048_links() {
    let random = &mut Random::new(40);
    let mut table = legal_of_size(256, 2048, random);
    set_needs(&mut table, |probe, degree| degree + 65_280 - 255 * probe);
    let (text, lines) = (table.text(), planned(&table));
    assert_eq!(lines.len(), 1 + 2048 + 256 + 1);
    assert_eq!(lines[0][4..8], *"0800");
    for (probe, line) in lines[2049..2305].iter().enumerate() {
        assert_eq!(*line, format!("{probe:04x}{:04x}", 65_280 - 255 * probe));
    }
    assert_eq!(
        compare::plan_text(Caller::Full, &text, 28_949, random),
        Err(8)
    );
    let printed = compare::plan_text(Caller::Full, &text, 28_950, random).expect("it just fits");
    assert!(printed == [lines.join("\n"), "\n".to_owned()].concat().into_bytes());
}

/// Read and written back, a need above the links is the one given.
#[test]
fn texts_and_slices_keep_the_need() {
    let (mut above, mut tables) = (0, 0);
    each_seed(100, 2_000, |random| {
        let table = legal(random);
        let (text, numbers) = (table.text(), Numbers::of(&table));
        for behind in Behind::BOTH {
            let read = compare::read(Caller::Full, &text, behind, numbers.lent, random);
            assert_eq!(read.expect("a legal table").needs, table.needs);
        }
        assert_eq!(compare::check(Caller::Full, numbers.slices()), Ok(()));
        let written = compare::write(Caller::Full, numbers.slices(), text.len(), random);
        assert!(written == Ok(text));
        above += table.short_probes().len();
        tables += usize::from(table.has_short());
    });
    assert!(above > 2_000 && tables > 300, "{above} {tables}");
}

/// The table with other needs that count the same: one that is not below the number of links
/// becomes any such.
fn counting_the_same(table: &Table, random: &mut Random) -> Table {
    let mut other = table.clone();
    set_needs(&mut other, |probe, degree| match table.needs[probe] {
        need if usize::from(need) < degree => need.into(),
        _ => all_or_more(degree, random),
    });
    assert_eq!(other.counted_needs(), table.counted_needs());
    other
}

/// A need above the links changes nothing of the plan but the short lines, and a short probe keeps
/// all its links.
#[test]
fn plans_go_by_the_counted_needs() {
    let (mut differ, mut kept_by_short) = (0, 0);
    each_seed(101, 1_000, |random| {
        for table in [crowded(random), banded(random), any_table(random)] {
            let other = counting_the_same(&table, random);
            let [plan, same] =
                [&table, &other].map(|table| compare::plan_table(Caller::Full, table, random));
            assert_eq!(plan, same);
            for (probe, _) in other.short_probes() {
                let own = own_links(&other, probe as u16);
                assert!(own.iter().all(|&place| same.kept[place]));
                kept_by_short += own.len();
            }
            let [lines, same] = [&table, &other].map(planned);
            let links = 1 + plan.count;
            assert_eq!(lines[..links], same[..links]);
            differ += usize::from(lines != same);
        }
    });
    let reached = [differ, kept_by_short];
    assert!(differ > 1_000 && kept_by_short > 20_000, "{reached:?}");
}

#[test]
fn script_of_the_valley() {
    let random = &mut Random::new(41);
    let (table, script) = (valley(), samples::text(&VALLEY_SCRIPT));
    let expected = samples::text(&VALLEY_PRINTED);
    assert_eq!(
        text(&[table.text(), script.clone()].concat(), random),
        expected
    );
    for size in [1, 15, 40, script.len()] {
        assert_eq!(in_pieces(&table, script.chunks(size), random), expected);
    }
    // Without a line of script nothing is printed but the end.
    assert_eq!(text(&table.text(), random), b"0000000000\n");
}

/// A script prints the same on two tables whose needs count the same, at once and in pieces.
#[test]
fn scripts_go_by_the_counted_needs() {
    let (mut lines, mut short) = (0, 0);
    each_table(102, 1_000, |table, random| {
        let other = counting_the_same(table, random);
        let count = random.below(120);
        let script = any_script(table, count, any_mix(random), random);
        let [output, same] =
            [table, &other].map(|table| text(&[&table.text(), &script[..]].concat(), random));
        assert!(output == same);
        assert!(in_pieces(&other, script.chunks(100), random) == output);
        lines += output.iter().filter(|&&byte| byte == b'\n').count();
        short += other.short_probes().len();
    });
    assert!(lines > 30_000 && short > 1_000, "{lines} {short}");
}

/// The same for a fleet's events, its finish and its record.
#[test]
fn fleets_go_by_the_counted_needs() {
    let (mut accepted, mut short) = (0, 0);
    each_table(103, 1_000, |table, random| {
        let other = counting_the_same(table, random);
        let mut fleets = [table, &other].map(Fleet::fresh);
        let mut channel = Channel::over(table, any_mix(random));
        for line in (0..40).flat_map(|_| channel.next(random)) {
            let [answer, same] = fleets.each_mut().map(|fleet| fleet.event(&line, 0, 1));
            assert_eq!(answer, same);
            accepted += usize::from(answer.is_ok());
        }
        let [fleet, same] = &fleets;
        assert_eq!(fleet.record(), same.record());
        assert_eq!(fleet.finished(), same.finished());
        short += other.short_probes().len();
    });
    assert!(accepted > 20_000 && short > 1_000, "{accepted} {short}");
}

/// Probe 1 of the valley has spare 0: it opens nothing and refuses every offer.
#[test]
fn short_end_alone() {
    let mut end = End::fresh(&valley(), 1);
    assert_eq!(end.open(1), Ok(What::Enough));
    for (from, place) in [(0, 0), (2, 2)] {
        assert_eq!(end.hear(&offer(from, 1), 1), Ok(What::Refused(place)));
        assert_eq!(end.hear(&offer(from, 1), 1), Ok(What::NoChange(place)));
        let line = end.ask(Kind::Refusal, place as u16, LINE);
        assert_eq!(line, Ok(Some(refusal(1, from))));
        assert_eq!(end.ask(Kind::Offer, place as u16, LINE), Ok(None));
        assert_eq!(end.rests(place as u16), Ok(false));
    }
    assert_eq!(end.record(), [0, 2, 0, 0, 0, 2, 0, 0]);
}

/// One offer standing or held is more than its spare; a refused one is not.
#[test]
fn record_of_a_short_probe() {
    for place in [0, 1, 4, 5] {
        for (byte, number) in [(1, Some(22)), (2, None)] {
            let mut record = [0; 8];
            record[place] = byte;
            let mut end = End::with(&valley(), 1, &record);
            assert_eq!(end.open(1).err(), number);
            assert_eq!(end.rests(0).err(), number);
        }
    }
    // Outbound from 1, inbound at 1, of its two links, which have places 0 and 2, at four bytes a link.
    for place in [2, 1, 8, 11] {
        for (byte, number) in [(1, Some(22)), (2, None)] {
            let mut bytes = [0; 16];
            bytes[place] = byte;
            let mut fleet = Fleet::with(&valley(), &with_marks(&bytes));
            assert_eq!(fleet.finished().err(), number);
            assert_eq!(fleet.event(&opening(1), 0, 1).err(), number);
        }
    }
}

/// Where every probe is short or needs all its links, nothing can be opened.
#[test]
fn site_without_spare_is_finished_at_once() {
    let mut sites = 0;
    for (probes, count) in [(2, 1), (9, 2), (256, 8)] {
        let mut table = hubs(probes, count);
        set_needs(&mut table, |probe, degree| degree + probe % 2);
        let mut fleet = Fleet::fresh(&table);
        assert_eq!(fleet.finished(), Ok(true));
        for probe in [0, 1, probes - 1] {
            let what = What::Enough;
            let enough = Ok(Entry { probe, what });
            assert_eq!(fleet.event(&opening(probe), 0, 1), enough);
        }
        assert_eq!(text(&table.text(), &mut Random::new(42)), b"0100000000\n");
        sites += usize::from(table.has_short());
    }
    assert_eq!(sites, 3);
}
