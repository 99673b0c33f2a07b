//! Slices of the display's sizes are never too short for a table within its limits; one entry fewer
//! is, where the table needs it.

use super::SMALL;
use planner_tests::compare;
use planner_tests::random::Random;
use planner_tests::reference::{Behind, Caller, Plan, Table};
use planner_tests::sites::{for_display, Numbers};

const TABLES: usize = 4_000;

/// The bytes of the plan, of the work, and of the longest table and plan texts.
const PLAN: usize = 40;
const WORK: usize = 160;
const TEXT: usize = 618;
const PLAN_TEXT: usize = 686;

/// What is lent to a table's calls.
#[derive(Clone, Copy)]
struct Lengths {
    table: [usize; 4],
    plan: usize,
    work: usize,
    text: usize,
    plan_text: usize,
}

const JUST: Lengths = Lengths {
    table: SMALL,
    plan: PLAN,
    work: WORK,
    text: TEXT,
    plan_text: PLAN_TEXT,
};

/// The refusals of all six calls: reading, checking, writing, both plans, the plan's text.
#[track_caller]
fn refusals(caller: Caller, table: &Table, lent: Lengths, random: &mut Random) -> [Option<u8>; 6] {
    let (text, mut numbers) = (table.text(), Numbers::of(table));
    numbers.lend(lent.table, random);
    let given = numbers.slices();
    let read = compare::read(caller, &text, Behind::Nothing, lent.table, random);
    let written = compare::write(caller, given, lent.text, random);
    let by_slse = compare::plan_slse(caller, given, lent.plan, random);
    let by_turns = compare::plan_turns(caller, given, [lent.plan, lent.work], random);
    let printed = compare::plan_text(caller, &text, lent.plan_text, random);
    // What is accepted is the table, its text and its plan.
    assert!(read.as_ref().map_or(true, |read| read == table));
    assert!(written.as_ref().map_or(true, |written| *written == text));
    let is_plan = |plan: &Plan| {
        printed
            .as_ref()
            .map_or(true, |text| *text == plan.text(table))
    };
    assert!(by_slse.as_ref().map_or(true, is_plan));
    assert!(by_turns.as_ref().map_or(true, is_plan));
    [
        read.err(),
        compare::check(caller, given).err(),
        written.err(),
        by_slse.err(),
        by_turns.err(),
        printed.err(),
    ]
}

/// Random tables; many have the most probes, the most links, or both.
fn each_table(seed: u64, mut act: impl FnMut(&Table, &mut Random)) {
    let random = &mut Random::new(seed);
    let mut most = [0; 3];
    for _ in 0..TABLES {
        let table = for_display(random);
        let [probes, links] = [table.needs.len() == 16, table.links.len() == 40];
        for (count, reached) in most.iter_mut().zip([probes, links, probes && links]) {
            *count += usize::from(reached);
        }
        act(&table, random);
    }
    assert!(most.iter().all(|&count| count > TABLES / 5), "{most:?}");
}

#[test]
fn never_too_short() {
    let longer = Lengths {
        table: [300, 2100, 2100, 2100],
        plan: PLAN + 7,
        work: WORK + 7,
        text: TEXT + 7,
        plan_text: PLAN_TEXT + 7,
    };
    each_table(110, |table, random| {
        for lent in [JUST, longer] {
            for caller in Caller::BOTH {
                assert_eq!(refusals(caller, table, lent, random), [None; 6]);
            }
        }
    });
}

/// A length one below `JUST`, the calls that then refuse by 8, and the tables for which they do.
type Shorter = (fn(&mut Lengths), [bool; 6], fn(&Table) -> bool);

fn has_most_links(table: &Table) -> bool {
    table.links.len() == 40
}

/// The calls that are lent a table's slices: all but the plan's text.
const OF_SLICES: [bool; 6] = [true, true, true, true, true, false];

const SHORTER: [Shorter; 8] = [
    (
        |lent| lent.table[0] -= 1,
        OF_SLICES,
        |table| table.needs.len() == 16,
    ),
    (
        |lent| lent.table = [16, 39, 39, 39],
        OF_SLICES,
        has_most_links,
    ),
    (
        |lent| lent.plan -= 1,
        [false, false, false, true, true, false],
        has_most_links,
    ),
    (
        |lent| lent.work -= 1,
        [false, false, false, false, true, false],
        has_most_links,
    ),
    (
        |lent| lent.text -= 1,
        [false, false, true, false, false, false],
        |table| table.text().len() == TEXT,
    ),
    // Lows, highs and costs of unequal lengths are 8 for every table.
    (|lent| lent.table[1] -= 1, OF_SLICES, |_| true),
    (|lent| lent.table[2] -= 1, OF_SLICES, |_| true),
    (|lent| lent.table[3] -= 1, OF_SLICES, |_| true),
];

#[test]
fn one_entry_fewer() {
    let mut refused = [0; SHORTER.len()];
    each_table(111, |table, random| {
        for ((shorten, calls, needs_it), refused) in SHORTER.into_iter().zip(&mut refused) {
            let mut lent = JUST;
            shorten(&mut lent);
            let short = needs_it(table);
            let expected = calls.map(|call| (short && call).then_some(8));
            for caller in Caller::BOTH {
                assert_eq!(refusals(caller, table, lent, random), expected);
            }
            *refused += usize::from(short);
        }
    });
    let often = |&count: &usize| count > TABLES / 5;
    assert!(refused.iter().all(often), "{refused:?}");
}

/// The plan's text in a slice that just holds it, and in one that is a byte shorter.
#[test]
fn plan_texts_that_just_fit() {
    let mut longest = 0;
    each_table(112, |table, random| {
        let text = table.text();
        let plan = compare::by_both(|caller| compare::plan_table(caller, table, random));
        let output = plan.text(table);
        let mut print =
            |length| compare::by_both(|caller| compare::plan_text(caller, &text, length, random));
        assert_eq!(print(output.len()).as_ref(), Ok(&output));
        assert_eq!(print(output.len() - 1), Err(8));
        longest = output.len().max(longest);
    });
    assert!(longest > 500 && longest <= PLAN_TEXT, "{longest}");
}
