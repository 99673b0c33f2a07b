//! Table and plan in the library and the second implementation, compared with every buffer.

use crate::buffer::Buffer;
use crate::ffi;
use crate::random::Random;
use crate::reference::{self, Behind, Caller, Lent, Plan, Slices, Table};
use crate::sites::Numbers;
use std::fmt::{Debug, Display};

fn lend(buffers: &mut [Buffer<u16>; 4]) -> Lent<'_> {
    let [needs, lows, highs, costs] = buffers.each_mut().map(Buffer::lend);
    Lent {
        needs,
        lows,
        highs,
        costs,
    }
}

/// The answers as numbers, then the buffers: the library's and the second implementation's.
#[track_caller]
pub fn assert_same<T: PartialEq>(
    call: impl Display,
    [answer, expected]: [u64; 2],
    buffers: [&T; 2],
) {
    assert!(
        answer == expected,
        "{call}: answer {answer:x}, not {expected:x}"
    );
    let withdrawn = reference::is_withdrawn(answer);
    assert!(!withdrawn, "{call}: a withdrawn refusal");
    assert!(
        buffers[0] == buffers[1],
        "{call}: buffers differ, answer {answer:x}"
    );
}

/// Only the table's own entries may have changed, and they hold the table.
#[track_caller]
fn assert_filled(after: &[Buffer<u16>; 4], before: &[Buffer<u16>; 4], result: &Result<Table, u8>) {
    let expected = match result {
        Ok(table) => Numbers::of(table).entries,
        Err(_) => [const { Vec::new() }; 4],
    };
    for which in 0..4 {
        let count = expected[which].len();
        assert!(after[which].kept_beyond(count, &before[which]));
        assert!(after[which].entries()[..count] == expected[which]);
    }
}

/// What both callers answer, which is the same: of texts and tables within the display's limits.
#[track_caller]
pub fn by_both<T: PartialEq + Debug>(answer: impl FnMut(Caller) -> T) -> T {
    let [full, display] = Caller::BOTH.map(answer);
    assert_eq!(full, display);
    full
}

/// Reads into slices of these lengths: needs, lows, highs, costs.
#[track_caller]
pub fn read(
    caller: Caller,
    text: &[u8],
    behind: Behind,
    lengths: [usize; 4],
    random: &mut Random,
) -> Result<Table, u8> {
    let before = lengths.map(|length| Buffer::filled(length, || random.short()));
    let (mut by_library, mut by_reference) = (before.clone(), before.clone());
    let answer = ffi::read(caller, text, behind, lend(&mut by_library));
    let result = reference::read_table(caller, text, behind, lend(&mut by_reference));
    let call = match behind {
        Behind::Nothing => "read",
        Behind::Anything => "read prefix",
    };
    assert_same(
        format_args!("{caller:?} {call}"),
        [answer, ffi::read_answer(&result)],
        [&by_library, &by_reference],
    );
    assert_filled(&by_library, &before, &result);
    result
}

#[track_caller]
pub fn check(caller: Caller, given: Slices) -> Result<(), u8> {
    let answer = ffi::check(caller, given);
    let result = reference::check_table(caller, given);
    let expected = ffi::check_answer(&result);
    let call = format_args!("{caller:?} check");
    assert_same(call, [answer.into(), expected.into()], [&(), &()]);
    result
}

/// Lends a slice of this length to a call that writes a text; hands back the written text.
#[track_caller]
pub fn written(
    call: impl Display,
    length: usize,
    random: &mut Random,
    library: impl Fn(&mut [u8]) -> u64,
    reference: impl Fn(&mut [u8]) -> Result<usize, u8>,
) -> Result<Vec<u8>, u8> {
    let before = Buffer::filled(length, || random.byte());
    let (mut by_library, mut by_reference) = (before.clone(), before.clone());
    let answer = library(by_library.lend());
    let result = reference(by_reference.lend());
    assert_same(
        call,
        [answer, ffi::write_answer(&result)],
        [&by_library, &by_reference],
    );
    let count = result.unwrap_or(0);
    assert!(by_library.kept_beyond(count, &before));
    result.map(|length| by_library.entries()[..length].to_vec())
}

#[track_caller]
pub fn write(
    caller: Caller,
    given: Slices,
    length: usize,
    random: &mut Random,
) -> Result<Vec<u8>, u8> {
    let library = |out: &mut [u8]| ffi::write(caller, given, out);
    let reference = |out: &mut [u8]| reference::write_table(caller, given, out);
    let call = format_args!("{caller:?} write");
    written(call, length, random, library, reference)
}

#[track_caller]
pub fn plan_text(
    caller: Caller,
    text: &[u8],
    length: usize,
    random: &mut Random,
) -> Result<Vec<u8>, u8> {
    let library = |out: &mut [u8]| ffi::print_plan(caller, text, out);
    let reference = |out: &mut [u8]| reference::plan_text(caller, text, out);
    let call = format_args!("{caller:?} plan text");
    written(call, length, random, library, reference)
}

/// The first bytes hold the plan, and only they may have changed.
#[track_caller]
fn assert_planned(after: &Buffer<u8>, before: &Buffer<u8>, result: &Result<Plan, u8>) {
    let kept = result.as_ref().map_or(&[][..], |plan| &plan.kept);
    assert!(after.kept_beyond(kept.len(), before));
    let holds = |(&byte, &kept): (&u8, &bool)| byte == kept as u8;
    assert!(after.entries().iter().zip(kept).all(holds));
}

/// By S-LSE, with a plan of this length.
#[track_caller]
pub fn plan_slse(
    caller: Caller,
    given: Slices,
    length: usize,
    random: &mut Random,
) -> Result<Plan, u8> {
    let before = Buffer::filled(length, || random.byte());
    let (mut by_library, mut by_reference) = (before.clone(), before.clone());
    let answer = ffi::plan_by_slse(caller, given, by_library.lend());
    let result = reference::fill_plan(caller, given, reference::plan, by_reference.lend());
    assert_same(
        format_args!("{caller:?} S-LSE"),
        [answer, ffi::plan_answer(&result)],
        [&by_library, &by_reference],
    );
    assert_planned(&by_library, &before, &result);
    result
}

/// By turns, with a plan and working bytes of these lengths; many bytes look like a record's.
#[track_caller]
pub fn plan_turns(
    caller: Caller,
    given: Slices,
    lengths: [usize; 2],
    random: &mut Random,
) -> Result<Plan, u8> {
    let mut byte = || {
        let any = random.byte();
        random.pick(&[1, 2, any])
    };
    let before = lengths.map(|length| Buffer::filled(length, &mut byte));
    let (mut by_library, mut by_reference) = (before.clone(), before.clone());
    let [plan, work] = by_library.each_mut().map(Buffer::lend);
    let answer = ffi::plan_by_turns(caller, given, plan, work);
    let [plan, work] = by_reference.each_mut().map(Buffer::lend);
    let result = reference::fill_plan_and_work(caller, given, reference::plan, plan, work);
    assert_same(
        format_args!("{caller:?} by turns"),
        [answer, ffi::plan_answer(&result)],
        [&by_library, &by_reference],
    );
    assert_planned(&by_library[0], &before[0], &result);
    match result {
        Ok(_) => assert!(by_library[1].entries().iter().all(|&byte| byte == 0)),
        Err(_) => assert!(by_library[1] == before[1]),
    }
    result
}

/// By both methods, with so many bytes more than are needed.
#[track_caller]
pub fn plan(caller: Caller, given: Slices, longer: usize, random: &mut Random) -> Result<Plan, u8> {
    let links = given.links as usize;
    let by_turns = plan_turns(caller, given, [links + longer, 4 * links + longer], random);
    assert_eq!(plan_slse(caller, given, links + longer, random), by_turns);
    by_turns
}

/// A legal table's plan by both methods and by its text.
#[track_caller]
pub fn plan_table(caller: Caller, table: &Table, random: &mut Random) -> Plan {
    let (longer, numbers) = (random.below(3), Numbers::of(table));
    let plan = plan(caller, numbers.slices(), longer, random).expect("a legal table");
    let output = plan.text(table);
    let printed = plan_text(caller, &table.text(), output.len() + longer, random);
    assert!(printed == Ok(output));
    plan
}
