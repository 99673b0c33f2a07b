//! The functions of the static libraries: each lent slice passes as a pointer and a length in entries.

use crate::ends::{Entry, Kind};
use crate::maps::{LentMaps, Maps};
use crate::reference::{Behind, Caller, Lent, Plan, Slices, Table};

/// Declares a function of the library and calls it: in brackets the parameters that are taken apart
/// already, each with its C type and its value; behind them the others.
macro_rules! call {
    (($name:ident $answer:ty) [$($type:ty = $value:expr;)*]) => {{
        extern "C" {
            #[link_name = concat!("planner_", stringify!($name))]
            fn function($(_: $type),*) -> $answer;
        }
        // Sound: each pointer and length are those of a borrowed slice.
        unsafe { function($($value),*) }
    }};
    ($function:tt [$($done:tt)*] $parts:ident: Slices, $($more:tt)*) => {
        call!($function [$($done)*]
            ($parts.number): u16,
            ($parts.probes): u16,
            ($parts.links): u16,
            ($parts.needs): &[u16],
            ($parts.lows): &[u16],
            ($parts.highs): &[u16],
            ($parts.costs): &[u16],
            $($more)*)
    };
    ($function:tt [$($done:tt)*] $parts:ident: Lent, $($more:tt)*) => {
        call!($function [$($done)*]
            ($parts.needs): &mut [u16],
            ($parts.lows): &mut [u16],
            ($parts.highs): &mut [u16],
            ($parts.costs): &mut [u16],
            $($more)*)
    };
    ($function:tt [$($done:tt)*] $parts:ident: Maps, $($more:tt)*) => {
        call!($function [$($done)*]
            ($parts.standing): &[u64],
            ($parts.refused_out): &[u64],
            ($parts.held): &[u64],
            ($parts.refused_in): &[u64],
            $($more)*)
    };
    ($function:tt [$($done:tt)*] $parts:ident: LentMaps, $($more:tt)*) => {
        call!($function [$($done)*]
            ($parts.standing): &mut [u64],
            ($parts.refused_out): &mut [u64],
            ($parts.held): &mut [u64],
            ($parts.refused_in): &mut [u64],
            $($more)*)
    };
    ($function:tt [$($done:tt)*] $slice:tt: &[$entry:ty], $($more:tt)*) => {
        call!($function [
            $($done)* *const $entry = $slice.as_ptr(); usize = $slice.len();
        ] $($more)*)
    };
    ($function:tt [$($done:tt)*] $slice:tt: &mut [$entry:ty], $($more:tt)*) => {
        call!($function [
            $($done)* *mut $entry = $slice.as_mut_ptr(); usize = $slice.len();
        ] $($more)*)
    };
    ($function:tt [$($done:tt)*] $number:tt: $type:ty, $($more:tt)*) => {
        call!($function [$($done)* $type = $number;] $($more)*)
    };
}

/// Functions of the library, where each has `planner_` before its name.
macro_rules! library {
    ($($public:vis fn $name:ident($($parameters:tt)*) -> $answer:ty;)*) => {
        $($public fn $name($($parameters)*) -> $answer {
            call!(($name $answer) [] $($parameters)*,)
        })*
    };
}

library! {
    fn read_table(text: &[u8], lent: Lent) -> u64;
    fn read_table_prefix(text: &[u8], lent: Lent) -> u64;
    fn check_table(given: Slices) -> u8;
    fn write_table(given: Slices, out: &mut [u8]) -> u64;

    fn display_read_table(text: &[u8], lent: Lent) -> u64;
    fn display_check_table(given: Slices) -> u8;
    fn display_write_table(given: Slices, out: &mut [u8]) -> u64;

    fn plan_slse(given: Slices, plan: &mut [u8]) -> u64;
    fn plan_turns(given: Slices, plan: &mut [u8], work: &mut [u8]) -> u64;
    fn plan_text(text: &[u8], out: &mut [u8]) -> u64;

    fn display_plan_slse(given: Slices, plan: &mut [u8]) -> u64;
    fn display_plan_turns(given: Slices, plan: &mut [u8], work: &mut [u8]) -> u64;
    fn display_plan_text(text: &[u8], out: &mut [u8]) -> u64;

    pub fn probe_open(given: Slices, probe: u16, maps: LentMaps, free: usize) -> u64;
    pub fn probe_hear(
        given: Slices,
        probe: u16,
        maps: LentMaps,
        frame: &[u8],
        free: usize
    ) -> u64;
    pub fn probe_open_logged(
        given: Slices,
        probe: u16,
        maps: LentMaps,
        log: &mut [u64],
        used: usize
    ) -> u64;
    pub fn probe_hear_bag(
        given: Slices,
        probe: u16,
        maps: LentMaps,
        bag: &[u8],
        log: &mut [u64],
        used: usize
    ) -> u64;
    pub fn probe_hear_logged(
        given: Slices,
        probe: u16,
        maps: LentMaps,
        frame: &[u8],
        log: &mut [u64],
        used: usize
    ) -> u64;
    fn probe_ask_offer(given: Slices, probe: u16, maps: Maps, link: u16, out: &mut [u8]) -> u64;
    fn probe_ask_refusal(given: Slices, probe: u16, maps: Maps, link: u16, out: &mut [u8]) -> u64;
    pub fn probe_rests(given: Slices, probe: u16, maps: Maps, link: u16) -> u64;
    pub fn probe_maps_of(given: Slices, probe: u16, rec: &[u8], maps: LentMaps) -> u64;
    pub fn probe_bytes_of(given: Slices, probe: u16, maps: Maps, rec: &mut [u8]) -> u64;

    pub fn fleet_event(given: Slices, rec: &mut [u8], line: &[u8], used: usize, room: usize) -> u64;
    pub fn fleet_event_logged(
        given: Slices,
        rec: &mut [u8],
        line: &[u8],
        log: &mut [u64],
        used: usize
    ) -> u64;
    pub fn fleet_finished(given: Slices, rec: &[u8]) -> u64;

    pub fn log_entry(log: &[u64], used: usize, i: usize) -> u64;

    pub fn script_text(text: &[u8], out: &mut [u8]) -> u64;
    pub fn script_piece(
        given: Slices,
        rec: &mut [u8],
        line: &mut [u8],
        numbers: &mut [u32],
        piece: &[u8],
        out: &mut [u8]
    ) -> u64;
    pub fn script_end(given: Slices, rec: &[u8], held: u32, changed: u32, out: &mut [u8]) -> u64;
}

pub fn check(caller: Caller, given: Slices) -> u8 {
    match caller {
        Caller::Full => check_table(given),
        Caller::Display => display_check_table(given),
    }
}

pub fn read(caller: Caller, text: &[u8], behind: Behind, lent: Lent) -> u64 {
    match (caller, behind) {
        (Caller::Full, Behind::Nothing) => read_table(text, lent),
        (Caller::Full, Behind::Anything) => read_table_prefix(text, lent),
        (Caller::Display, Behind::Nothing) => display_read_table(text, lent),
        (Caller::Display, Behind::Anything) => panic!("the display reads no prefix"),
    }
}

pub fn write(caller: Caller, given: Slices, out: &mut [u8]) -> u64 {
    match caller {
        Caller::Full => write_table(given, out),
        Caller::Display => display_write_table(given, out),
    }
}

pub fn plan_by_slse(caller: Caller, given: Slices, plan: &mut [u8]) -> u64 {
    match caller {
        Caller::Full => plan_slse(given, plan),
        Caller::Display => display_plan_slse(given, plan),
    }
}

pub fn plan_by_turns(caller: Caller, given: Slices, plan: &mut [u8], work: &mut [u8]) -> u64 {
    match caller {
        Caller::Full => plan_turns(given, plan, work),
        Caller::Display => display_plan_turns(given, plan, work),
    }
}

pub fn print_plan(caller: Caller, text: &[u8], out: &mut [u8]) -> u64 {
    match caller {
        Caller::Full => plan_text(text, out),
        Caller::Display => display_plan_text(text, out),
    }
}

pub fn probe_ask(
    given: Slices,
    probe: u16,
    maps: Maps,
    kind: Kind,
    link: u16,
    out: &mut [u8],
) -> u64 {
    let ask = match kind {
        Kind::Offer => probe_ask_offer,
        Kind::Refusal => probe_ask_refusal,
    };
    ask(given, probe, maps, link, out)
}

/// Packed answers start here; refusals are below.
pub const ANSWER_BASE: u64 = 1 << 48;

/// The number that stands for a reading's result.
pub fn read_answer(result: &Result<Table, u8>) -> u64 {
    match result {
        Ok(table) => {
            let (probes, links) = (table.needs.len() as u64, table.links.len() as u64);
            ANSWER_BASE + ((table.number as u64) << 32) + (probes << 16) + links
        }
        Err(refusal) => *refusal as u64,
    }
}

/// The number that stands for a check's result.
pub fn check_answer(result: &Result<(), u8>) -> u8 {
    result.err().unwrap_or(0)
}

/// The number that stands for a plan.
pub fn plan_answer(result: &Result<Plan, u8>) -> u64 {
    match result {
        Ok(plan) => ANSWER_BASE + ((plan.count as u64) << 32) + plan.cost,
        Err(refusal) => *refusal as u64,
    }
}

/// The number that stands for the result of writing a text.
pub fn write_answer(result: &Result<usize, u8>) -> u64 {
    match result {
        Ok(length) => ANSWER_BASE + *length as u64,
        Err(refusal) => *refusal as u64,
    }
}

/// The number that stands for the answer to an event.
pub fn entry_answer(result: &Result<Entry, u8>) -> u64 {
    match result {
        Ok(Entry { probe, what }) => {
            let [code, link, displaced] = what.numbers();
            (1 << 63) + ((*probe as u64) << 40) + (code << 32) + (link << 16) + displaced
        }
        Err(refusal) => *refusal as u64,
    }
}

/// The number that stands for the answer to a bag: how many frames were heard.
pub fn bag_answer(result: &Result<Vec<Entry>, u8>) -> u64 {
    match result {
        Ok(entries) => ANSWER_BASE + entries.len() as u64,
        Err(refusal) => *refusal as u64,
    }
}

/// The number that stands for whether a line is written, a link rests or a fleet is finished.
pub fn yes_answer(result: &Result<bool, u8>) -> u64 {
    match result {
        Ok(yes) => ANSWER_BASE + *yes as u64,
        Err(refusal) => *refusal as u64,
    }
}

/// The number that stands for a record's turning.
pub fn turned_answer(result: &Result<(), u8>) -> u64 {
    match result {
        Ok(()) => ANSWER_BASE,
        Err(refusal) => *refusal as u64,
    }
}
