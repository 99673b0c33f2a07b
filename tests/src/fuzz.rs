//! Random, mutated and cut inputs of both programs, compared, and how many outputs have what.

use crate::channel::{all_accepted, any_mix, any_script};
use crate::compare;
use crate::compare_script;
use crate::events::any_table;
use crate::random::Random;
use crate::reference::{plan_output, refusal_line, table_of_text, Behind, Caller, Table};
use crate::sites::{banded, damage_header, damage_table, damage_text, legal};
use std::collections::{BTreeMap, BTreeSet};
use std::fmt;

/// How many outputs there were, and how many of them have each thing at least once.
#[derive(Default)]
pub struct Tally {
    outputs: usize,
    having: BTreeMap<String, usize>,
}

impl Tally {
    fn count(&mut self, things: BTreeSet<&str>) {
        self.outputs += 1;
        for thing in things {
            match self.having.get_mut(thing) {
                Some(having) => *having += 1,
                None => drop(self.having.insert(thing.to_owned(), 1)),
            }
        }
    }

    /// Of 10,000 outputs more than so many have each of these.
    #[track_caller]
    pub fn assert_share(&self, things: &[&str], of_10_000: usize) {
        for &thing in things {
            let having = self.having.get(thing).copied().unwrap_or(0);
            assert!(
                having * 10_000 > of_10_000 * self.outputs,
                "{thing}: {self}"
            );
        }
    }

    /// No output has this.
    #[track_caller]
    pub fn assert_none(&self, thing: &str) {
        assert!(!self.having.contains_key(thing), "{self}");
    }
}

impl fmt::Display for Tally {
    fn fmt(&self, out: &mut fmt::Formatter) -> fmt::Result {
        writeln!(out, "{} outputs, and with", self.outputs)?;
        for (thing, &having) in &self.having {
            let share = 100.0 * having as f64 / self.outputs as f64;
            writeln!(out, "  {having:>8} {share:6.2} %  {thing}")?;
        }
        Ok(())
    }
}

/// Bytes that texts and scripts are made of, and some others.
const BYTES: &[u8] = b"0123456789abcdeffff\n\n\n0000 F\r\0\xff";

fn random_bytes(random: &mut Random) -> Vec<u8> {
    let length = random.below(400);
    match random.one_in(2) {
        true => (0..length).map(|_| random.byte()).collect(),
        false => (0..length).map(|_| random.pick(BYTES)).collect(),
    }
}

/// One byte changed, put in or taken out, a part doubled or moved, or the end cut off.
fn mutate(input: &mut Vec<u8>, random: &mut Random) {
    if input.is_empty() {
        input.push(random.byte());
    }
    let at = random.below(input.len());
    let end = (at + 1 + random.below(40)).min(input.len());
    match random.below(7) {
        0 => input[at] = random.byte(),
        1 => input[at] = random.pick(BYTES),
        2 => input.insert(at, random.pick(BYTES)),
        3 => drop(input.remove(at)),
        4 => input.truncate(at),
        5 => {
            let part = input[at..end].to_vec();
            input.extend(part);
        }
        _ => {
            let part: Vec<u8> = input.drain(at..end).collect();
            let to = random.below(input.len() + 1);
            input.splice(to..to, part);
        }
    }
}

fn mutated(mut input: Vec<u8>, random: &mut Random) -> Vec<u8> {
    for _ in 0..random.below(4) {
        mutate(&mut input, random);
    }
    input
}

/// A legal table; most have links, with equal costs and little spare.
fn any_legal(random: &mut Random) -> Table {
    match random.below(64) {
        0 => banded(random),
        1..=15 => legal(random),
        _ => any_table(random),
    }
}

/// The text of a table damaged in its numbers, its header or its bytes.
fn damaged_text(random: &mut Random) -> Vec<u8> {
    let mut table = any_legal(random);
    if random.one_in(2) {
        damage_table(&mut table, random);
    }
    let mut text = table.text();
    match random.below(3) {
        0 => damage_header(&mut text, random),
        1 => damage_text(&mut text, random),
        _ => {}
    }
    text
}

fn plan_input(random: &mut Random) -> Vec<u8> {
    match random.below(16) {
        0 => random_bytes(random),
        1..=4 => damaged_text(random),
        5..=8 => any_legal(random).text(),
        _ => {
            let text = any_legal(random).text();
            mutated(text, random)
        }
    }
}

/// A script that follows the bargaining; one in forty is longer than the log.
fn followed(table: &Table, random: &mut Random) -> Vec<u8> {
    let lines = match random.one_in(40) {
        true => 1_201 + random.below(800),
        false => random.below(10 * table.links.len().min(20) + 10),
    };
    let mix = match random.one_in(2) {
        true => all_accepted(),
        false => any_mix(random),
    };
    any_script(table, lines, mix, random)
}

fn script_input(random: &mut Random) -> Vec<u8> {
    let table = any_legal(random);
    let (text, script) = (table.text(), followed(&table, random));
    match random.below(32) {
        0 => random_bytes(random),
        1 => [text, random_bytes(random)].concat(),
        2..=5 => [damaged_text(random), script].concat(),
        6..=9 => mutated([text, script].concat(), random),
        10..=15 => [text, mutated(script, random)].concat(),
        _ => [text, script].concat(),
    }
}

/// What the display prints for a text: the full output, or its own 3.
fn displayed(text: &[u8], output: &[u8], random: &mut Random) -> &'static str {
    let length = output.len().max(refusal_line(3).len());
    let printed = compare::plan_text(Caller::Display, text, length, random);
    if printed.as_deref() == Ok(output) {
        return "the same from the display";
    }
    assert_eq!(printed, Ok(refusal_line(3)));
    "3 from the display alone"
}

/// Compares the plan program's function on an input, with a slice that may be too short, and the
/// display's.
pub fn plan(random: &mut Random, tally: &mut Tally) {
    let text = plan_input(random);
    let output = plan_output(Caller::Full, &text);
    let length = (output.len() + random.below(3)).saturating_sub(random.below(2));
    let answer = compare::plan_text(Caller::Full, &text, length, random);
    match length < output.len() {
        true => assert_eq!(answer, Err(8)),
        false => assert_eq!(answer.as_ref(), Ok(&output)),
    }
    let lines = lines(&output);
    let mut things = BTreeSet::from([match lines[0].get(4..8) {
        None => lines[0],
        Some("0000") => "none kept",
        Some(kept) if *kept.as_bytes() == text[8..12] => "all kept",
        Some(_) => "some kept and some rested",
    }]);
    if lines.len() > 1 {
        let short = lines.iter().filter(|line| line.len() == 8).count();
        things.insert(match short {
            0 => "no short probe",
            1 => "one short probe",
            _ => "several short probes",
        });
    }
    things.insert(displayed(&text, &output, random));
    tally.count(things);
}

/// Compares the script program's function on an input.
pub fn script(random: &mut Random, tally: &mut Tally) {
    let input = script_input(random);
    let output = compare_script::text(&input, random);
    let lines = lines(&output);
    let refused = format!("table {}", lines[0]);
    let mut things: BTreeSet<&str> = match lines.len() {
        1 if output.len() == 5 => BTreeSet::from([&refused[..]]),
        _ => lines.iter().map(|line| told(line)).collect(),
    };
    let table = table_of_text(Caller::Full, &input, Behind::Anything);
    if table.is_ok_and(|table| table.has_short()) {
        things.insert("short probes");
    }
    tally.count(things);
}

/// What a line of the script program tells: the refusal, the finish, or what befell.
fn told(line: &str) -> &str {
    match line.len() {
        4 => line,
        10 if line.starts_with("00") => "not finished",
        10 if line.ends_with("00000000") => "finished from the start",
        10 => "finished after changes",
        _ => &line[4..6],
    }
}

fn lines(output: &[u8]) -> Vec<&str> {
    let output = std::str::from_utf8(output).expect("only digits are printed");
    output.lines().collect()
}
