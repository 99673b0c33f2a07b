//! Random and damaged texts, read both ways and planned, beside the second implementation.

use planner_tests::compare;
use planner_tests::random::{each_seed, Random};
use planner_tests::reference::{plan_output, Behind, Caller, Table};
use planner_tests::sites::{self, Numbers};

const CASES: u64 = 12_000;

/// How often each refusal came, and tables read with and without short probes.
#[derive(Debug, Default)]
struct Tally {
    refused: [usize; 9],
    none_short: usize,
    some_short: usize,
    /// The short probes of the tables read.
    short: usize,
}

impl Tally {
    fn count(&mut self, read: &Result<Table, u8>) {
        let short = match read {
            Ok(table) => table.short_probes().len(),
            Err(refusal) => return self.refused[usize::from(*refusal)] += 1,
        };
        match short {
            0 => self.none_short += 1,
            _ => self.some_short += 1,
        }
        self.short += short;
    }

    /// Tables were read more often than this, as many with short probes and as many without.
    #[track_caller]
    fn assert_read(&self, times: usize) {
        let read = [self.none_short, self.some_short, self.short];
        assert!(read.iter().all(|&count| count > times), "{self:?}");
    }

    /// Each of these refusals came more often than this, and a withdrawn one never.
    #[track_caller]
    fn assert_refused(&self, refusals: &[usize], times: usize) {
        assert_eq!(self.refused[7], 0);
        let often = |&refusal: &usize| self.refused[refusal] > times;
        assert!(refusals.iter().all(often), "{self:?}");
    }
}

/// Prints the plan into a slice that fits, is one too short, or is longer.
fn print(text: &[u8], random: &mut Random) {
    let (right, longer) = (plan_output(Caller::Full, text).len(), random.below(40));
    let length = random.pick(&[right, right, right - 1, right + longer]);
    let printed = compare::plan_text(Caller::Full, text, length, random);
    assert_eq!(printed.is_ok(), length >= right);
}

/// Prints the text's plan, reads the text both ways and writes what was read back.
fn print_and_read(text: &[u8], lengths: [usize; 4], random: &mut Random, tally: &mut Tally) {
    print(text, random);
    for behind in Behind::BOTH {
        let read = compare::read(Caller::Full, text, behind, lengths, random);
        tally.count(&read);
        let Ok(table) = read else {
            continue;
        };
        let written = compare::write(
            Caller::Full,
            Numbers::of(&table).slices(),
            text.len(),
            random,
        );
        let written = written.expect("a table read can be written");
        match behind {
            Behind::Nothing => assert!(written == text),
            Behind::Anything => assert!(text.starts_with(&written)),
        }
    }
}

fn lengths(table: &Table, random: &mut Random) -> [usize; 4] {
    sites::lengths(table.needs.len(), table.links.len(), random)
}

#[test]
fn legal_texts() {
    let mut tally = Tally::default();
    each_seed(0, CASES, |random| {
        let table = sites::legal(random);
        let lengths = lengths(&table, random);
        print_and_read(&table.text(), lengths, random, &mut tally);
    });
    assert_eq!(tally.refused[..8], [0; 8]);
    tally.assert_refused(&[8], 1_000);
    tally.assert_read(5_000);
}

#[test]
fn texts_of_damaged_tables() {
    let mut tally = Tally::default();
    each_seed(1, CASES, |random| {
        let mut table = sites::legal(random);
        for _ in 0..1 + random.below(3) {
            sites::damage_table(&mut table, random);
        }
        let lengths = lengths(&table, random);
        print_and_read(&table.text(), lengths, random, &mut tally);
    });
    tally.assert_refused(&[4, 5], 1_000);
    tally.assert_read(300);
}

#[test]
fn damaged_texts() {
    let mut tally = Tally::default();
    each_seed(2, CASES, |random| {
        let mut table = sites::legal(random);
        if random.one_in(4) {
            sites::damage_table(&mut table, random);
        }
        let mut text = table.text();
        for _ in 0..1 + random.below(3) {
            sites::damage_text(&mut text, random);
        }
        let lengths = lengths(&table, random);
        print_and_read(&text, lengths, random, &mut tally);
    });
    tally.assert_refused(&[1, 2, 3, 4, 5, 6, 8], 100);
    tally.assert_read(300);
}

#[test]
fn texts_of_any_bytes() {
    let mut tally = Tally::default();
    each_seed(3, CASES, |random| {
        let alphabet = random.pick::<&[u8]>(&[b"01f\n", b"000000000000\n", b"0fF \n\r\0\xff"]);
        let header = random.pick::<&[u8]>(&[b"", b"000100010000\n", b"ffff00020001\n"]);
        let mut text = header.to_vec();
        for _ in 0..random.below(60) {
            text.push(random.pick(alphabet));
        }
        print_and_read(&text, [2, 1, 1, 1], random, &mut tally);
    });
    tally.assert_refused(&[1], 1_000);
}
