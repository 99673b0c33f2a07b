//! Random scripts on tables of all sizes; whole outputs are compared.

use planner_tests::channel::{all_accepted, any_mix, any_script};
use planner_tests::compare_script::text;
use planner_tests::events::each_table;
use planner_tests::random::{each_seed, Random};
use planner_tests::reference::Table;
use planner_tests::sites::{damage_text, legal, legal_of_size};
use planner_tests::tally::CODES;
use std::collections::BTreeMap;

/// How often each refusal, code (as its two digits) and last line's first two digits came.
#[derive(Default)]
struct Tally(BTreeMap<String, usize>);

impl Tally {
    fn count(&mut self, output: &[u8]) {
        let output = std::str::from_utf8(output).expect("only digits are printed");
        for line in output.lines() {
            let what = match line.len() {
                4 => line,
                10 if line.starts_with("01") => "finished",
                10 => "not finished",
                _ => &line[4..6],
            };
            *self.0.entry(what.to_owned()).or_default() += 1;
        }
    }

    #[track_caller]
    fn assert_often(&self, all: &[&str], times: usize) {
        let often = |what: &&str| self.0.get(*what).is_some_and(|&count| count >= times);
        assert!(all.iter().all(often), "{:?}", self.0);
    }
}

/// At most this many lines, mostly far fewer.
fn any_length(most: usize, random: &mut Random) -> usize {
    let most = random.pick(&[10, 100, 500, most]);
    random.below(most + 1)
}

#[track_caller]
fn run(table: &Table, lines: usize, random: &mut Random) -> Vec<u8> {
    let mix = match random.one_in(4) {
        true => all_accepted(),
        false => any_mix(random),
    };
    let mut input = table.text();
    input.extend(any_script(table, lines, mix, random));
    if random.one_in(8) {
        input.truncate(input.len() - 1);
    }
    text(&input, random)
}

#[test]
fn small_sites() {
    let mut tally = Tally::default();
    each_table(64, 1_800, |table, random| {
        let lines = any_length(3_000, random);
        tally.count(&run(table, lines, random));
    });
    let refusals = ["e001", "e002", "e009", "e023", "e024", "e026", "e027"];
    tally.assert_often(&refusals, 1_000);
    tally.assert_often(&CODES, 500);
    tally.assert_often(&["finished", "not finished"], 300);
}

#[test]
fn sites_of_all_sizes() {
    let mut tally = Tally::default();
    for seed in 0..400 {
        let random = &mut Random::new(65 << 32 | seed);
        let table = match seed % 16 {
            0 => legal_of_size(256, 2048, random),
            _ => legal(random),
        };
        let lines = any_length(3_000, random);
        tally.count(&run(&table, lines, random));
    }
    tally.assert_often(&["e001", "e002", "e026", "e027", "finished"], 30);
    tally.assert_often(&CODES, 30);
}

/// Scripts of any bytes, and of bytes that are likely in one.
#[test]
fn any_bytes() {
    let mut tally = Tally::default();
    each_seed(66, 2_000, |random| {
        let table = legal_of_size(2 + random.below(2), 1, random);
        let mut input = table.text();
        let likely = random.pick::<&[u8]>(&[b"\n0", b"0123\n", b"01\n", b"0\n\r \0\xff"]);
        let any = random.one_in(3);
        for _ in 0..any_length(5_000, random) {
            input.push(match any {
                true => random.byte(),
                false => random.pick(likely),
            });
        }
        tally.count(&text(&input, random));
    });
    tally.assert_often(&["e001", "e002"], 300);
}

/// The table's text or the script is damaged anywhere.
#[test]
fn damaged_texts() {
    let mut tally = Tally::default();
    each_table(67, 3_000, |table, random| {
        let mut input = table.text();
        let lines = random.below(20);
        input.extend(any_script(table, lines, all_accepted(), random));
        for _ in 0..1 + random.below(2) {
            damage_text(&mut input, random);
        }
        tally.count(&text(&input, random));
    });
    let of_tables = ["e001", "e002", "e003", "e004", "e005", "e006"];
    tally.assert_often(&of_tables, 20);
    for withdrawn in ["e007", "e025"] {
        assert!(!tally.0.contains_key(withdrawn), "{:?}", tally.0);
    }
    tally.assert_often(&["finished", "not finished"], 20);
}
