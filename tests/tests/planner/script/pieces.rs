//! A script handled in pieces prints what it prints at once.

use planner_tests::buffer::Buffer;
use planner_tests::channel::{any_mix, any_script};
use planner_tests::compare_script::{in_pieces, state_fault, text, Pieces, END, KEPT};
use planner_tests::events::each_table;
use planner_tests::faults::{each_choice, of_table, Fault};
use planner_tests::random::Random;
use planner_tests::reference::Table;
use planner_tests::samples::{self, M4, RESTARTED};
use planner_tests::script::{output, Script};
use planner_tests::sites::{damage_table, marked, Numbers, MARKED};

/// In pieces of so many bytes, equal to the whole.
#[track_caller]
fn compare(table: &Table, script: &[u8], size: usize, random: &mut Random) {
    let whole = output(&[&table.text(), script].concat());
    assert!(in_pieces(table, script.chunks(size), random) == whole);
}

/// M11 with restarts and bad lines, a long one among them, and a last line that is not closed.
fn small_script() -> Vec<u8> {
    let long = "0".repeat(50);
    let mut lines = Vec::from(RESTARTED);
    lines.insert(3, "");
    lines.insert(5, "000001000000000");
    lines.insert(7, "0000010000000000");
    lines.insert(9, &long);
    lines.insert(10, "0000010000000G");
    lines.push("0000010001000");
    let mut text = samples::text(&lines);
    text.pop();
    text
}

#[test]
fn cut_at_every_byte() {
    let random = &mut Random::new(70);
    let (table, script) = (marked(1), small_script());
    let whole = text(&[&table.text(), &script[..]].concat(), random);
    for cut in 0..=script.len() {
        let (one, other) = script.split_at(cut);
        let printed = in_pieces(&table, [one, other].into_iter(), random);
        assert!(printed == whole, "cut at {cut}");
    }
}

#[test]
fn pieces_of_every_size() {
    let random = &mut Random::new(71);
    let script = small_script();
    for size in 1..=40 {
        compare(&marked(1), &script, size, random);
        compare(&marked(3), &samples::text(&M4), size, random);
    }
}

#[test]
fn no_piece_and_empty_pieces() {
    let random = &mut Random::new(72);
    for (place, text) in MARKED.iter().enumerate() {
        let table = marked(place);
        let whole = output(text.as_bytes());
        assert_eq!(in_pieces(&table, [].into_iter(), random), whole);
        assert_eq!(in_pieces(&table, [&b""[..]; 3].into_iter(), random), whole);
    }
}

/// 100,000 bytes without a line feed, in pieces of some sizes.
#[test]
fn long_line() {
    let random = &mut Random::new(73);
    let table = marked(3);
    for size in [1, 7, 15, 16, 17, 4096, 100_000] {
        let long = vec![b'0'; 100_000];
        compare(&table, &long, size, random);
        let closed = [&long[..], b"\n", M4[0].as_bytes(), b"\n"].concat();
        compare(&table, &closed, size, random);
    }
}

#[test]
fn random_scripts_in_random_pieces() {
    let mut pieces = 0;
    each_table(74, 600, |table, random| {
        let lines = random.below(60);
        let mut script = any_script(table, lines, any_mix(random), random);
        if random.one_in(3) {
            script.pop();
        }
        let most = random.pick(&[2, 16, 20, 40, 400]);
        let mut rest = &script[..];
        let mut cut = Vec::new();
        while !rest.is_empty() {
            let (piece, behind) = rest.split_at(random.below(most).min(rest.len()));
            cut.push(piece);
            rest = behind;
        }
        pieces += cut.len();
        let whole = output(&[&table.text(), &script[..]].concat());
        assert!(in_pieces(table, cut.into_iter(), random) == whole);
    });
    assert!(pieces > 10_000, "{pieces}");
}

/// The log is full once 1,024 entries are used, whatever came before.
#[test]
fn used_goes_on() {
    let random = &mut Random::new(75);
    let line = b"00000100000000\n";
    for (used, expected) in [
        (0, &b"0000000000ffff\n"[..]),
        (1023, b"0000000000ffff\n"),
        (1024, b"e026\n"),
        (1025, b"e026\n"),
    ] {
        let mut pieces = Pieces::fresh(&marked(3), random);
        pieces.progress.lend()[0] = used;
        let length = pieces.enough(line);
        assert_eq!(pieces.piece(line, length, random), Ok(expected.to_vec()));
        let more = u32::from(expected.len() == 15);
        assert_eq!(pieces.used(), used + more);
        assert_eq!(pieces.changed(), more);
    }
}

#[test]
fn end_prints_what_it_is_told() {
    let random = &mut Random::new(76);
    let mut pieces = Pieces::fresh(&marked(3), random);
    pieces.progress.lend()[2] = 0x1234_abcd;
    assert_eq!(pieces.end(END, random), Ok(b"001234abcd\n".to_vec()));
    pieces.record.lend().fill(1);
    assert_eq!(pieces.end(END, random), Ok(b"011234abcd\n".to_vec()));
    for held in [1, 14, 15, 16] {
        pieces.progress.lend()[1] = held;
        let expected = b"e001\n011234abcd\n".to_vec();
        assert_eq!(pieces.end(END + 1, random), Ok(expected));
    }
}

fn set_record(pieces: &mut Pieces, record: &[u8]) {
    pieces.record = Buffer::holding(record, || 7);
}

const OF_RECORD: [Fault<Pieces>; 3] = [
    (|pieces| set_record(pieces, &[0; 12]), 20),
    (|pieces| set_record(pieces, &[2; 24]), 21),
    (|pieces| set_record(pieces, &[1; 24]), 22),
];

/// Of any faults together the first decides; too few bytes for an unfinished line, too few
/// numbers or too few for the end's output go before all others, too few for a piece's output
/// behind them.
#[test]
fn refused_pieces_and_ends() {
    let random = &mut Random::new(77);
    let fresh = || Pieces::fresh(&marked(1), &mut Random::new(77));
    let faults = [&of_table(), &OF_RECORD[..]].concat();
    each_choice(&faults, fresh, |mut pieces, refusals| {
        let piece = b"00000100000000\n";
        let enough = 5 * piece.len();
        let expected = refusals.first().copied();
        assert_eq!(pieces.end(11, random).err(), expected);
        assert_eq!(pieces.end(10, random), Err(8));
        let short = pieces.piece(piece, 14, random);
        assert_eq!(short.err(), expected.or(Some(8)));
        let mut fitting = pieces.clone();
        assert_eq!(fitting.piece(piece, 15, random).err(), expected);
        assert_eq!(pieces.piece(piece, enough, random).err(), expected);
        let mut short_line = pieces.clone();
        short_line.line = Buffer::filled(KEPT - 1, || 7);
        assert_eq!(short_line.piece(piece, enough, random), Err(8));
        pieces.progress = Buffer::holding(&[0, 0], || 7);
        assert_eq!(pieces.piece(piece, enough, random), Err(8));
    });
}

/// A slice that just holds what is printed is long enough, a shorter one is refused.
#[test]
fn slice_for_the_output() {
    let random = &mut Random::new(78);
    for held in 0..16 {
        let mut pieces = Pieces::fresh(&marked(3), random);
        let start = &b"00000100000000\n"[..held.min(14)];
        let printed = pieces.piece(start, pieces.enough(start), random);
        assert_eq!(printed, Ok(Vec::new()));
        let piece = b"\n\n00000100000000\n";
        let mut reference = Script::fresh(marked(3));
        reference.piece(start);
        reference.piece(piece);
        let exact = reference.printed.len();
        assert_eq!(pieces.held() as usize, start.len());
        for length in [0, 1, exact / 2, exact - 1] {
            assert_eq!(pieces.piece(piece, length, random), Err(8));
        }
        assert_eq!(pieces.piece(piece, exact, random), Ok(reference.printed));
    }
    let mut pieces = Pieces::fresh(&marked(3), random);
    for (held, exact) in [(0, 11), (1, END), (16, END)] {
        pieces.progress.lend()[1] = held;
        for length in 0..exact {
            assert_eq!(pieces.end(length, random), Err(8));
        }
        assert!(pieces.end(exact, random).is_ok());
    }
}

/// Random tables in slices, damaged or not, are refused as the fleet refuses them.
#[test]
fn damaged_tables() {
    let mut refused = 0;
    each_table(79, 4_000, |table, random| {
        let mut damaged = table.clone();
        damage_table(&mut damaged, random);
        let mut pieces = Pieces::fresh(table, random);
        pieces.numbers = Numbers::of(&damaged);
        let expected = state_fault(pieces.numbers.slices(), pieces.record.entries());
        refused += usize::from(expected.is_some());
        let piece = b"00000100000000\n";
        let printed = pieces.piece(piece, pieces.enough(piece), random);
        assert_eq!(printed.err(), expected);
        assert_eq!(pieces.end(END, random).err(), expected);
    });
    assert!(refused > 2_000, "{refused}");
}
