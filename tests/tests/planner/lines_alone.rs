//! Document 02, No. 5: at every offset of a text, a line gives the same numbers, or the same
//! refusal 1 or 2, as its bytes alone.

use planner_tests::channel::{any_mix, any_script};
use planner_tests::compare;
use planner_tests::compare_fleet::Fleet;
use planner_tests::compare_script;
use planner_tests::events::each_table;
use planner_tests::random::Random;
use planner_tests::reference::{Behind, Caller, Table};
use planner_tests::script::{Script, LOG};
use planner_tests::sites::{marked, MARKED};
use std::collections::BTreeMap;

/// The bytes of the line at an offset: to its line feed, that included, or to the text's end.
fn alone(text: &[u8], at: usize) -> &[u8] {
    let rest = &text[at..];
    let feed = rest.iter().position(|&byte| byte == b'\n');
    &rest[..feed.map_or(rest.len(), |feed| feed + 1)]
}

/// What bytes give as a line of so many numbers, four digits each.
fn numbers(line: &[u8], count: usize) -> Result<Vec<u16>, u8> {
    let digits = line.strip_suffix(b"\n").ok_or(1)?;
    if digits.len() != 4 * count {
        return Err(1);
    }
    let digit = |byte: &u8| matches!(byte, b'0'..=b'9' | b'a'..=b'f');
    if !digits.iter().all(digit) {
        return Err(2);
    }
    let number = |four: &[u8]| {
        std::str::from_utf8(four)
            .ok()
            .and_then(|four| u16::from_str_radix(four, 16).ok())
    };
    Ok(digits.chunks(4).filter_map(number).collect())
}

/// The numbers that a table has of its lines: header, needs, links.
fn of_lines(table: &Table) -> Vec<Vec<u16>> {
    let (probes, links) = (table.needs.len() as u16, table.links.len() as u16);
    let mut lines = vec![vec![table.number, probes, links]];
    lines.extend(table.needs.iter().map(|&need| vec![need]));
    lines.extend(
        table
            .links
            .iter()
            .map(|link| vec![link.low, link.high, link.cost]),
    );
    lines
}

/// A line's bytes with any other byte at each place, and with a byte less or more.
fn changed(line: &[u8]) -> Vec<Vec<u8>> {
    let mut lines = vec![line.to_vec()];
    for place in 0..line.len() {
        for byte in 0..=255 {
            let mut other = line.to_vec();
            other[place] = byte;
            lines.push(other);
        }
        let (before, behind) = line.split_at(place);
        lines.push([before, &behind[1..]].concat());
        lines.push([before, b"0", behind].concat());
    }
    lines
}

#[test]
fn lines_of_tables() {
    let random = &mut Random::new(80);
    let mut reached: BTreeMap<String, usize> = BTreeMap::new();
    for table in (0..MARKED.len()).map(marked) {
        let text = table.text();
        let mut at = 0;
        for (place, line) in of_lines(&table).iter().enumerate() {
            let end = at + 4 * line.len() + 1;
            for bytes in changed(&text[at..end]) {
                let text = [&text[..at], &bytes, &text[end..]].concat();
                let lengths = [300, 2100, 2100, 2100];
                let read = compare::read(Caller::Full, &text, Behind::Anything, lengths, random);
                let given = numbers(alone(&text, at), line.len());
                let what = match (given, read) {
                    (Ok(given), Ok(read)) => {
                        assert_eq!(of_lines(&read)[place], given);
                        "numbers".to_owned()
                    }
                    // A header's counts, or a link's ends or order; behind other counts any line may be bad.
                    (Ok(_), Err(refusal)) => {
                        assert!(place == 0 || refusal == 4 || refusal == 5);
                        "refused for its numbers".to_owned()
                    }
                    (Err(refusal), read) => {
                        assert_eq!(read, Err(refusal));
                        format!("{refusal}")
                    }
                };
                *reached.entry(what).or_default() += 1;
            }
            at = end;
        }
    }
    assert_eq!(reached.len(), 4, "{reached:?}");
    assert!(reached.values().all(|&times| times > 500), "{reached:?}");
}

#[test]
fn lines_of_scripts() {
    let mut reached: BTreeMap<String, usize> = BTreeMap::new();
    each_table(81, 60, |table, random| {
        let mix = any_mix(random);
        let mut script = any_script(table, 12, mix, random);
        script.truncate(200);
        for _ in 0..script.len() / 40 {
            let place = random.below(script.len());
            script[place] = random.pick(b"gF 0\n");
        }
        for at in 0..script.len() {
            let line = alone(&script, at);
            let mut second = Script::fresh(table.clone());
            let given = second.line(line);
            assert_eq!(Fleet::fresh(table).event(line, 0, LOG), given);
            let text = [&table.text(), &script[at..]].concat();
            assert!(compare_script::text(&text, random).starts_with(&second.printed));
            let what = given.map_or_else(|refusal| format!("{refusal}"), |_| "entry".to_owned());
            *reached.entry(what).or_default() += 1;
        }
    });
    for what in ["entry", "1", "2"] {
        assert!(
            reached.get(what).is_some_and(|&times| times > 20),
            "{reached:?}"
        );
    }
}
