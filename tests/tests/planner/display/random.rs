//! Random texts and slices around the display's limits, broken or not, from both callers.

use super::SMALL;
use planner_tests::compare;
use planner_tests::random::{each_seed, Random};
use planner_tests::reference::{
    plan_output, refusal_line, text_length, Behind, Caller, Slices, Table, DISPLAY,
};
use planner_tests::sites::{damage_table, damage_text, legal_of_size, lengths, Numbers};

const CASES: u64 = 12_000;

/// A legal table with 13 to 17 probes and 36 to 41 links.
fn near(random: &mut Random) -> Table {
    let (probes, links) = (13 + random.below(5), 36 + random.below(6));
    legal_of_size(probes, links, random)
}

/// Sets one of the header's counts, to 15 to 18 probes or 39 to 42 links.
fn set_count(text: &mut [u8], random: &mut Random) {
    let (place, first) = random.pick(&[(4, 15), (8, 39)]);
    let count = format!("{:04x}", first + random.below(4));
    text[place..place + 4].copy_from_slice(count.as_bytes());
}

/// Whether the text starts with a header line whose counts are beyond the display's limits.
fn header_beyond(text: &[u8]) -> bool {
    let count = |place: usize| {
        let digits = text.get(place..place + 4)?;
        let lower = |byte: &u8| b"0123456789abcdef".contains(byte);
        let digits = std::str::from_utf8(digits)
            .ok()
            .filter(|_| digits.iter().all(lower))?;
        usize::from_str_radix(digits, 16).ok()
    };
    match (count(0), count(4), count(8), text.get(12)) {
        (Some(_), Some(probes), Some(links), Some(b'\n')) => DISPLAY.exceeded(probes, links),
        _ => false,
    }
}

/// How often the display accepted and how often it made each refusal, how often that is its own 3:
/// where the full caller accepted, and where that made another refusal.
#[derive(Debug, Default)]
struct Tally {
    answers: [usize; 9],
    own: usize,
    own_before_another: usize,
}

impl Tally {
    fn count(&mut self, full: Option<u8>, display: Option<u8>) {
        self.answers[usize::from(display.unwrap_or(0))] += 1;
        match full {
            None => self.own += usize::from(display.is_some()),
            Some(_) => self.own_before_another += usize::from(full != display),
        }
    }

    /// Each came more often than this, among the answers accepting and these refusals.
    #[track_caller]
    fn assert_often(&self, refusals: &[usize], times: usize) {
        assert_eq!(self.answers[7], 0);
        let own = [self.own, self.own_before_another, self.answers[0]];
        let refused = refusals.iter().map(|&refusal| self.answers[refusal]);
        let often = own.into_iter().chain(refused).all(|count| count > times);
        assert!(often, "{self:?}");
    }
}

/// Read and printed by both callers: the display's answer is the full caller's, or 3 for its header.
fn read_and_print(text: &[u8], lengths: [usize; 4], random: &mut Random, tally: &mut Tally) {
    let own = header_beyond(text);
    let [full, display] =
        Caller::BOTH.map(|caller| compare::read(caller, text, Behind::Nothing, lengths, random));
    tally.count(
        full.as_ref().err().copied(),
        display.as_ref().err().copied(),
    );
    assert!(display == if own { Err(3) } else { full });
    let length = plan_output(Caller::Full, text).len() + random.below(3);
    let [full, display] =
        Caller::BOTH.map(|caller| compare::plan_text(caller, text, length, random));
    assert!(display == if own { Ok(refusal_line(3)) } else { full });
}

/// Lengths that just fit the table, those of the display, or any.
fn any_lengths(table: &Table, random: &mut Random) -> [usize; 4] {
    let (probes, links) = (table.needs.len(), table.links.len());
    let any = lengths(probes, links, random);
    random.pick(&[[probes, links, links, links], SMALL, any])
}

#[test]
fn texts() {
    let mut tally = Tally::default();
    each_seed(113, CASES, |random| {
        let mut table = near(random);
        if random.one_in(3) {
            damage_table(&mut table, random);
        }
        let mut text = table.text();
        if random.one_in(3) {
            set_count(&mut text, random);
        }
        for _ in 0..random.below(3) {
            damage_text(&mut text, random);
        }
        let lengths = any_lengths(&table, random);
        read_and_print(&text, lengths, random, &mut tally);
    });
    tally.assert_often(&[1, 2, 3, 4, 5, 6, 8], 100);
}

/// The same check, text or plan as the full caller's, or 3 for the counts; 8 comes first.
#[track_caller]
fn same_or_3<T: PartialEq>(given: Slices, [full, display]: [Result<T, u8>; 2]) -> [Option<u8>; 2] {
    let refusals = [&full, &display].map(|answer| answer.as_ref().err().copied());
    let beyond = DISPLAY.exceeded(given.probes.into(), given.links.into());
    let own = beyond && refusals[0] != Some(8);
    assert!(display == if own { Err(3) } else { full });
    refusals
}

#[test]
fn slices() {
    let mut tally = Tally::default();
    each_seed(114, CASES, |random| {
        let (table, times) = (near(random), random.below(3));
        let mut numbers = Numbers::damaged(&table, times, random);
        if random.one_in(4) {
            numbers.lend(SMALL, random);
        }
        let given = numbers.slices();
        let (probes, links) = (given.probes.into(), given.links.into());
        let checked = Caller::BOTH.map(|caller| compare::check(caller, given));
        let [full, display] = same_or_3(given, checked);
        tally.count(full, display);
        let room = text_length(probes, links) + random.below(3) - random.below(2);
        let written = Caller::BOTH.map(|caller| compare::write(caller, given, room, random));
        same_or_3(given, written);
        let bytes = (links + random.below(3)).saturating_sub(random.below(2));
        let by_slse = Caller::BOTH.map(|caller| compare::plan_slse(caller, given, bytes, random));
        same_or_3(given, by_slse);
        let lent = [
            links,
            (4 * links + random.below(3)).saturating_sub(random.below(2)),
        ];
        let by_turns = Caller::BOTH.map(|caller| compare::plan_turns(caller, given, lent, random));
        same_or_3(given, by_turns);
    });
    tally.assert_often(&[3, 4, 5, 8], 300);
}
