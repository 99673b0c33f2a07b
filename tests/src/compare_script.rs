//! The script program in the library and the second implementation, compared with every buffer.

use crate::buffer::Buffer;
use crate::compare::written;
use crate::ffi::{self, ANSWER_BASE};
use crate::fleet::{Site, BYTES};
use crate::random::Random;
use crate::reference::{is_withdrawn, Slices, Table};
use crate::script::{self, Script};
use crate::sites::Numbers;

/// The whole output, with a slice of this length for it.
#[track_caller]
pub fn text_in(input: &[u8], length: usize, random: &mut Random) -> Result<Vec<u8>, u8> {
    let library = |out: &mut [u8]| ffi::script_text(input, out);
    let reference = |out: &mut [u8]| script::text(input, out);
    written("script text", length, random, library, reference)
}

/// The whole output, with a slice that is long enough for any; one time in eight also with slices
/// that just hold it, and that are one byte too short.
#[track_caller]
pub fn text(input: &[u8], random: &mut Random) -> Vec<u8> {
    let length = script::room_for(input.len()) + random.below(3);
    let output = text_in(input, length, random).expect("the slice is long enough");
    if random.one_in(8) {
        assert!(text_in(input, output.len(), random).as_ref() == Ok(&output));
        assert_eq!(text_in(input, output.len() - 1, random), Err(8));
    }
    output
}

/// The refusal of a piece or of the end by the table and the record.
pub fn state_fault(given: Slices, record: &[u8]) -> Option<u8> {
    let checked = Site::of(given).and_then(|site| site.check_record(record));
    checked.err()
}

/// The bytes that keep an unfinished line, at the least.
pub const KEPT: usize = 16;

/// The bytes that the end prints, at the most.
pub const END: usize = 16;

/// A script that the library handles in pieces.
#[derive(Clone)]
pub struct Pieces {
    pub numbers: Numbers,
    pub record: Buffer<u8>,
    pub line: Buffer<u8>,
    pub progress: Buffer<u32>,
}

impl AsMut<Numbers> for Pieces {
    fn as_mut(&mut self) -> &mut Numbers {
        &mut self.numbers
    }
}

impl Pieces {
    pub fn fresh(table: &Table, random: &mut Random) -> Pieces {
        let (kept, longer) = (KEPT + random.below(3), random.below(3));
        let mut progress = Buffer::filled(3 + longer, || random.word() as u32);
        progress.lend()[..3].fill(0);
        Pieces {
            numbers: Numbers::of(table),
            record: Buffer::holding(&vec![0; BYTES * table.links.len()], || random.byte()),
            line: Buffer::filled(kept, || random.byte()),
            progress,
        }
    }

    pub fn used(&self) -> u32 {
        self.progress.entries()[0]
    }

    pub fn held(&self) -> u32 {
        self.progress.entries()[1]
    }

    pub fn changed(&self) -> u32 {
        self.progress.entries()[2]
    }

    /// The bytes that are enough for what a piece prints.
    pub fn enough(&self, piece: &[u8]) -> usize {
        5 * (self.held() as usize + piece.len())
    }

    /// Handles a piece with a slice of this length; hands back what is printed. Only the first
    /// three entries of the progress may change, and a refusal changes nothing.
    #[track_caller]
    pub fn piece(
        &mut self,
        piece: &[u8],
        length: usize,
        random: &mut Random,
    ) -> Result<Vec<u8>, u8> {
        let before = self.clone();
        let untouched = Buffer::filled(length, || random.byte());
        let mut out = untouched.clone();
        let answer = ffi::script_piece(
            self.numbers.slices(),
            self.record.lend(),
            self.line.lend(),
            self.progress.lend(),
            piece,
            out.lend(),
        );
        let printed = printed(answer, &out, &untouched);
        if printed.is_err() {
            assert!(self.record == before.record && self.line == before.line);
            assert!(self.progress == before.progress);
            return printed;
        }
        assert!(self.progress.kept_beyond(3, &before.progress));
        assert!(self
            .record
            .kept_beyond(self.record.entries().len(), &before.record));
        assert!(self
            .line
            .kept_beyond(self.line.entries().len(), &before.line));
        printed
    }

    /// Ends with a slice of this length; hands back what is printed.
    #[track_caller]
    pub fn end(&self, length: usize, random: &mut Random) -> Result<Vec<u8>, u8> {
        let untouched = Buffer::filled(length, || random.byte());
        let (mut out, record) = (untouched.clone(), self.record.clone());
        let answer = ffi::script_end(
            self.numbers.slices(),
            record.entries(),
            self.held(),
            self.changed(),
            out.lend(),
        );
        assert!(record == self.record);
        printed(answer, &out, &untouched)
    }

    /// Stands where the second implementation does.
    #[track_caller]
    fn assert_like(&self, script: &Script) {
        assert!(self.record.entries() == script.record);
        assert_eq!(self.used() as usize, script.used);
        assert_eq!(self.changed() as usize, script.changed);
        assert_eq!(self.held() > 0, !script.held.is_empty());
        let most = script.held.len().min(self.line.entries().len());
        assert!(self.held() as usize <= most);
    }
}

/// The printed bytes; those behind them are untouched.
#[track_caller]
fn printed(answer: u64, out: &Buffer<u8>, untouched: &Buffer<u8>) -> Result<Vec<u8>, u8> {
    let length = answer
        .checked_sub(ANSWER_BASE)
        .map(|length| length as usize);
    assert!(out.kept_beyond(length.unwrap_or(0), untouched));
    assert!(!is_withdrawn(answer), "a withdrawn refusal");
    match length {
        Some(length) => Ok(out.entries()[..length].to_vec()),
        None => Err(answer.try_into().expect("a refusal is a small number")),
    }
}

/// Handles the script in these pieces and compares after each; hands back all that is printed. The
/// slices just hold what is printed, are longer, or are first too short by a byte.
#[track_caller]
pub fn in_pieces<'a>(
    table: &Table,
    pieces: impl Iterator<Item = &'a [u8]>,
    random: &mut Random,
) -> Vec<u8> {
    let mut by_library = Pieces::fresh(table, random);
    let mut by_reference = Script::fresh(table.clone());
    let mut all = Vec::new();
    for piece in pieces {
        by_reference.piece(piece);
        let exact = by_reference.printed.len() - all.len();
        if exact > 0 && random.one_in(4) {
            assert_eq!(by_library.piece(piece, exact - 1, random), Err(8));
        }
        let length = random.pick(&[exact, exact + 1, by_library.enough(piece)]);
        let printed = by_library.piece(piece, length, random);
        all.extend(printed.expect("a piece of a legal script"));
        by_library.assert_like(&by_reference);
        assert!(all == by_reference.printed);
    }
    let whole = by_reference.end();
    let exact = whole.len() - all.len();
    assert_eq!(by_library.end(exact - 1, random), Err(8));
    let end = by_library.end(random.pick(&[exact, exact + 1, END]), random);
    all.extend(end.expect("the end of a legal script"));
    assert!(all == whole);
    all
}
