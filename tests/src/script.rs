//! The second implementation of the script program, from documents 01 and 02 alone: bytes in, bytes
//! out.

use crate::ends::Entry;
use crate::fleet::{Site, BYTES};
use crate::reference::{put_text, refusal_line, table_of_text, text_length, Behind, Caller, Table};

/// The entries of its log.
pub const LOG: usize = 1024;

/// A script under way.
pub struct Script {
    pub site: Site,
    pub record: Vec<u8>,
    pub used: usize,
    /// The changes so far; wipes count none.
    pub changed: usize,
    /// The bytes of a line that is not closed yet.
    pub held: Vec<u8>,
    pub printed: Vec<u8>,
}

/// What is printed for an accepted line.
pub fn entry_line(entry: Entry) -> Vec<u8> {
    let [code, link, displaced] = entry.what.numbers();
    format!("{:04x}{code:02x}{link:04x}{displaced:04x}\n", entry.probe).into_bytes()
}

impl Script {
    pub fn fresh(legal: Table) -> Script {
        let record = vec![0; BYTES * legal.links.len()];
        Script {
            site: Site::of_legal(legal),
            record,
            used: 0,
            changed: 0,
            held: Vec::new(),
            printed: Vec::new(),
        }
    }

    /// One line, of any bytes; prints and hands back what befell.
    pub fn line(&mut self, line: &[u8]) -> Result<Entry, u8> {
        let answer = self.site.event(&mut self.record, line, self.used, LOG);
        match answer {
            Ok(entry) => {
                self.used += 1;
                self.changed += entry.what.changes();
                self.printed.extend(entry_line(entry));
            }
            Err(refusal) => self.printed.extend(refusal_line(refusal)),
        }
        answer
    }

    /// Some more of the text behind the table.
    pub fn piece(&mut self, piece: &[u8]) {
        for part in piece.split_inclusive(|&byte| byte == b'\n') {
            let mut line = std::mem::take(&mut self.held);
            line.extend(part);
            match part.ends_with(b"\n") {
                true => drop(self.line(&line)),
                false => self.held = line,
            }
        }
    }

    /// The text ends: a line that is not closed is a line too. Hands back all that is printed.
    pub fn end(mut self) -> Vec<u8> {
        if !self.held.is_empty() {
            let line = std::mem::take(&mut self.held);
            assert_eq!(self.line(&line), Err(1));
        }
        let finished = u8::from(self.site.finished(&self.record));
        let last = format!("{finished:02x}{:08x}\n", self.changed);
        self.printed.extend(last.into_bytes());
        self.printed
    }
}

/// All that the program prints.
pub fn output(input: &[u8]) -> Vec<u8> {
    match table_of_text(Caller::Full, input, Behind::Anything) {
        Ok(table) => {
            let behind = text_length(table.needs.len(), table.links.len());
            let mut script = Script::fresh(table);
            script.piece(&input[behind..]);
            script.end()
        }
        Err(refusal) => refusal_line(refusal),
    }
}

/// Bytes that are enough for any output of an input of so many.
pub fn room_for(input: usize) -> usize {
    5 * input + 5
}

/// Fills `out` from its start with the output and answers the length; 8 where `out` is shorter
/// than the output.
pub fn text(input: &[u8], out: &mut [u8]) -> Result<usize, u8> {
    put_text(&output(input), out)
}
