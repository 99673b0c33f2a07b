//! The lines of frames of table 0001, and bad lines made of a good one.

use crate::ends::{Frame, LINE};

pub fn line(kind: u8, from: u16, to: u16) -> Vec<u8> {
    let frame = Frame {
        kind,
        number: 1,
        from,
        to,
    };
    frame.line()
}

pub fn opening(probe: u16) -> Vec<u8> {
    line(0, probe, probe)
}

pub fn restart(probe: u16) -> Vec<u8> {
    line(3, probe, probe)
}

pub fn offer(from: u16, to: u16) -> Vec<u8> {
    line(1, from, to)
}

pub fn refusal(from: u16, to: u16) -> Vec<u8> {
    line(2, from, to)
}

fn with_byte(line: &[u8], place: usize, byte: u8) -> Vec<u8> {
    let mut changed = line.to_vec();
    changed[place] = byte;
    changed
}

/// The line's starts and ends, but not the whole: refused by 1.
pub fn cut(line: &[u8]) -> Vec<Vec<u8>> {
    let both = |length: usize| [&line[..length], &line[LINE - length..]];
    (0..LINE).flat_map(both).map(<[u8]>::to_vec).collect()
}

/// With a byte put in at any place, twice, or of very many digits: refused by 1.
pub fn too_long(line: &[u8]) -> Vec<Vec<u8>> {
    let mut lines = vec![line.repeat(2), vec![b'0'; 70_000]];
    for place in 0..=LINE {
        for byte in *b"0f\n\r " {
            let mut longer = line.to_vec();
            longer.insert(place, byte);
            lines.push(longer);
        }
    }
    lines
}

/// With a line feed inside, which makes it too short whatever stands before: refused by 1.
pub fn with_line_feed(line: &[u8]) -> Vec<Vec<u8>> {
    let at = |place| [b'0', b'X'].map(|first| with_byte(&with_byte(line, 0, first), place, b'\n'));
    (0..LINE - 1).flat_map(at).collect()
}

/// With any other byte for its line feed: refused by 1.
pub fn not_closed(line: &[u8]) -> Vec<Vec<u8>> {
    let other = (0..=255).filter(|&byte| byte != b'\n');
    other.map(|byte| with_byte(line, LINE - 1, byte)).collect()
}

/// With a byte for a digit that is none, nor a line feed: refused by 2.
pub fn with_no_digit(line: &[u8]) -> Vec<Vec<u8>> {
    let no_digit = |byte: &u8| !b"0123456789abcdef\n".contains(byte);
    let at = |place| {
        let bytes = (0..=255).filter(no_digit);
        bytes.map(move |byte| with_byte(line, place, byte))
    };
    (0..LINE - 1).flat_map(at).collect()
}
