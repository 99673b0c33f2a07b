//! 01's samples of the script program: the lines behind a marked site's table, and what is printed.
//! Then a site with a short probe, and probes that restart.

use crate::sites::MARKED;

/// M4's script, on the site in place 3.
pub const M4: [&str; 4] = [
    "00000100000000",
    "01000100000001",
    "00000100010001",
    "01000100010000",
];

pub const M4_PRINTED: [&str; 5] = [
    "0000000000ffff",
    "0001020000ffff",
    "0001000000ffff",
    "0000020000ffff",
    "0100000004",
];

/// On M2, in place 1.
pub const M11: [&str; 10] = [
    "00000100000000",
    "01000100000001",
    "00000100010001",
    "01000100010002",
    "00000100020002",
    "01000100020001",
    "02000100010000",
    "00000100030003",
    "01000100030002",
    "02000100020003",
];

pub const M11_PRINTED: [&str; 11] = [
    "0000000000ffff",
    "0001020000ffff",
    "0001000001ffff",
    "0002020001ffff",
    "0002000001ffff",
    "00010300010000",
    "0000050000ffff",
    "0003000002ffff",
    "0002040002ffff",
    "0003050002ffff",
    "010000000b",
];

/// Four probes; probe 1 needs three links and has two.
pub const VALLEY: [&str; 10] = [
    "000100040004",
    "0001",
    "0003",
    "0001",
    "0000",
    "000000010005",
    "000000020006",
    "000100020007",
    "000200030004",
    "ffff",
];

/// Its plan.
pub const VALLEY_PLANNED: [&str; 5] = [
    "000100020000000c",
    "000000010005",
    "000100020007",
    "00010001",
    "ffff",
];

/// Its script: probe 1 has enough at once and refuses what it is offered.
pub const VALLEY_SCRIPT: [&str; 12] = [
    "00000100000000",
    "01000100000002",
    "00000100010001",
    "00000100020002",
    "00000100020002",
    "01000100020001",
    "02000100010002",
    "00000100020002",
    "01000100020000",
    "01000100020003",
    "00000100030003",
    "01000100030002",
];

pub const VALLEY_PRINTED: [&str; 13] = [
    "0000000001ffff",
    "0002020001ffff",
    "000101ffffffff",
    "0002000002ffff",
    "0002000001ffff",
    "0001040002ffff",
    "0002050002ffff",
    "0002000003ffff",
    "0000020001ffff",
    "0003020003ffff",
    "0003000003ffff",
    "0002020003ffff",
    "010000000b",
];

/// Two probes; probe 1 needs their link.
pub const LATE: [&str; 5] = ["000100020001", "0000", "0001", "000000010001", "ffff"];

/// Its script: probe 1 refuses the offer and restarts, and probe 0 learns the refusal all the same.
/// Then the offer comes again.
pub const LATE_SCRIPT: [&str; 5] = [
    "00000100000000",
    "01000100000001",
    "03000100010001",
    "02000100010000",
    "01000100000001",
];

pub const LATE_PRINTED: [&str; 6] = [
    "0000000000ffff",
    "0001040000ffff",
    "000108ffffffff",
    "0000050000ffff",
    "0001040000ffff",
    "0100000004",
];

/// What its last line is without the late frame.
pub const LATE_BEFORE: &str = "0100000003";

/// M11 up to the displacement, on M2. Then each probe restarts, probe 0 learns the refusal of a link
/// that it has not tried, and M11's other offers come, an old one among them.
pub const RESTARTED: [&str; 20] = [
    "00000100000000",
    "01000100000001",
    "00000100010001",
    "01000100010002",
    "00000100020002",
    "01000100020001",
    "03000100000000",
    "03000100010001",
    "03000100020002",
    "03000100030003",
    "02000100010000",
    "00000100000000",
    "01000100000001",
    "00000100010001",
    "01000100010002",
    "00000100020002",
    "01000100020001",
    "00000100030003",
    "01000100030002",
    "02000100020003",
];

pub const RESTARTED_PRINTED: [&str; 21] = [
    "0000000000ffff",
    "0001020000ffff",
    "0001000001ffff",
    "0002020001ffff",
    "0002000001ffff",
    "00010300010000",
    "000008ffffffff",
    "000108ffffffff",
    "000208ffffffff",
    "000308ffffffff",
    "0000050000ffff",
    "000007ffffffff",
    "0001020000ffff",
    "0001000001ffff",
    "0002020001ffff",
    "0002000001ffff",
    "00010300010000",
    "0003000002ffff",
    "0002040002ffff",
    "0003050002ffff",
    "0100000011",
];

/// The lines, each closed by a line feed.
pub fn text(lines: &[&str]) -> Vec<u8> {
    let closed = lines.iter().map(|line| format!("{line}\n"));
    closed.collect::<String>().into_bytes()
}

/// The marked site's text, then the lines.
pub fn input(place: usize, lines: &[&str]) -> Vec<u8> {
    [MARKED[place].as_bytes(), &text(lines)].concat()
}
