//! Named scripts and what they print.

use super::printed;
use planner_tests::channel::full_script;
use planner_tests::compare_script::{text, text_in};
use planner_tests::random::Random;
use planner_tests::reference::CLOSING;
use planner_tests::samples::{self, input, M11, M11_PRINTED, M4, M4_PRINTED};
use planner_tests::samples::{LATE, LATE_BEFORE, LATE_PRINTED, LATE_SCRIPT};
use planner_tests::samples::{RESTARTED, RESTARTED_PRINTED};
use planner_tests::script::{output, room_for};
use planner_tests::sites::{legal_of_size, marked, M2, MARKED};

#[test]
fn m4() {
    assert_eq!(printed(&input(3, &M4)), M4_PRINTED);
}

#[test]
fn m11() {
    assert_eq!(printed(&input(1, &M11)), M11_PRINTED);
}

/// A late frame alters a finished fleet, which stays finished.
#[test]
fn late_frame() {
    for (events, last) in [(4, LATE_BEFORE), (5, LATE_PRINTED[5])] {
        let input = [LATE.as_slice(), &LATE_SCRIPT[..events]].map(samples::text);
        let expected = [&LATE_PRINTED[..events], &[last]].concat();
        assert_eq!(printed(&input.concat()), expected);
    }
}

#[test]
fn m11_with_a_restart_of_every_probe() {
    assert_eq!(printed(&input(1, &RESTARTED)), RESTARTED_PRINTED);
}

/// Wipes, and the marks that stay, count no change: M11's sum is as before wherever restarts of fresh
/// probes stand, and after one of each probe behind its end.
#[test]
fn restarts_count_no_change() {
    let wipe = |probe: usize| format!("0300010{probe:03x}0{probe:03x}");
    let wipes: Vec<String> = (0..4).map(wipe).collect();
    let wipes: Vec<&str> = wipes.iter().map(String::as_str).collect();
    let before = printed(&input(1, &[&wipes, &M11[..]].concat()));
    let wiped = [
        "000008ffffffff",
        "000108ffffffff",
        "000208ffffffff",
        "000308ffffffff",
    ];
    assert_eq!(before, [&wiped, &M11_PRINTED[..]].concat());
    let behind = printed(&input(1, &[&M11[..], &wipes].concat()));
    assert_eq!(behind[10..14], wiped);
    assert_eq!(behind[14], "000000000b");
}

#[test]
fn no_script_lines() {
    assert_eq!(printed(M2.as_bytes()), ["0000000000"]);
    // One probe without a link, and no link that could be opened.
    assert_eq!(printed(MARKED[2].as_bytes()), ["0100000000"]);
}

/// M11 with refused lines between; each prints its refusal, and the script goes on.
#[test]
fn refused_lines() {
    let faults = [
        ("", "e001"),
        ("0000010000000", "e001"),
        ("000001000000000", "e001"),
        ("00000100000000\r", "e001"),
        ("0000010000000A", "e002"),
        ("0000010000 000", "e002"),
        ("04000100000000", "e009"),
        ("00000200000000", "e023"),
        ("00000100040004", "e024"),
        ("00000100000001", "e024"),
        ("03000200000000", "e023"),
        ("03000100040004", "e024"),
        ("03000100000001", "e024"),
        ("01000100000000", "e024"),
        ("01000100000002", "e024"),
        ("02000100030002", "e027"),
    ];
    let mut lines = Vec::new();
    let mut expected = Vec::new();
    for line in M11 {
        for (fault, refusal) in faults {
            lines.push(fault);
            expected.push(refusal.to_owned());
        }
        lines.push(line);
    }
    let output = printed(&input(1, &lines));
    let kept = |line: &&String| !line.starts_with('e');
    let accepted: Vec<&String> = output.iter().filter(kept).collect();
    assert_eq!(
        accepted,
        printed(&input(1, &M11)).iter().collect::<Vec<_>>()
    );
    let refused: Vec<&String> = output.iter().filter(|line| !kept(line)).collect();
    assert_eq!(refused, expected.iter().collect::<Vec<_>>());
}

/// An offer that nobody made, heard before it is made.
#[test]
fn frame_before_it_is_sent() {
    let lines = ["01000100000001", "00000100000000", "01000100000001"];
    let expected = ["e027", "0000000000ffff", "0001020000ffff", "0000000002"];
    assert_eq!(printed(&input(3, &lines)), expected);
}

#[test]
fn last_line_without_its_line_feed() {
    let whole = input(3, &M4);
    let cut = &whole[..whole.len() - 1];
    let output = printed(cut);
    assert_eq!(output[3..], ["e001", "0000000003"]);
    for length in MARKED[3].len() + 1..whole.len() {
        let open = whole[length - 1] != b'\n';
        let refused = printed(&whole[..length]).iter().any(|line| line == "e001");
        assert_eq!(open, refused);
    }
}

/// A refused table prints only its refusal, whatever stands behind it.
#[test]
fn refused_table() {
    let tables = [
        ("", "e001"),
        ("00010002000", "e001"),
        ("00010002000g\n", "e002"),
        ("000100000000\nffff\n", "e003"),
        ("000101010000\n", "e003"),
        ("000100020001\n0000\n0000\n000100010007\nffff\n", "e004"),
        (
            "000100020002\n0000\n0000\n000000010007\n000000010007\nffff\n",
            "e005",
        ),
        ("000100020001\n0000\n0000\n000000010007\nffff", "e006"),
        ("000100020001\n0000\n0000\n000000010007\nFFFF\n", "e006"),
        ("000100020001\n0002\n0000\n000000010007\nfffe\n", "e006"),
    ];
    for (table, refusal) in tables {
        assert_eq!(printed(table.as_bytes()), [refusal]);
        let more = [table, "x\n00000100000000\n"].concat();
        let output = printed(more.as_bytes());
        assert_eq!((output.len(), &output[0][..1]), (1, "e"));
    }
}

/// What stands behind the closing line is script, not a fault of the table.
#[test]
fn closing_line_twice() {
    let twice = [MARKED[3].as_bytes(), CLOSING, b"00000100000000\n"].concat();
    assert_eq!(printed(&twice), ["e001", "0000000000ffff", "0000000001"]);
}

#[test]
fn slice_for_the_output() {
    let mut random = Random::new(60);
    for input in [b"".to_vec(), b"x".to_vec(), input(3, &M4), input(1, &M11)] {
        let (exact, enough) = (output(&input).len(), room_for(input.len()));
        for length in [0, 1, 4, exact / 2, exact - 1] {
            assert_eq!(text_in(&input, length, &mut random), Err(8));
        }
        for length in [exact, exact + 1, enough - 1, enough, 2 * enough] {
            let printed = text_in(&input, length.max(exact), &mut random);
            assert_eq!(printed, Ok(output(&input)));
        }
    }
}

/// With 1,024 lines accepted, the log is full: what would be accepted is refused by 26, a bad
/// line by its own number. The last line tells the record's state.
#[test]
fn full_log() {
    let random = &mut Random::new(61);
    for (probes, links) in [(2, 1), (8, 20), (256, 2048)] {
        let mut table = legal_of_size(probes, links, random);
        table.number = 1;
        let start = [table.text(), full_script(&table, random)].concat();
        let before = printed(&start);
        assert!(!before.iter().any(|line| line.starts_with('e')));
        assert_eq!(before.len(), 1025);
        let behind = [
            "00000100000000\n03000100000000\n\n0X000100000000\n04000100000000\n",
            "00000000000000\n00000100000001\n00000100000000",
        ];
        let behind = behind.concat();
        let output = printed(&[&start, behind.as_bytes()].concat());
        assert_eq!(output[..1024], before[..1024]);
        let refused = [
            "e026", "e026", "e001", "e002", "e009", "e023", "e024", "e001",
        ];
        assert_eq!(output[1024..1032], refused);
        assert_eq!(output[1032..], before[1024..]);
    }
}

/// Openings of a probe that has enough take entries too, and so do restarts.
#[test]
fn log_full_of_enough_or_of_restarts() {
    for (line, entry) in [
        ("00000100000000", "000001ffffffff"),
        ("03000100000000", "000008ffffffff"),
    ] {
        let output = printed(&input(2, &vec![line; 1100]));
        assert_eq!(output[..1024], vec![entry; 1024]);
        assert_eq!(output[1024..1100], vec!["e026"; 76]);
        assert_eq!(output[1100..], ["0100000000"]);
    }
}

#[test]
fn long_lines() {
    let mut random = Random::new(62);
    for byte in [b'0', b'f', b'x', 0, 255] {
        let long = vec![byte; 100_000];
        let start = input(3, &M4[..1]);
        let rest = samples::text(&M4[1..]);
        let whole = [&start, &long[..], b"\n", &rest].concat();
        let output = text(&whole, &mut random);
        let expected =
            "0000000000ffff\ne001\n0001020000ffff\n0001000000ffff\n0000020000ffff\n0100000004\n";
        assert!(output == expected.as_bytes());
        let unclosed = [&start, &long[..]].concat();
        let output = text(&unclosed, &mut random);
        assert!(output == b"0000000000ffff\ne001\n0000000001\n");
    }
}

/// A digit's line, 100,000 bytes long, with a frame at its end or start is one line.
#[test]
fn long_line_with_a_frame_in_it() {
    let mut random = Random::new(63);
    for length in (1..40).chain([255, 256, 4096, 65_521, 65_536, 65_537, 100_000]) {
        let digits = vec![b'0'; length];
        for line in [
            [M4[0].as_bytes(), &digits].concat(),
            [&digits, M4[0].as_bytes()].concat(),
        ] {
            let whole = [MARKED[3].as_bytes(), &line, b"\n"].concat();
            assert_eq!(text(&whole, &mut random), b"e001\n0000000000\n");
        }
    }
}

#[test]
fn only_line_feeds() {
    let whole = [MARKED[3].as_bytes(), &[b'\n'; 5000]].concat();
    let output = printed(&whole);
    assert_eq!(output.len(), 5001);
    assert!(output[..5000].iter().all(|line| line == "e001"));
    assert_eq!(output[5000], "0000000000");
}

#[test]
fn marked_tables_without_a_script() {
    for (place, text) in MARKED.iter().enumerate() {
        let table = marked(place);
        let finished = table.spares().iter().all(|&spare| spare == 0);
        let expected = if finished { "0100000000" } else { "0000000000" };
        assert_eq!(printed(text.as_bytes()), [expected]);
    }
}
