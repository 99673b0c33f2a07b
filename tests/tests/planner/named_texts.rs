//! The named bad texts, each with its refusal, for reading and for the plan's text by both callers.

use planner_tests::compare;
use planner_tests::random::Random;
use planner_tests::reference::{Behind, Caller, Table};
use planner_tests::sites::{site, M2};

const FIT: [usize; 4] = [4, 3, 3, 3];

fn read(text: &[u8], behind: Behind, lengths: [usize; 4]) -> Result<Table, u8> {
    compare::read(Caller::Full, text, behind, lengths, &mut Random::new(1))
}

fn m2() -> Table {
    read(M2.as_bytes(), Behind::Nothing, FIT).expect("M2 is legal")
}

/// The plan's text is the refusal, by both callers.
#[track_caller]
fn refusal_printed(text: &[u8], refusal: u8) {
    let output = format!("e{refusal:03}\n").into_bytes();
    for caller in Caller::BOTH {
        let printed = |length| compare::plan_text(caller, text, length, &mut Random::new(2));
        assert_eq!(printed(4), Err(8));
        assert_eq!(printed(5).as_ref(), Ok(&output));
        assert_eq!(printed(30).as_ref(), Ok(&output));
    }
}

/// All readings refuse the text, whether or not the slices are long enough.
#[track_caller]
fn refused(text: impl AsRef<[u8]>, refusal: u8) {
    let (text, random) = (text.as_ref(), &mut Random::new(1));
    for caller in Caller::BOTH {
        for &behind in Behind::of(caller) {
            for lengths in [[0, 0, 0, 0], FIT, [300, 2100, 2100, 2100], [9, 1, 2, 3]] {
                let read = compare::read(caller, text, behind, lengths, random);
                assert_eq!(read, Err(refusal));
            }
        }
    }
    refusal_printed(text, refusal);
}

/// M2's text with some of its lines, line feed included, replaced. Lines: 0 is the header, 1 to 4
/// the needs, 5 to 7 the links, 8 the closing line.
fn m2_with(changes: &[(usize, &str)]) -> String {
    let mut lines: Vec<&str> = M2.split_inclusive('\n').collect();
    for (line, changed) in changes {
        assert_ne!(lines[*line], *changed);
        lines[*line] = changed;
    }
    lines.concat()
}

const NEED_ABOVE: (usize, &str) = (1, "0002\n");

#[test]
fn empty_text() {
    refused("", 1);
    refused("\n", 1);
}

#[test]
fn cut_at_every_byte() {
    assert_eq!(M2.len(), 77);
    for cut in 0..72 {
        refused(&M2[..cut], 1);
    }
    for cut in 72..77 {
        refused(&M2[..cut], 6);
    }
    assert_eq!(m2().text(), M2.as_bytes());
}

#[test]
fn line_feed_inside_a_line() {
    for place in 0..71 {
        let mut text = M2.as_bytes().to_vec();
        text.insert(place, b'\n');
        refused(&text, 1);
        if text[place + 1] != b'\n' {
            text.remove(place + 1);
            refused(&text, 1);
        }
    }
}

#[test]
fn line_too_long_or_joined_to_the_next() {
    for (place, byte) in M2.bytes().enumerate().take(72) {
        let mut text = M2.as_bytes().to_vec();
        if byte == b'\n' {
            text[place] = b'0';
            refused(&text, 1);
            text.remove(place);
            refused(&text, 1);
        } else {
            text.insert(place, b'0');
            refused(&text, 1);
        }
    }
}

#[test]
fn bytes_that_are_no_digits() {
    let no_digit = |byte: &u8| !b"\n0123456789abcdef".contains(byte);
    for (place, digit) in M2.bytes().enumerate().take(72) {
        for byte in (0..=255).filter(no_digit).filter(|_| digit != b'\n') {
            let mut text = M2.as_bytes().to_vec();
            text[place] = byte;
            refused(&text, 2);
        }
    }
    refused(m2_with(&[(6, "00010002000A\n")]), 2);
    refused(m2_with(&[(6, "0001 0020006\n")]), 2);
    refused(m2_with(&[(6, "00010002006\r\n")]), 2);
    refused(m2_with(&[(6, "000100020006\r\n")]), 1);
    refused(M2.replace('\n', "\r\n"), 1);
}

#[test]
fn counts_out_of_range() {
    refused(m2_with(&[(0, "000100000003\n")]), 3);
    refused(m2_with(&[(0, "000101010003\n")]), 3);
    refused(m2_with(&[(0, "000100040801\n")]), 3);
    refused(m2_with(&[(0, "00010000ffff\n")]), 3);
    refused(m2_with(&[(0, "0001ffff0000\n")]), 3);
    refused("000000000000\nffff\n", 3);
}

#[test]
fn too_many_or_too_few_lines() {
    refused(m2_with(&[(4, "")]), 1);
    refused(m2_with(&[(4, "0000\n0000\n")]), 1);
    refused(m2_with(&[(7, "")]), 1);
    refused(m2_with(&[(8, "000200040005\nffff\n")]), 6);
    // More links than there are pairs is no fault of the header.
    refused(m2_with(&[(0, "000100040007\n")]), 1);
    // With no links the closing line is taken for the need that lacks, and a second one closes.
    refused("000100020000\n0000\nffff\n", 6);
    let taken = read(b"000100020000\n0000\nffff\nffff\n", Behind::Nothing, FIT);
    assert_eq!(taken, Ok(site(&[], &[0, 65_535])));
}

#[test]
fn ends_of_a_link() {
    refused(m2_with(&[(5, "000000000005\n")]), 4);
    refused(m2_with(&[(6, "000200010006\n")]), 4);
    refused(m2_with(&[(7, "000200040005\n")]), 4);
    refused(m2_with(&[(7, "000400050005\n")]), 4);
    refused(m2_with(&[(7, "0002ffff0005\n")]), 4);
    refused(m2_with(&[(7, "fffffffe0005\n")]), 4);
}

#[test]
fn links_equal_or_falling() {
    refused(m2_with(&[(6, "000000010005\n")]), 5);
    refused(m2_with(&[(6, "000000010009\n")]), 5);
    refused(m2_with(&[(7, "000100020006\n")]), 5);
    refused(m2_with(&[(7, "000000030005\n")]), 5);
    let lower_high = [(5, "000000020005\n"), (6, "000000010006\n")];
    refused(m2_with(&lower_high), 5);
    let lower_low = [(5, "000100020005\n"), (6, "000000030006\n")];
    refused(m2_with(&lower_low), 5);
}

#[test]
fn closing_line_absent_or_different() {
    for closing in [
        "",
        "ffff",
        "fff\n",
        "FFFF\n",
        "fffe\n",
        "efff\n",
        "fffff\n",
        "\n",
        "\nffff\n",
        "ffff\r\n",
        " ffff\n",
        "ffff ",
        "fff\nf\n",
        "0000\n",
        "0000\nffff\n",
    ] {
        refused(m2_with(&[(8, closing)]), 6);
    }
    refused([&M2.as_bytes()[..76], b"\xff"].concat(), 6);
}

#[test]
fn closing_line_followed_by_bytes() {
    for rest in ["ffff\n", "\n", "f", "0", "\r", "\0", "00000100000000\n", M2] {
        let text = [M2, rest].concat();
        assert_eq!(read(text.as_bytes(), Behind::Nothing, FIT), Err(6));
        assert_eq!(read(text.as_bytes(), Behind::Anything, FIT), Ok(m2()));
        refusal_printed(text.as_bytes(), 6);
    }
}

#[test]
fn long_texts() {
    let long = "0".repeat(65_536);
    refused(&long, 1);
    for line in 0..8 {
        let text = m2_with(&[(line, &(long.clone() + M2.lines().nth(line).unwrap() + "\n"))]);
        refused(text, 1);
    }
    refused(m2_with(&[(8, &(long.clone() + "ffff\n"))]), 6);
    for rest in [long.clone(), M2.repeat(1_000), "\n".repeat(65_536)] {
        let text = [M2, &rest].concat();
        assert_eq!(read(text.as_bytes(), Behind::Nothing, FIT), Err(6));
        assert_eq!(read(text.as_bytes(), Behind::Anything, FIT), Ok(m2()));
        refusal_printed(text.as_bytes(), 6);
    }
}

/// The need is read as given, up to the most that four digits hold.
#[test]
fn need_at_and_above_the_links() {
    for probe in 0..4 {
        for need in [1, 2, 3, 4, 255, 256, 32_768, 65_534, 65_535] {
            let mut expected = m2();
            expected.needs[probe] = need;
            let text = expected.text();
            for behind in Behind::BOTH {
                for enough in [FIT, [300, 2100, 2100, 2100]] {
                    let read = read(&text, behind, enough);
                    assert_eq!(read.as_ref(), Ok(&expected));
                }
            }
        }
    }
}

#[test]
fn slices_too_short_or_unequal() {
    let text = M2.as_bytes();
    for behind in Behind::BOTH {
        for (which, lengths) in [[3, 3, 3, 3], [4, 2, 3, 3], [4, 3, 2, 3], [4, 3, 3, 2]]
            .into_iter()
            .enumerate()
        {
            assert_eq!(read(text, behind, lengths), Err(8));
            let mut longer = FIT;
            longer[which] += 1;
            let refused_too = read(text, behind, longer).err();
            assert_eq!(refused_too, (which > 0).then_some(8));
        }
        for short in [[4, 2, 2, 2], [0, 3, 3, 3], [4, 0, 0, 0], [3, 9, 9, 9]] {
            assert_eq!(read(text, behind, short), Err(8));
        }
        for unequal in [[9, 9, 8, 8], [9, 8, 9, 8], [9, 8, 8, 9], [9, 7, 8, 9]] {
            assert_eq!(read(text, behind, unequal), Err(8));
        }
        for enough in [FIT, [5, 3, 3, 3], [4, 4, 4, 4], [300, 3000, 3000, 3000]] {
            assert_eq!(read(text, behind, enough), Ok(m2()));
        }
    }
}

#[test]
fn no_links_need_no_link_slices() {
    let text = b"000700010000\n0000\nffff\n";
    assert!(read(text, Behind::Nothing, [1, 0, 0, 0]).is_ok());
    assert_eq!(read(text, Behind::Nothing, [1, 1, 0, 0]), Err(8));
    assert_eq!(read(text, Behind::Nothing, [0, 0, 0, 0]), Err(8));
}

#[test]
fn order_within_a_line() {
    // 1 before 2, 2 before 3, 2 before 4, 4 before 5.
    refused(m2_with(&[(0, "00010004000G3\n")]), 1);
    refused(m2_with(&[(2, "00G\n")]), 1);
    refused(m2_with(&[(7, "0002 00030005\n")]), 1);
    refused(m2_with(&[(7, "000200G30005"), (8, "")]), 1);
    refused(m2_with(&[(0, "000G00000003\n")]), 2);
    refused(m2_with(&[(0, "000001010G01\n")]), 2);
    refused(m2_with(&[(6, "00020001000G\n")]), 2);
    refused(m2_with(&[(6, "00000001000G\n")]), 2);
    refused(m2_with(&[(7, "000000000005\n")]), 4);
    refused(m2_with(&[(7, "000000040005\n")]), 4);
}

#[test]
fn order_of_the_lines() {
    // The first line at fault decides, whatever follows it.
    refused("000100000000\n", 3);
    refused(m2_with(&[(0, "000101010003\n"), (1, "00\n")]), 3);
    refused(m2_with(&[(1, "000G\n"), (2, "00\n")]), 2);
    refused(m2_with(&[(1, "000\n"), (2, "000G\n")]), 1);
    refused(m2_with(&[(4, "000G\n"), (5, "000000000005\n")]), 2);
    refused(m2_with(&[(5, "000000000005\n"), (6, "0001\n")]), 4);
    refused(m2_with(&[(5, "00G000010005\n"), (6, "000000000005\n")]), 2);
    refused(m2_with(&[(6, "000000010005\n"), (7, "0001\n")]), 5);
    refused(m2_with(&[(6, "000000010005\n"), (7, "000200040005\n")]), 5);
    refused(m2_with(&[(6, "000100010005\n"), (7, "000000010005\n")]), 4);
    refused(m2_with(&[(6, "000000010005\n"), (7, "")]), 5);
}

#[test]
fn order_of_6_and_8() {
    // `refused` lends short slices too, so each of these also holds against 8.
    refused(m2_with(&[(8, "fffe\n")]), 6);
    refused(m2_with(&[NEED_ABOVE, (8, "fffe\n")]), 6);
    refused(m2_with(&[NEED_ABOVE, (8, "")]), 6);
    refused(m2_with(&[NEED_ABOVE, (7, "000200020005\n")]), 4);
    refused(m2_with(&[NEED_ABOVE, (7, "000100020005\n")]), 5);
    refused(m2_with(&[NEED_ABOVE, (7, "00020003000\n")]), 1);
    refused(m2_with(&[(7, "000100020005\n"), (8, "fffe\n")]), 5);
    let followed = m2_with(&[NEED_ABOVE]) + "\n";
    for (lengths, behind) in [
        (FIT, Ok(())),
        ([3, 3, 3, 3], Err(8)),
        ([4, 3, 3, 4], Err(8)),
    ] {
        let read = |behind| read(followed.as_bytes(), behind, lengths).map(drop);
        assert_eq!(read(Behind::Nothing), Err(6));
        assert_eq!(read(Behind::Anything), behind);
    }
}

#[test]
fn every_byte_put_in_at_every_place() {
    for place in 0..=M2.len() {
        for byte in 0..=255 {
            let mut text = M2.as_bytes().to_vec();
            text.insert(place, byte);
            let behind_links = place > 71 || (place == 71 && byte == b'\n');
            let refusal = if behind_links { 6 } else { 1 };
            assert_eq!(read(&text, Behind::Nothing, FIT), Err(refusal));
            refusal_printed(&text, refusal);
            let closed = place == 77 || (place == 76 && byte == b'\n');
            let expected = if closed { Ok(m2()) } else { Err(refusal) };
            assert_eq!(read(&text, Behind::Anything, FIT), expected);
        }
    }
}

#[test]
fn every_digit_at_every_place() {
    let mut accepted = 0;
    for (place, old) in M2.bytes().enumerate() {
        for digit in *b"0123456789abcdef" {
            let mut text = M2.as_bytes().to_vec();
            text[place] = digit;
            for behind in Behind::BOTH {
                let read = read(&text, behind, FIT);
                assert!(old != digit || read == Ok(m2()));
                accepted += read.is_ok() as usize;
            }
        }
    }
    // More than the unchanged texts, fewer than all.
    assert!(accepted > 2 * 68 && accepted < 2 * 16 * 77);
}
