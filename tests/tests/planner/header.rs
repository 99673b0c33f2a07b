//! `include/planner.h` and `ffi` declare what the crates have, and a C program runs with the header.

use planner_tests::repository::{document, top};
use planner_tests::samples::{text, M11_PRINTED};
use planner_tests::signatures::{library, of_crates, of_ffi, of_header};
use std::env;
use std::ffi::OsString;
use std::path::Path;
use std::process::{Command, Output};

const HEADER: &str = "include/planner.h";
const FFI: &str = "tests/src/ffi.rs";
const PROGRAM: &str = "tests/c/planner.c";

/// The header's declarations as the crates' signatures give them.
fn expected() -> Vec<String> {
    let mut expected: Vec<String> = of_crates().iter().map(|one| one.in_c()).collect();
    expected.sort();
    expected
}

#[test]
fn declarations() {
    let crates = of_crates();
    assert!(crates.len() >= 30, "{}", crates.len());
    assert_eq!(of_ffi(&document(FFI)), crates);
    assert_eq!(of_header(&document(HEADER)), expected());
}

/// Each function of the header has a comment of one line.
#[test]
fn comments() {
    let header = document(HEADER);
    let lines: Vec<&str> = header.lines().collect();
    let mut commented = 0;
    for two in lines.windows(2).filter(|two| two[1].starts_with("uint")) {
        assert!(
            two[0].starts_with("/* ") && two[0].ends_with(". */"),
            "{two:?}"
        );
        commented += 1;
    }
    assert_eq!(commented, of_crates().len());
}

/// Makes each edit at each of its places, one at a time, and counts them; all must be told.
#[track_caller]
fn told(whole: &str, part: &str, edits: &[[&str; 2]], same: impl Fn(&str) -> bool) -> usize {
    let start = whole.find(part).expect("a part of the whole");
    let mut count = 0;
    for [from, to] in edits {
        let before = count;
        for (place, _) in part.match_indices(from) {
            let (head, tail) = whole.split_at(start + place);
            let edited = [head, to, &tail[from.len()..]].concat();
            assert!(!same(&edited), "{from} as {to}, at {place}");
            count += 1;
        }
        assert!(count > before, "{from} is nowhere");
    }
    count
}

#[test]
fn edits_of_the_header_are_told() {
    let (header, expected) = (document(HEADER), expected());
    let (_, declared) = header.split_once("extern \"C\" {").expect("declarations");
    let edits = [
        ["planner_", "planer_"],
        ["const ", ""],
        ["    uint", "    const uint"],
        ["uint8_t", "uint16_t"],
        ["uint16_t", "uint8_t"],
        ["uint32_t", "uint64_t"],
        ["uint64_t", "uint32_t"],
        ["size_t", "uint32_t"],
        ["_length", ""],
        [
            "uint16_t probes, uint16_t links",
            "uint16_t links, uint16_t probes",
        ],
        [
            "uint32_t held, uint32_t changed",
            "uint32_t changed, uint32_t held",
        ],
        ["size_t used, size_t room", "size_t room, size_t used"],
        [
            "uint8_t *rec, size_t rec_length",
            "size_t rec_length, uint8_t *rec",
        ],
        [
            "*standing, size_t standing_length",
            "*held, size_t held_length",
        ],
        [
            "*refused_out, size_t refused_out_length",
            "*refused_in, size_t refused_in_length",
        ],
        ["    uint16_t link,\n", ""],
        ["    size_t free", "    uint16_t link, size_t free"],
        ["size_t used, size_t i", "size_t i, size_t used"],
    ];
    let count = told(&header, declared, &edits, |text| {
        of_header(text) == expected
    });
    assert!(count > 400, "{count}");
    // Without a declaration, and with one twice.
    let (name, more) = (
        "uint64_t planner_script_text(",
        "uint64_t planner_more(void);\n\n",
    );
    for (place, _) in declared.match_indices("\nuint") {
        let rest = &declared[place..];
        let one = &rest[..rest.find(';').expect("its end") + 1];
        assert_ne!(of_header(&header.replace(one, "")), expected);
        assert_ne!(of_header(&header.replace(one, &one.repeat(2))), expected);
    }
    assert_ne!(
        of_header(&header.replace(name, &(more.to_owned() + name))),
        expected
    );
}

#[test]
fn edits_of_the_rust_declarations_are_told() {
    let (ffi, crates) = (document(FFI), of_crates());
    let same = |text: &str| of_ffi(text) == crates;
    let edits = [
        ["fn ", "fn other_"],
        ["&[u8]", "&mut [u8]"],
        ["&mut [u8]", "&[u8]"],
        ["maps: Maps", "maps: LentMaps"],
        ["maps: LentMaps", "maps: Maps"],
        ["&mut [u32]", "&mut [u16]"],
        ["&[u64]", "&mut [u64]"],
        ["&mut [u64]", "&[u64]"],
        ["[u64]", "[u32]"],
        ["used: usize, i: usize", "i: usize, used: usize"],
        ["probe: u16", "probe: u32"],
        ["held: u32, changed: u32", "changed: u32, held: u32"],
        ["used: usize, room: usize", "room: usize, used: usize"],
        ["text: &[u8], lent: Lent", "lent: Lent, text: &[u8]"],
        ["given: Slices, ", ""],
        ["-> u64", "-> u32"],
        ["-> u8", "-> u64"],
    ];
    let in_library = told(&ffi, library(&ffi), &edits, same);
    let (rules, _) = ffi.split_once("\nlibrary! {").expect("rules");
    let edits = [
        ["($parts.needs): &[u16]", "($parts.needs): &mut [u16]"],
        ["($parts.needs): &mut [u16]", "($parts.needs): &[u16]"],
        ["($parts.lows)", "($parts.highs)"],
        ["($parts.probes): u16", "($parts.probes): u8"],
        ["($parts.refused_out)", "($parts.refused_in)"],
        ["($parts.held): &[u64]", "($parts.held): &mut [u64]"],
        ["($parts.held): &mut [u64]", "($parts.held): &[u64]"],
        [
            "($parts.standing): &mut [u64]",
            "($parts.standing): &mut [u8]",
        ],
    ];
    let in_rules = told(&ffi, rules, &edits, same);
    assert!(in_library > 60 && in_rules > 3, "{in_library}, {in_rules}");
}

/// A compiler: what the environment names, else this.
fn compiler(variable: &str, otherwise: &str) -> OsString {
    env::var_os(variable).unwrap_or_else(|| otherwise.into())
}

#[track_caller]
fn succeeds(command: &mut Command) -> Output {
    let output = command
        .output()
        .unwrap_or_else(|e| panic!("{command:?}: {e}"));
    let told = String::from_utf8_lossy(&output.stderr);
    assert!(
        output.status.success() && told.is_empty(),
        "{command:?}: {told}"
    );
    output
}

/// Compiles the C program with warnings as errors, links it with the libraries and runs it.
#[track_caller]
fn runs(name: &str, compiler: OsString, language: &[&str]) {
    let program = Path::new(env!("CARGO_TARGET_TMPDIR")).join(name);
    let libraries = Path::new(env!("PLANNER_LIBRARIES"));
    let subjects = ["table", "plan", "probe", "fleet", "wake_log", "script"];
    let mut command = Command::new(compiler);
    command
        .args(language)
        .args(["-Wall", "-Wextra", "-pedantic", "-Werror", "-I"])
        .arg(top().join("include"))
        .arg(top().join(PROGRAM))
        .args(["-x", "none"])
        .args(subjects.map(|subject| libraries.join(format!("lib{subject}_exports.a"))))
        .arg("-o")
        .arg(&program);
    succeeds(&mut command);
    let printed = succeeds(&mut Command::new(&program)).stdout;
    let plan = "000100020000000a\n000000010005\n000200030005\nffff\n";
    assert_eq!(printed, [plan.as_bytes(), &text(&M11_PRINTED)].concat());
}

#[test]
fn c_program() {
    runs("planner_c", compiler("CC", "cc"), &["-std=c99"]);
}

#[test]
fn c_program_as_cpp() {
    runs("planner_cpp", compiler("CXX", "c++"), &["-x", "c++"]);
}

/// The C program calls every function and goes by every macro.
#[test]
fn c_program_uses_the_whole_header() {
    let (header, program) = (document(HEADER), document(PROGRAM));
    let ends = |c: char| !c.is_alphanumeric() && c != '_';
    let words: Vec<&str> = program.split(ends).collect();
    let functions = of_crates().into_iter().map(|function| function.name);
    let macros = header
        .lines()
        .filter_map(|line| line.strip_prefix("#define "));
    let macros = macros.map(|rest| rest.split(ends).next().unwrap_or("").to_owned());
    let names: Vec<String> = functions
        .chain(macros.filter(|name| name != "PLANNER_H"))
        .collect();
    for name in &names {
        assert!(words.contains(&name.as_str()), "{name}");
    }
    assert!(names.len() > 30, "{}", names.len());
}
