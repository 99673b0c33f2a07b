//! The built programs, fed through a pipe; they stand in PLANNER_BIN_DIR, else in their crates' out/.

use planner_tests::channel::{any_mix, any_script, opening};
use planner_tests::events::any_table;
use planner_tests::random::Random;
use planner_tests::reference::{plan_output, table_of_text, Behind, Caller, Table};
use planner_tests::repository::{program, top};
use planner_tests::samples::{self, input, M11, M11_PRINTED, M4, M4_PRINTED};
use planner_tests::samples::{LATE, LATE_PRINTED, LATE_SCRIPT, RESTARTED, RESTARTED_PRINTED};
use planner_tests::samples::{VALLEY, VALLEY_PLANNED, VALLEY_PRINTED, VALLEY_SCRIPT};
use planner_tests::script;
use planner_tests::sites::{damage_text, legal_of_size, marked, set_needs, M2};
use std::fs::{self, File, OpenOptions};
use std::io::{stderr, BufRead, BufReader, ErrorKind, Read, Write};
use std::os::fd::OwnedFd;
use std::os::unix::net::UnixStream;
use std::process::{Child, ChildStdin, ChildStdout, Command, Output, Stdio};
use std::sync::mpsc::{self, Receiver};
use std::thread::{self, JoinHandle};
use std::time::Duration;

/// What a program may use of memory at the most, in KiB, whatever the length of its input.
const MOST_MEMORY: usize = 8 * 1024;

/// A program under way; a thread reads what it prints.
struct Program {
    child: Child,
    input: ChildStdin,
    output: JoinHandle<Vec<u8>>,
}

impl Program {
    fn start(name: &str) -> Program {
        Program::of(Command::new(program(name)))
    }

    fn of(mut command: Command) -> Program {
        command.stdin(Stdio::piped()).stdout(Stdio::piped());
        let started = command.spawn();
        let mut child = started.unwrap_or_else(|error| panic!("{command:?}: {error}"));
        let input = child.stdin.take().expect("its input is piped");
        let mut printed = child.stdout.take().expect("its output is piped");
        let output = thread::spawn(move || {
            let mut all = Vec::new();
            printed.read_to_end(&mut all).expect("its output is read");
            all
        });
        Program {
            child,
            input,
            output,
        }
    }

    /// A program that has ended reads no more.
    fn feed(&mut self, piece: &[u8]) {
        match self.input.write_all(piece) {
            Err(error) if error.kind() != ErrorKind::BrokenPipe => panic!("{error}"),
            _ => {}
        }
    }

    /// The most memory it has used so far, in KiB; its input is still open.
    fn most_memory(&self) -> usize {
        let path = format!("/proc/{}/status", self.child.id());
        let status = fs::read_to_string(path).expect("the program runs");
        let most = status.lines().find_map(|line| line.strip_prefix("VmHWM:"));
        let most = most.and_then(|most| most.split_whitespace().next());
        most.and_then(|most| most.parse().ok())
            .expect("VmHWM in KiB")
    }

    fn finish(mut self) -> Vec<u8> {
        drop(self.input);
        let status = self.child.wait().expect("the program ends");
        assert!(status.success(), "{status}");
        self.output.join().expect("its output is read")
    }
}

/// The whole output for an input in pieces of these sizes, again and again.
pub(super) fn run(name: &str, input: &[u8], sizes: &[usize]) -> Vec<u8> {
    let mut program = Program::start(name);
    let mut rest = input;
    for &size in sizes.iter().cycle() {
        if rest.is_empty() {
            break;
        }
        let (piece, behind) = rest.split_at(size.min(rest.len()));
        program.feed(piece);
        rest = behind;
    }
    program.finish()
}

pub(super) const WHOLE: [usize; 1] = [usize::MAX];
const ODD: [usize; 9] = [1, 3, 15, 7, 14, 16, 31, 4095, 4097];

#[track_caller]
fn compare_script(input: &[u8], sizes: &[usize]) {
    assert!(run("script", input, sizes) == script::output(input));
}

#[track_caller]
fn compare_plan(input: &[u8], sizes: &[usize]) {
    assert!(run("plan", input, sizes) == plan_output(Caller::Full, input));
}

/// A file of the repository.
fn file(path: &str) -> Vec<u8> {
    let path = top().join(path);
    fs::read(&path).unwrap_or_else(|error| panic!("{}: {error}", path.display()))
}

/// 01's samples and a site with a short probe, which are among the examples.
#[test]
fn samples() {
    assert_eq!(file("examples/m2.table"), M2.as_bytes());
    let expected = "000100020000000a\n000000010005\n000200030005\nffff\n";
    assert_eq!(run("plan", M2.as_bytes(), &WHOLE), expected.as_bytes());
    let valley = samples::text(&VALLEY);
    assert_eq!(file("examples/valley.table"), valley);
    let expected = samples::text(&VALLEY_PLANNED);
    assert_eq!(run("plan", &valley, &WHOLE), expected);
    let script = [valley, samples::text(&VALLEY_SCRIPT)].concat();
    let scripts = [
        ("examples/m4.script", input(3, &M4), &M4_PRINTED[..]),
        ("examples/m11.script", input(1, &M11), &M11_PRINTED),
        ("examples/valley.script", script, &VALLEY_PRINTED),
        (
            "examples/restart.script",
            input(1, &RESTARTED),
            &RESTARTED_PRINTED,
        ),
    ];
    for (path, input, printed) in scripts {
        assert_eq!(file(path), input);
        assert_eq!(run("script", &input, &WHOLE), samples::text(printed));
    }
}

/// 02's restarts: a late frame that alters a finished fleet, and a restart of each probe in M11.
#[test]
fn restarts() {
    let late = [&LATE[..], &LATE_SCRIPT].map(samples::text).concat();
    for (input, printed) in [
        (late, &LATE_PRINTED[..]),
        (input(1, &RESTARTED), &RESTARTED_PRINTED),
    ] {
        for sizes in [&WHOLE[..], &ODD] {
            assert_eq!(run("script", &input, sizes), samples::text(printed));
        }
    }
}

/// Every example, through both programs.
#[test]
fn examples() {
    let folder = top().join("examples");
    let (mut tables, mut scripts) = (0, 0);
    for entry in fs::read_dir(folder).expect("the examples") {
        let path = entry.expect("an example").path();
        let input = fs::read(&path).expect("an example");
        match path.extension().and_then(|suffix| suffix.to_str()) {
            Some("table") => tables += 1,
            Some("script") => scripts += 1,
            _ => panic!("{}", path.display()),
        }
        let table = table_of_text(Caller::Full, &input, Behind::Anything);
        assert!(table.is_ok(), "{}", path.display());
        for sizes in [&WHOLE[..], &ODD] {
            compare_plan(&input, sizes);
            compare_script(&input, sizes);
        }
    }
    assert!(tables >= 3 && scripts >= 3, "{tables} {scripts}");
}

#[test]
fn largest_example() {
    let text = file("examples/largest.table");
    let table = table_of_text(Caller::Full, &text, Behind::Nothing).expect("it is legal");
    assert_eq!([table.needs.len(), table.links.len()], [256, 2048]);
    assert_eq!(text.len(), 27_922);
}

/// The longest output: all links kept and all probes short. The script program prints nothing of
/// them, and on such a site nothing can be opened.
#[test]
fn longest_output() {
    let mut table = legal_of_size(256, 2048, &mut Random::new(84));
    set_needs(&mut table, |probe, degree| degree + 1 + 255 * probe);
    assert_eq!(table.short_probes().len(), 256);
    let output = run("plan", &table.text(), &WHOLE);
    assert_eq!(output.len(), 28_950);
    assert!(output == plan_output(Caller::Full, &table.text()));
    assert_eq!(run("script", &table.text(), &WHOLE), b"0100000000\n");
}

/// The README's blocks of lines that have only digits, each line closed.
fn blocks_of_digits(readme: &str) -> Vec<String> {
    let mut blocks = vec![String::new()];
    for line in readme.lines() {
        match line.strip_prefix("    ") {
            Some(line) if line.bytes().all(|byte| byte.is_ascii_hexdigit()) => {
                blocks
                    .last_mut()
                    .expect("one")
                    .push_str(&format!("{line}\n"));
            }
            _ => blocks.push(String::new()),
        }
    }
    blocks.retain(|block| !block.is_empty());
    blocks
}

/// The README's blocks are the sample table and what its commands print, in their order.
#[test]
fn readme() {
    let readme = String::from_utf8(file("README.md")).expect("a text");
    let commands = readme.lines().filter_map(|line| {
        let (command, rest) = line.strip_prefix("    ")?.split_once(" < ")?;
        let (_, program) = command.split_once("crates/")?;
        let program = program.split(['/', ' ']).next()?;
        Some((program, rest.split_whitespace().next()?))
    });
    let commands: Vec<(&str, &str)> = commands.collect();
    for command in [
        ("plan", "examples/m2.table"),
        ("plan", "examples/valley.table"),
        ("script", "examples/m11.script"),
    ] {
        assert!(commands.contains(&command), "{commands:?}");
    }
    let printed = commands
        .iter()
        .map(|(program, path)| run(program, &file(path), &WHOLE));
    let mut expected = vec![file("examples/m2.table")];
    expected.extend(printed);
    let blocks = blocks_of_digits(&readme).into_iter();
    let blocks: Vec<Vec<u8>> = blocks.map(String::into_bytes).collect();
    assert_eq!(blocks, expected);
}

#[test]
fn empty_input() {
    for name in ["script", "plan"] {
        assert_eq!(run(name, b"", &WHOLE), b"e001\n");
        assert_eq!(run(name, b"\n", &WHOLE), b"e001\n");
    }
}

/// Byte by byte, with a pause after each.
#[test]
fn slow_input() {
    let input = [&input(3, &M4), &b"\n0000010000000g\n0000010000"[..]].concat();
    for (name, expected) in [
        ("script", script::output(&input)),
        ("plan", plan_output(Caller::Full, &input)),
    ] {
        let mut program = Program::start(name);
        for byte in &input {
            program.feed(&[*byte]);
            thread::sleep(Duration::from_micros(100));
        }
        assert_eq!(program.finish(), expected);
    }
}

/// The lines of an output as they come; the last, which no line feed closes, is none.
fn lines_of(output: ChildStdout) -> Receiver<String> {
    let (sender, receiver) = mpsc::channel();
    thread::spawn(move || {
        for line in BufReader::new(output).lines() {
            let line = line.expect("its output is read");
            if sender.send(line).is_err() {
                break;
            }
        }
    });
    receiver
}

/// Feeds the pieces one by one and waits for the answer to each before the next; the input stays
/// open until all are answered. Hands back what the end prints.
#[track_caller]
fn converse(pieces: &[(Vec<u8>, &str)]) -> Vec<String> {
    let mut command = Command::new(program("script"));
    command.stdin(Stdio::piped()).stdout(Stdio::piped());
    let mut child = command.spawn().expect("the program starts");
    let mut input = child.stdin.take().expect("its input is piped");
    let lines = lines_of(child.stdout.take().expect("its output is piped"));
    for (piece, answer) in pieces {
        input.write_all(piece).expect("the program reads on");
        let printed = lines.recv_timeout(Duration::from_secs(60));
        assert_eq!(printed.as_deref(), Ok(*answer));
    }
    drop(input);
    assert!(child.wait().expect("the program ends").success());
    lines.into_iter().collect()
}

/// An answer comes before the next line is sent, on the smallest table and on the largest.
#[test]
fn answers_as_lines_come() {
    let mut pieces: Vec<(Vec<u8>, &str)> = Vec::new();
    for (line, answer) in M4.iter().zip(M4_PRINTED) {
        pieces.push((samples::text(&[line]), answer));
    }
    pieces[0].0 = input(3, &M4[..1]);
    assert_eq!(converse(&pieces), M4_PRINTED[4..]);
    let largest = file("examples/largest.table");
    let opening = opening(
        &table_of_text(Caller::Full, &largest, Behind::Nothing).expect("legal"),
        0,
    )
    .line();
    let first = [largest, opening].concat();
    let printed = String::from_utf8(script::output(&first)).expect("digits");
    let printed: Vec<&str> = printed.lines().collect();
    assert_eq!(converse(&[(first, printed[0])]), printed[1..]);
}

/// A refused table is answered before the input ends: its header's line is all that is read, or its
/// own bytes.
#[test]
fn refusal_before_the_input_ends() {
    let none: [String; 0] = [];
    for (text, refusal) in [
        ("0001000g0001\n", "e002"),
        ("000100020801\n", "e003"),
        ("0001000200011", "e001"),
        ("000100020001\n0000\n0000\n000100010007\nffff\n", "e004"),
        ("000100020001\n0000\n0000\n000000010007\nfffe\n", "e006"),
    ] {
        assert_eq!(converse(&[(text.into(), refusal)]), none);
    }
}

/// Runs a program on an input and an output that are not pipes.
fn run_on(name: &str, input: Stdio, output: Stdio) -> Output {
    let mut command = Command::new(program(name));
    command.stdin(input).stdout(output).stderr(Stdio::piped());
    let child = command.spawn().expect("the program starts");
    child.wait_with_output().expect("the program ends")
}

/// A failed read is not the end of the input: nothing is printed, and standard error tells.
#[test]
fn failed_read() {
    for name in ["plan", "script"] {
        let told = format!("{name}: the input could not be read\n");
        let folder = File::open("/").expect("a folder");
        let (mut feed, unfinished) = UnixStream::pair().expect("a pair");
        unfinished.set_nonblocking(true).expect("not blocking");
        feed.write_all(&M2.as_bytes()[..40]).expect("half a table");
        for input in [Stdio::from(folder), Stdio::from(OwnedFd::from(unfinished))] {
            let ended = run_on(name, input, Stdio::piped());
            assert!(ended.status.success() && ended.stdout.is_empty());
            assert_eq!(ended.stderr, told.as_bytes());
        }
    }
}

/// A read that fails behind the table: what came before it is answered, and the end is not printed.
#[test]
fn failed_read_behind_the_table() {
    let (mut feed, unfinished) = UnixStream::pair().expect("a pair");
    unfinished.set_nonblocking(true).expect("not blocking");
    feed.write_all(&input(3, &M4)).expect("a script");
    let unfinished = Stdio::from(OwnedFd::from(unfinished));
    let ended = run_on("script", unfinished, Stdio::piped());
    assert!(ended.status.success());
    assert_eq!(ended.stdout, samples::text(&M4_PRINTED[..4]));
    assert_eq!(ended.stderr, b"script: the input could not be read\n");
}

/// On a full disk a program stops at the first write, and standard error tells.
#[test]
fn failed_write() {
    for (name, input) in [
        ("plan", "examples/m2.table"),
        ("plan", "examples/m4.script"),
        ("script", "examples/m2.table"),
        ("script", "examples/m11.script"),
        ("script", "README.md"),
    ] {
        let full = OpenOptions::new().write(true).open("/dev/full");
        let input = File::open(top().join(input)).expect("an input");
        let ended = run_on(name, input.into(), full.expect("/dev/full").into());
        assert!(ended.status.success());
        let told = format!("{name}: the output could not be written\n");
        assert_eq!(ended.stderr, told.as_bytes());
    }
}

fn random_input(table: &Table, lines: usize, random: &mut Random) -> Vec<u8> {
    let mix = any_mix(random);
    [table.text(), any_script(table, lines, mix, random)].concat()
}

#[test]
fn random_inputs_in_odd_pieces() {
    for seed in 0..60 {
        let random = &mut Random::new(80 << 32 | seed);
        let table = match seed {
            0 | 1 => legal_of_size(256, 2048, random),
            _ => any_table(random),
        };
        let lines = random.below(2_000);
        let mut input = random_input(&table, lines, random);
        compare_plan(&table.text(), &ODD);
        compare_script(&input, &ODD);
        damage_text(&mut input, random);
        compare_plan(&input, &ODD);
        compare_script(&input, &ODD);
    }
}

#[test]
fn script_of_100_000_lines() {
    let random = &mut Random::new(81);
    for (probes, links) in [(6, 12), (256, 2048)] {
        let table = legal_of_size(probes, links, random);
        let input = random_input(&table, 100_000, random);
        let lines = input.iter().filter(|&&byte| byte == b'\n').count();
        assert!(lines > 100_000);
        compare_script(&input, &WHOLE);
    }
}

/// Feeds the start once and the rest so many times; the memory used stays small.
#[track_caller]
fn bounded(name: &str, start: &[u8], rest: &[u8], times: usize) -> Vec<u8> {
    let mut program = Program::start(name);
    program.feed(start);
    for _ in 0..times {
        program.feed(rest);
    }
    let most = program.most_memory();
    assert!(most < MOST_MEMORY, "{name}: {most} KiB");
    program.finish()
}

#[test]
fn memory_for_a_million_lines() {
    let random = &mut Random::new(82);
    let table = legal_of_size(6, 12, random);
    let rest = any_script(&table, 10_000, any_mix(random), random);
    let output = bounded("script", &table.text(), &rest, 100);
    let input = [table.text(), rest.repeat(100)].concat();
    assert!(output == script::output(&input));
    assert!(output.len() > 5_000_000);
}

#[test]
fn memory_for_a_million_empty_lines() {
    let output = bounded("script", &marked(3).text(), &[b'\n'; 10_000], 100);
    let expected = ["e001\n".repeat(1_000_000).as_bytes(), b"0000000000\n"].concat();
    assert!(output == expected);
}

/// 20,000,000 bytes without a line feed.
#[test]
fn memory_for_a_long_line() {
    let digits = [b'0'; 100_000];
    let output = bounded("script", &marked(3).text(), &digits, 200);
    assert_eq!(output, b"e001\n0000000000\n");
    let output = bounded("plan", &marked(3).text(), &digits, 200);
    assert_eq!(output, b"e006\n");
}

/// The program's output under valgrind's memory checker, which finds no error and no block left.
#[track_caller]
fn run_checked(name: &str, input: &[u8]) -> Vec<u8> {
    let mut command = Command::new("valgrind");
    command.args(["-q", "--error-exitcode=9", "--leak-check=full"]);
    command.args(["--errors-for-leak-kinds=all", "--"]);
    command.arg(program(name));
    let mut program = Program::of(command);
    program.feed(input);
    program.finish()
}

/// The largest inputs under the memory checker, where it is installed.
#[test]
fn checked_memory() {
    if Command::new("valgrind").arg("--version").output().is_err() {
        // Not by a macro, whose output is kept back where the test passes.
        writeln!(stderr(), "checked_memory: skipped, no valgrind on the path").expect("stderr");
        return;
    }
    let text = file("examples/largest.table");
    let table = table_of_text(Caller::Full, &text, Behind::Nothing).expect("it is legal");
    assert!(run_checked("plan", &text) == plan_output(Caller::Full, &text));
    let random = &mut Random::new(83);
    let openings = (0..1_000).flat_map(|count| opening(&table, count % 256).line());
    let behind = [
        openings.collect(),
        any_script(&table, 2_000, any_mix(random), random),
        (0..2_000_000).map(|_| random.byte()).collect(),
        (0..200_000).map(|_| random.pick(b"0012\n")).collect(),
    ];
    for behind in behind {
        let input = [&text[..], &behind].concat();
        assert!(run_checked("script", &input) == script::output(&input));
        assert!(run_checked("plan", &input) == plan_output(Caller::Full, &input));
    }
}
