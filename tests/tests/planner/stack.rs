//! The stack that each call for C and each program uses on the largest sites is at most what the
//! README says; that of a call for the display at most 4 KiB.

use planner_tests::depths::{
    band_for, bargaining, largest_sites, sites, Call, Site, CALLS, ENOUGH,
};
use planner_tests::ffi::{self, ANSWER_BASE};
use planner_tests::reference::{plan_output, Caller};
use planner_tests::repository::{document, program, quoted, rows};
use planner_tests::script;
use planner_tests::signatures::of_crates;
use planner_tests::sites::Numbers;
use planner_tests::stack::{depth, STEP};
use std::collections::BTreeMap;
use std::env;
use std::hint::black_box;
use std::io::Write;
use std::os::unix::process::ExitStatusExt;
use std::process::{Command, Stdio};
use std::thread;

const KIB: usize = 1024;

/// The most that a call for the display may need.
const DISPLAY_STACK: usize = 4 * KIB;

/// The signal that ends a process which touches what it may not.
const SIGSEGV: i32 = 11;

/// The README's figures: KiB of stack for each function for C and for each program.
fn figures() -> BTreeMap<String, usize> {
    let readme = document("README.md");
    let mut figures = BTreeMap::new();
    for row in rows(&readme, "\n## What is proved, and what is assumed\n") {
        let figure: usize = row[1].parse().expect("a number of KiB");
        for name in quoted(row[0]) {
            let before = figures.insert(name.to_owned(), figure);
            assert_eq!(before, None, "{name} stands twice");
        }
    }
    figures
}

/// Measures each call on each site, then makes it with just its figure of stack below the caller's
/// frame.
#[test]
fn depth_of_each_call() {
    let figures = figures();
    let mut deepest = [0; CALLS.len()];
    let mut for_display = 0;
    for (table, legal) in sites() {
        let site = &Site::of(&table);
        for (call, deepest) in CALLS.iter().zip(&mut deepest) {
            let (name, limits) = (call.name, call.caller.limits());
            let (answer, depth) = call.measured(site, ENOUGH);
            // What prints accepts every text, and a log is read without a table.
            let refuses = !name.ends_with("_text") && name != "planner_log_entry";
            let fine = legal && !limits.exceeded(table.needs.len(), table.links.len());
            assert_eq!(answer >= ANSWER_BASE, fine || !refuses, "{name}");
            let figure = figures[name];
            assert!(depth <= figure * KIB, "{name}: {depth} bytes, {figure} KiB");
            assert_eq!(call.measured(site, figure * KIB), (answer, depth), "{name}");
            if call.caller == Caller::Display {
                assert!(depth <= DISPLAY_STACK, "{name}: {depth} bytes");
                for_display += usize::from(fine);
            }
            *deepest = depth.max(*deepest);
        }
    }
    let names: Vec<String> = of_crates().into_iter().map(|one| one.name).collect();
    assert_eq!(names, CALLS.each_ref().map(|call| call.name));
    assert!(for_display > 6 * 50, "{for_display}");
    for (Call { name, .. }, depth) in CALLS.iter().zip(deepest) {
        println!("{name}: {depth} bytes of stack");
        // The figure is no guess: at most a tenth and two KiB more.
        let most = 11 * depth / 10 / KIB + 2;
        assert!(figures[*name] <= most, "{name}: {depth} bytes");
    }
}

/// A run that needs one step more than its limit is killed; one that needs all of it is not.
#[test]
fn the_limit_is_kept() {
    const LIMIT: &str = "STACK_LIMIT";
    fn nest(frames: usize) {
        let frame = black_box([frames; 8]);
        if frames > 0 {
            nest(frames - 1);
        }
        black_box(&frame);
    }
    let measure = |limit| depth(limit, &mut || nest(100));
    // This test again, as a process of its own, runs with the limit that it is given.
    if let Ok(limit) = env::var(LIMIT) {
        measure(limit.parse().expect("a number of bytes"));
        return;
    }
    let end = |limit: usize| {
        let mut shell = Command::new("sh");
        // It is to leave no core file.
        let again = "ulimit -c 0 && exec \"$0\" --exact stack::the_limit_is_kept";
        shell.args(["-c", again]);
        shell.arg(env::current_exe().expect("the tests' path"));
        let output = shell.env(LIMIT, limit.to_string()).output();
        output.expect("its end").status
    };
    let needed = measure(ENOUGH).next_multiple_of(STEP);
    assert!(end(needed).success());
    assert_eq!(end(needed - STEP).signal(), Some(SIGSEGV));
}

/// How deep planning by turns goes on the caller's rising bands of a quarter, half, three quarters and
/// all of its probes, where it nests two less than there are probes; and two nests deeper. Where the
/// compiler makes a loop of the nest, no nest takes stack.
fn longest_nest(caller: Caller) -> usize {
    let limits = caller.limits();
    let quarter = limits.probes / 4;
    let turns = |probes: usize| {
        let numbers = Numbers::of(&band_for(caller, probes as u16));
        let (mut plan, mut work) = (vec![0; limits.links], vec![0; 4 * limits.links]);
        let mut answer = 0;
        let depth = depth(ENOUGH, &mut || {
            answer = ffi::plan_by_turns(caller, numbers.slices(), &mut plan, &mut work);
        });
        assert!(answer >= ANSWER_BASE);
        depth
    };
    let depths = [1, 2, 3, 4].map(|quarters| turns(quarters * quarter));
    let more: Vec<usize> = depths.windows(2).map(|two| two[1] - two[0]).collect();
    // A call takes its return address at least.
    if more.iter().all(|&more| more < 8 * quarter) {
        return depths[3];
    }
    assert!(more[0] % quarter == 0);
    assert_eq!(more, [more[0]; 3]);
    depths[3] + 2 * (more[0] / quarter)
}

/// Displacements nest at most once a probe: each offer in the nest is cheaper than the one that was
/// displaced before it, and an end that has given up its cheapest holds dearer ones alone. The
/// rising band nests two less than it has probes; the figure has room for these two.
#[test]
fn longest_nests() {
    let figures = figures();
    let [full, display] = Caller::BOTH.map(longest_nest);
    assert!(full <= figures["planner_plan_turns"] * KIB, "{full}");
    let figure = figures["planner_display_plan_turns"] * KIB;
    assert!(display <= figure.min(DISPLAY_STACK), "{display}");
}

/// Runs a program with so many KiB of stack; the system's own use of it varies from run to run.
fn run_small(name: &str, figure: usize, input: &[u8]) -> Vec<u8> {
    let mut shell = Command::new("sh");
    shell.args(["-c", &format!("ulimit -s {figure} && exec \"$0\"")]);
    let piped = shell
        .arg(program(name))
        .env_clear()
        .stdin(Stdio::piped())
        .stdout(Stdio::piped())
        .spawn();
    let mut child = piped.expect("a shell");
    let mut given = child.stdin.take().expect("its input is piped");
    let input = input.to_vec();
    let feed = thread::spawn(move || given.write_all(&input));
    let output = child.wait_with_output().expect("its end");
    assert!(output.status.success(), "{name}: {}", output.status);
    feed.join().expect("a thread").expect("all is read");
    output.stdout
}

#[test]
fn depth_of_the_programs() {
    let figures = figures();
    let mut runs = 0;
    for mut table in largest_sites(Caller::Full) {
        table.number = 1;
        let input = [table.text(), bargaining(&table).concat()].concat();
        for _ in 0..5 {
            let plan = run_small("plan", figures["plan"], &table.text());
            assert!(plan == plan_output(Caller::Full, &table.text()));
            let script = run_small("script", figures["script"], &input);
            assert!(script == script::output(&input));
            runs += 2;
        }
    }
    assert_eq!((runs, figures.len()), (70, of_crates().len() + 2));
}
