//! Times the library against Rust: `cargo run --release --offline --example bench`.

use planner_tests::channel::full_script;
use planner_tests::depths;
use planner_tests::ends::{LINE, MOST_FRAMES};
use planner_tests::ffi::{self, ANSWER_BASE};
use planner_tests::fleet::{self, BYTES};
use planner_tests::maps::OwnMaps;
use planner_tests::methods;
use planner_tests::plain_ends::{self, timed, Timed};
use planner_tests::random::Random;
use planner_tests::reference::{fill_plan, fill_plan_and_work, Caller, Slices, Table, FULL};
use planner_tests::script;
use planner_tests::sites::{half_needed, hubs, largest_hubs, legal_of_size, Numbers};
use std::hint::black_box;
use std::time::Instant;

const RUNS: usize = 401;
const CALLS_A_RUN: u32 = 4;
const EVENT_RUNS: usize = 31;
const END_CALLS: u32 = 32;

#[derive(Clone, Copy)]
enum Method {
    Slse,
    Turns,
}

const METHODS: [(Method, &str); 2] = [(Method::Slse, "S-LSE"), (Method::Turns, "by turns")];

fn by_library(method: Method, given: Slices, plan: &mut [u8], work: &mut [u8]) -> u64 {
    match method {
        Method::Slse => ffi::plan_by_slse(Caller::Full, given, plan),
        Method::Turns => ffi::plan_by_turns(Caller::Full, given, plan, work),
    }
}

fn by_rust(method: Method, given: Slices, plan: &mut [u8], work: &mut [u8]) -> u64 {
    ffi::plan_answer(&match method {
        Method::Slse => fill_plan(Caller::Full, given, methods::slse, plan),
        Method::Turns => fill_plan_and_work(Caller::Full, given, methods::turns, plan, work),
    })
}

/// Microseconds a call in each run, or ratios, in rising order.
struct Sorted(Vec<f64>);

impl Sorted {
    fn of(numbers: impl Iterator<Item = f64>) -> Sorted {
        let mut sorted: Vec<f64> = numbers.collect();
        sorted.sort_by(f64::total_cmp);
        Sorted(sorted)
    }

    fn quarter(&self, quarter: usize) -> f64 {
        self.0[(self.0.len() - 1) * quarter / 4]
    }
}

struct Times {
    library: Sorted,
    rust: Sorted,
    ratio: Sorted,
}

impl Times {
    fn medians(&self) -> [f64; 2] {
        [self.library.quarter(2), self.rust.quarter(2)]
    }
}

/// `call` of 0 is the library's, of 1 Rust's. The two take turns in going first; a run's ratio is
/// that of its own two times.
fn measure(count: usize, calls: u32, mut call: impl FnMut(usize) -> u64) -> Times {
    assert_eq!(call(0), call(1), "the answers differ");
    let mut runs = vec![[0.0; 2]; count];
    for (run, times) in runs.iter_mut().enumerate() {
        for which in [run % 2, 1 - run % 2] {
            let start = Instant::now();
            for _ in 0..calls {
                black_box(call(which));
            }
            times[which] = start.elapsed().as_secs_f64() * 1e6 / calls as f64;
        }
    }
    Times {
        library: Sorted::of(runs.iter().map(|times| times[0])),
        rust: Sorted::of(runs.iter().map(|times| times[1])),
        ratio: Sorted::of(runs.iter().map(|times| times[0] / times[1])),
    }
}

fn measure_method(method: Method, table: &Table) -> Times {
    let numbers = Numbers::of(table);
    let links = table.links.len();
    // Written beforehand, so that no page is touched for the first time in a run.
    let (mut plan, mut work) = (vec![9; links], vec![9; 4 * links]);
    measure(RUNS, CALLS_A_RUN, |which| {
        let given = black_box(numbers.slices());
        [by_library, by_rust][which](method, given, &mut plan, &mut work)
    })
}

/// The script program's work: the table's text and 1,024 accepted lines.
fn measure_script(table: &Table, lines: &[u8]) -> Times {
    let input = [&table.text(), lines].concat();
    let mut out = vec![9; script::room_for(input.len())];
    measure(EVENT_RUNS, 1, |which| match which {
        0 => ffi::script_text(black_box(&input), &mut out),
        _ => ffi::write_answer(&script::text(black_box(&input), &mut out)),
    })
}

/// The same lines, each a call of its own with all checks.
fn measure_events(table: &Table, lines: &[u8]) -> Times {
    let numbers = Numbers::of(table);
    let mut record = vec![9; BYTES * table.links.len()];
    let room = script::LOG;
    measure(EVENT_RUNS, 1, |which| {
        let given = black_box(numbers.slices());
        record.fill(0);
        let lines = lines.split_inclusive(|&byte| byte == b'\n').enumerate();
        let answers = lines.map(|(used, line)| match which {
            0 => ffi::fleet_event(given, &mut record, line, used, room),
            _ => ffi::entry_answer(&fleet::event(given, &mut record, line, used, room)),
        });
        answers.fold(0, |sum, answer| sum ^ answer)
    })
}

/// The median of the ratios, and their quartiles.
fn spread(ratio: &Sorted) -> String {
    let [low, median, high] = [1, 2, 3].map(|quarter| ratio.quarter(quarter));
    format!("{median:>5.2}  ({low:.2} to {high:.2})")
}

/// Sites of 256 probes, the last with these hubs.
fn sites(hubs: Table, random: &mut Random) -> [(&'static str, Table); 3] {
    let any = legal_of_size(256, 2048, random);
    [
        ("random costs", half_needed(any.clone(), 65_536, random)),
        ("equal costs", half_needed(any, 1, random)),
        ("8 hubs", half_needed(hubs, 65_536, random)),
    ]
}

fn print_ratios(random: &mut Random) {
    println!("site          links  method    library us   rust us  ratio  (quartiles)");
    for (site, table) in &sites(hubs(256, 8), random) {
        for (method, name) in METHODS {
            let times = measure_method(method, table);
            let [library, rust] = times.medians();
            println!(
                "{site:<12}  {:>5}  {name:<8}  {library:>10.1}  {rust:>8.1}  {}",
                table.links.len(),
                spread(&times.ratio),
            );
        }
    }
}

fn print_events(random: &mut Random) {
    println!("site          links  events    library us   rust us  ratio");
    for (site, table) in &sites(largest_hubs(FULL), random) {
        let lines = full_script(table, random);
        let times = [
            ("script", measure_script(table, &lines)),
            ("calls", measure_events(table, &lines)),
        ];
        for (name, times) in times {
            let [library, rust] = [&times.library, &times.rust].map(|times| times.quarter(0));
            println!(
                "{site:<12}  {:>5}  {name:<8}  {library:>10.1}  {rust:>8.1}  {:>5.2}",
                table.links.len(),
                library / rust,
            );
        }
    }
}

fn print_growth(random: &mut Random) {
    println!("links  method    library us  growth   rust us  growth  ratio  (quartiles)");
    for (method, name) in METHODS {
        let mut last = None;
        for links in [128, 256, 512, 1024, 2048] {
            let table = half_needed(legal_of_size(256, links, random), 65_536, random);
            let times = measure_method(method, &table);
            let [library, rust] = times.medians();
            let [of_library, of_rust] = last.replace([library, rust]).unwrap_or([library, rust]);
            println!(
                "{links:>5}  {name:<8}  {library:>10.1}  {:>6.2}  {rust:>8.1}  {:>6.2}  {}",
                library / of_library,
                rust / of_rust,
                spread(&times.ratio),
            );
        }
    }
}

/// What befalls an end.
#[derive(Clone, Copy)]
enum Event {
    Opening,
    Offer,
}

/// The yardstick is plain Rust on a record in bytes, without the table's checks. An opening by the byte
/// calls of the landing before took so many times this, without those checks, at random costs.
const OPENING_BY_BYTES: f64 = 1.68;
/// An opening by the byte calls of the landing before took so many times this at hubs.
const OPENING_BY_BYTES_AT_HUBS: f64 = 1.52;
/// A heard offer by the byte calls of the landing before took so many times this at random costs.
const OFFER_BY_BYTES: f64 = 1.49;
/// A heard offer by the byte calls of the landing before took so many times this at hubs.
const OFFER_BY_BYTES_AT_HUBS: f64 = 1.99;

/// The events, each with these figures for the sites of `timed`.
const EVENTS: [(Event, &str, [f64; 2]); 2] = [
    (
        Event::Opening,
        "opening",
        [OPENING_BY_BYTES, OPENING_BY_BYTES_AT_HUBS],
    ),
    (
        Event::Offer,
        "offer",
        [OFFER_BY_BYTES, OFFER_BY_BYTES_AT_HUBS],
    ),
];

/// An end's call by the library, by plain Rust on the same maps, the table's checks alone, and the
/// yardstick on the bytes: microseconds of each in each run.
fn measure_end(end: &Timed, event: Event) -> Vec<[f64; 4]> {
    let (mut maps, mut record) = (OwnMaps::turned(&end.record), end.record.clone());
    let mut call = |which: usize| {
        let (given, probe) = (black_box(end.numbers.slices()), end.probe);
        let (line, lent) = (black_box(&end.line[..]), maps.lend());
        let answer = match (which, event) {
            (0, Event::Opening) => ffi::probe_open(given, probe, lent, 1),
            (0, Event::Offer) => ffi::probe_hear(given, probe, lent, line, 1),
            (1, Event::Opening) => ffi::entry_answer(&plain_ends::open(given, probe, lent, 1)),
            (1, Event::Offer) => ffi::entry_answer(&plain_ends::hear(given, probe, lent, line, 1)),
            (2, _) => return ffi::check(Caller::Full, given).into(),
            (_, Event::Opening) => {
                ffi::entry_answer(&plain_ends::open_bytes(given, probe, &mut record, 1))
            }
            (_, Event::Offer) => {
                ffi::entry_answer(&plain_ends::hear_bytes(given, probe, &mut record, line, 1))
            }
        };
        // The call's one change is taken back.
        let link = usize::from((answer >> 16) as u16);
        let (word, bit) = (link / 64, 1 << (link % 64));
        match event {
            Event::Opening => {
                maps.standing[word] &= !bit;
                record[2 * link] = 0;
            }
            Event::Offer => {
                maps.held[word] &= !bit;
                record[2 * link + 1] = 0;
            }
        }
        answer
    };
    let answers = [0, 1, 3].map(&mut call);
    assert_eq!(answers, [answers[0]; 3], "the answers differ");
    assert_eq!(call(2), 0);
    let mut runs = vec![[0.0; 4]; RUNS];
    for (run, times) in runs.iter_mut().enumerate() {
        for which in (0..4).map(|place| (run + place) % 4) {
            let start = Instant::now();
            for _ in 0..END_CALLS {
                black_box(call(which));
            }
            times[which] = start.elapsed().as_secs_f64() * 1e6 / END_CALLS as f64;
        }
    }
    runs
}

fn print_ends() {
    println!(
        "site          links  call      library us   rust us  ratio   own us  bytes us  ratio"
    );
    for (site, end) in timed().iter().enumerate() {
        for (event, name, byte_calls) in EVENTS {
            let runs = measure_end(end, event);
            let median = |of: &dyn Fn(&[f64; 4]) -> f64| Sorted::of(runs.iter().map(of)).quarter(2);
            let own = |times: &[f64; 4]| times[0] - times[2];
            let bytes = |times: &[f64; 4]| times[3] * byte_calls[site];
            println!(
                "{:<12}  {:>5}  {name:<8}  {:>10.2}  {:>8.2}  {:>5.2}  {:>7.2}  {:>8.2}  {:>5.2}",
                end.site,
                end.numbers.links,
                median(&|times| times[0]),
                median(&|times| times[1]),
                median(&|times| times[0] / times[1]),
                median(&own),
                median(&bytes),
                median(&|times| own(times) / bytes(times)),
            );
        }
    }
}

/// The aims of a bag: against plain Rust, and against its frames by single calls.
const AIM_TO_RUST: f64 = 1.2;
const AIM_TO_SINGLES: f64 = 0.5;

/// A timed end that hears its bag.
struct Hearing<'a> {
    end: &'a Timed,
    start: OwnMaps,
    maps: OwnMaps,
    log: [u64; MOST_FRAMES],
}

impl Hearing<'_> {
    fn of(end: &Timed) -> Hearing<'_> {
        let start = OwnMaps::turned(&end.record);
        Hearing {
            end,
            maps: start.clone(),
            start,
            log: [0; MOST_FRAMES],
        }
    }

    /// By the library (0), by plain Rust on the same maps (1), or frame by frame by single calls of the
    /// library; each from the same record.
    fn hear(&mut self, which: usize) {
        let start = self.start.slices().array();
        for (map, start) in self.maps.lend().array().into_iter().zip(start) {
            map.copy_from_slice(start);
        }
        let (given, probe) = (black_box(self.end.numbers.slices()), self.end.probe);
        let (bag, log) = (black_box(&self.end.bag[..]), &mut self.log);
        let (maps, frames) = (&mut self.maps, bag.chunks_exact(LINE).enumerate());
        let answer = match which {
            0 => ffi::probe_hear_bag(given, probe, maps.lend(), bag, log, 0),
            1 => ffi::write_answer(&plain_ends::hear_bag(
                given,
                probe,
                maps.lend(),
                bag,
                log,
                0,
            )),
            _ => frames.fold(0, |_, (used, frame)| {
                ffi::probe_hear_logged(given, probe, maps.lend(), frame, log, used)
            }),
        };
        assert!(answer >= ANSWER_BASE);
    }
}

/// Microseconds of each of the three in each run.
fn measure_bag(end: &Timed) -> Vec<[f64; 3]> {
    let mut hearing = Hearing::of(end);
    let left = [0, 1, 2].map(|which| {
        hearing.log.fill(0);
        hearing.hear(which);
        (hearing.maps.clone(), hearing.log)
    });
    assert_eq!(left[1], left[0], "Rust differs");
    assert_eq!(left[2], left[0], "single calls differ");
    let mut runs = vec![[0.0; 3]; RUNS];
    for (run, times) in runs.iter_mut().enumerate() {
        for which in (0..3).map(|place| (run + place) % 3) {
            let start = Instant::now();
            for _ in 0..CALLS_A_RUN {
                hearing.hear(which);
            }
            times[which] = start.elapsed().as_secs_f64() * 1e6 / f64::from(CALLS_A_RUN);
        }
    }
    runs
}

fn print_bags() {
    println!(
        "site          links  frames    library us   rust us  ratio  aim  singles us  ratio  aim"
    );
    for end in &timed() {
        let runs = measure_bag(end);
        let median = |of: &dyn Fn(&[f64; 3]) -> f64| Sorted::of(runs.iter().map(of)).quarter(2);
        println!(
            "{:<12}  {:>5}  {MOST_FRAMES:>6}    {:>10.2}  {:>8.2}  {:>5.2}  {AIM_TO_RUST:.1}  {:>10.2}  {:>5.2}  {AIM_TO_SINGLES:.1}",
            end.site,
            end.numbers.links,
            median(&|times| times[0]),
            median(&|times| times[1]),
            median(&|times| times[0] / times[1]),
            median(&|times| times[2]),
            median(&|times| times[0] / times[2]),
        );
    }
}

fn print_depths() {
    println!("call                          bytes");
    for (name, depth) in depths::of_planning() {
        println!("{name:<28}  {depth:>5}");
    }
}

fn main() {
    let mut random = Random::new(34);
    println!("256 probes, each needing half of its links; medians of {RUNS} runs.");
    println!("Library against Rust:");
    print_ratios(&mut random);
    println!("Growth with the links, at random costs:");
    print_growth(&mut random);
    println!("1,024 events on the largest site, as one script and as calls with all checks;");
    println!("least of {EVENT_RUNS} runs:");
    print_events(&mut random);
    println!(
        "An end's calls on 2,048 links, maps with all checks; then without the table's checks,"
    );
    println!("against the byte calls of the landing before; medians of {RUNS} runs:");
    print_ends();
    println!("A bag of {MOST_FRAMES} frames heard by such an end, against plain Rust on the same maps and against");
    println!("single calls of the same frames; medians of {RUNS} runs:");
    print_bags();
    println!("Deepest stack of each planning call, the display's on its own largest sites:");
    print_depths();
}
