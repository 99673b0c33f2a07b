//! Compares both programs' functions on random inputs for so many seconds: `tests/fuzz`.

use planner_tests::fuzz::{self, Tally};
use planner_tests::random::Random;
use std::env;
use std::process::exit;
use std::thread;
use std::time::{Duration, Instant, SystemTime};

/// One more input of a program.
type More = fn(&mut Random, &mut Tally);

fn number(text: String) -> u64 {
    text.parse().expect("a number")
}

fn main() {
    let mut numbers = env::args().skip(1).map(number);
    let seconds = numbers.next().expect("how many seconds");
    let seed = numbers.next().unwrap_or_else(|| {
        let since = SystemTime::UNIX_EPOCH.elapsed().expect("a clock");
        since.as_nanos() as u64
    });
    println!("seed {seed}");
    let end = Instant::now() + Duration::from_secs(seconds);
    let programs: [(&str, More); 2] = [("plan", fuzz::plan), ("script", fuzz::script)];
    let threads = programs.map(|(name, more)| {
        let run = move || {
            let (mut random, mut tally) = (Random::new(seed), Tally::default());
            while Instant::now() < end {
                more(&mut random, &mut tally);
            }
            tally
        };
        (name, thread::spawn(run))
    });
    let mut failed = false;
    for (name, thread) in threads {
        match thread.join() {
            Ok(tally) => print!("{name}: {tally}"),
            Err(_) => {
                println!("{name}: a difference; the same seed leads to it again");
                failed = true;
            }
        }
    }
    exit(failed.into());
}
