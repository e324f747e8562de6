//! Looks for the slowest answers of the library: `slow SECONDS [SEED]`.
//!
//! The run ends a little after that time whatever the library does: an answer that hasn't come by then
//! is told as such.

use diff::hunt::{held, search, Hunt, Routine, ROUTINES};
use diff::library;
use diff::{seconds_and_seed, STACK};
use oracle::encode;
use samples::hex;
use samples::recorded::ASK_ROOM;
use std::process::ExitCode;
use std::sync::{Arc, Mutex};
use std::time::{Duration, Instant};

fn main() -> ExitCode {
    let Some((seconds, seed)) = seconds_and_seed() else {
        eprintln!("usage: slow SECONDS [SEED]");
        return ExitCode::from(2);
    };
    let until = Instant::now() + Duration::from_secs(seconds);
    let hunts = Arc::new(Mutex::new(ROUTINES.map(Hunt::new).into_iter().collect()));
    let theirs = Arc::clone(&hunts);
    let searching = std::thread::Builder::new().stack_size(STACK);
    let searching = searching.spawn(move || search(&theirs, seed, until)).expect("a thread");
    // an answer in hand gets a second more
    while !searching.is_finished() && Instant::now() < until + Duration::from_secs(1) {
        std::thread::sleep(Duration::from_millis(20));
    }
    library::warn_of_emulation();
    println!("seed {seed}, {seconds} s");
    held(&hunts).iter().for_each(tell);
    match searching.is_finished() {
        true => searching.join().map_or(ExitCode::FAILURE, |()| ExitCode::SUCCESS),
        // the answer is still being worked out: the thread ends with the process
        false => ExitCode::SUCCESS,
    }
}

fn tell(hunt: &Hunt) {
    let name = match hunt.routine {
        Routine::Verdict(asked) => format!("verdict, asked {asked}"),
        Routine::Write => format!("write in {ASK_ROOM} bytes"),
        Routine::Check => "check".to_string(),
    };
    println!("{name}: {} questions tried", hunt.tried);
    if let Some(slow) = hunt.kept.first() {
        let micro = slow.time.as_secs_f64() * 1e6;
        println!("  slowest {micro:.0} µs, asked {}: {}", slow.asked, hex(&encode(&slow.question)));
    }
    if let Some((question, asked, since)) = &hunt.running {
        let seconds = since.elapsed().as_secs_f64();
        println!("  unfinished after {seconds:.1} s, asked {asked}: {}", hex(&encode(question)));
    }
}
