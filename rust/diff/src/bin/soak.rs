//! A long seeded run of the library against the oracle: `soak SECONDS [SEED]`.

use diff::comparison::{brute, hard_round, round, Difference, Tally};
use diff::seconds_and_seed;
use samples::recorded::ASK_ROOM;
use samples::Chance;
use std::process::ExitCode;
use std::time::{Duration, Instant};

fn main() -> ExitCode {
    let Some((seconds, seed)) = seconds_and_seed() else {
        eprintln!("usage: soak SECONDS [SEED]");
        return ExitCode::from(2);
    };
    let mut tally = Tally::default();
    if let Err(difference) = run(Duration::from_secs(seconds), seed, &mut tally) {
        println!("seed {seed}, {difference}");
        return ExitCode::FAILURE;
    }
    println!("seed {seed}, {seconds} s, no difference: {}", figures(&tally));
    for (number, count) in &tally.answers {
        match number {
            0 => println!("  verdict      {count}"),
            _ => println!("  refused {number:<4} {count}"),
        }
    }
    ExitCode::SUCCESS
}

/// Rounds until the time is up, with a line each minute.
fn run(time: Duration, seed: u64, tally: &mut Tally) -> Result<(), Difference> {
    let start = Instant::now();
    let mut minutes = 0;
    for at in 0.. {
        let elapsed = start.elapsed();
        if elapsed >= time {
            break;
        }
        if elapsed.as_secs() / 60 > minutes {
            minutes = elapsed.as_secs() / 60;
            println!("{minutes} min: {}", figures(tally));
        }
        // a seed for each round: a difference can be seen again by itself
        let mut chance = Chance::new(seed.wrapping_mul(1_000_000_007).wrapping_add(at));
        let found = match at % 50 {
            0 => brute(&mut chance, tally),
            1..=5 => hard_round(&mut chance, ASK_ROOM, tally),
            _ => round(&mut chance, ASK_ROOM, tally),
        };
        found.map_err(|difference| format!("round {at}: {difference}"))?;
    }
    Ok(())
}

fn figures(tally: &Tally) -> String {
    let Tally { questions, too_long, nodes, rooms, sheets, .. } = tally;
    format!("{questions} questions, {rooms} rooms ({too_long} sheets longer than all), {sheets} sheets, {nodes} nodes")
}
