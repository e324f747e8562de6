//! Measures the library beside the oracle and z3, on the same questions in one run: `bench [WORD]`,
//! with a word only the loads that have it in their names.
//!
//! Every time is of one core, in microseconds an answer. The library and the oracle read the question's
//! bytes; z3 reads the same formulas as SMT-LIB, those up to the first open one, in one process whose
//! start-up is taken off.

use diff::load::{loads, Load};
use diff::times::{checked, verdicts, written, Times};
use diff::{library, z3};
use samples::recorded::ASK_ROOM;

fn main() {
    let word = std::env::args().nth(1).unwrap_or_default();
    let loads = loads(&word);
    library::warn_of_emulation();
    println!("Verdicts, µs\n");
    println!("| load | verdicts | mean | 99 of 100 | slowest | oracle, mean | z3, mean | z3 : library |");
    println!("|---|---|---|---|---|---|---|---|");
    loads.iter().filter_map(verdict_row).for_each(|row| println!("{row}"));
    for room in [ASK_ROOM, 1_024] {
        println!("\nSheets in a room of {room} bytes, µs\n");
        println!("| load | questions | sheets that fit | mean | 99 of 100 | slowest | nodes written/s |");
        println!("|---|---|---|---|---|---|---|");
        loads.iter().filter_map(|load| sheet_row(load, room)).for_each(|row| println!("{row}"));
    }
    println!("\nChecks, µs\n");
    println!("| load | sheets | nodes | mean | 99 of 100 | slowest | nodes checked/s |");
    println!("|---|---|---|---|---|---|---|");
    loads.iter().filter_map(check_row).for_each(|row| println!("{row}"));
}

fn verdict_row(load: &Load) -> Option<String> {
    let times = verdicts(load, library::verdict)?;
    let oracle = micro(verdicts(load, oracle::verdict)?.mean);
    let (z3, ratio) = match z3::mean(load) {
        Some(mean) => (micro(mean), format!("{:.1}", mean / times.mean)),
        None => ("-".to_string(), "-".to_string()),
    };
    Some(format!("| {} | {} | {} | {oracle} | {z3} | {ratio} |", load.name, times.count, three(&times)))
}

fn sheet_row(load: &Load, room: usize) -> Option<String> {
    let (times, fit) = written(load, room)?;
    // the nodes are known for the room that the sheets were worked out in
    let nodes: u64 = load.questions.iter().map(|asked| asked.worked.nodes).sum();
    let rate = match room {
        ASK_ROOM => format!("{:.0}", nodes as f64 / (times.mean * times.count as f64)),
        _ => "-".to_string(),
    };
    Some(format!("| {} | {} | {fit} | {} | {rate} |", load.name, times.count, three(&times)))
}

fn check_row(load: &Load) -> Option<String> {
    let (times, nodes) = checked(load)?;
    let rate = nodes as f64 / (times.mean * times.count as f64);
    Some(format!("| {} | {} | {nodes} | {} | {rate:.0} |", load.name, times.count, three(&times)))
}

fn three(times: &Times) -> String {
    [times.mean, times.ninety_nine, times.slowest].map(micro).join(" | ")
}

fn micro(seconds: f64) -> String {
    let micro = seconds * 1e6;
    format!("{micro:.*}", usize::from(micro < 100.0))
}
