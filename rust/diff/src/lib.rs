//! Holds the proved library, through its C interface, against the oracle.

pub mod comparison;
pub mod hunt;
pub mod library;
pub mod load;
pub mod machine;
pub mod paint;
pub mod smt;
pub mod times;
pub mod z3;

/// The stack that the header promises to be plenty.
pub const STACK: usize = 8 << 20;

/// How many of so many rounds a test makes: an emulator takes some ten times as long, so a tenth.
pub const fn rounds(count: u64) -> u64 {
    if library::EMULATED {
        count / 10
    } else {
        count
    }
}

/// The words of a command, `SECONDS [SEED]`; nothing if they are others.
pub fn seconds_and_seed() -> Option<(u64, u64)> {
    let numbers: Option<Vec<u64>> = std::env::args().skip(1).map(|word| word.parse().ok()).collect();
    match numbers?[..] {
        [seconds] => Some((seconds, 1)),
        [seconds, seed] => Some((seconds, seed)),
        _ => None,
    }
}

/// Runs on a thread with just that stack.
pub fn on_promised_stack<T: Send>(run: impl FnOnce() -> T + Send) -> T {
    std::thread::scope(|scope| {
        let thread = std::thread::Builder::new().stack_size(STACK);
        let running = thread.spawn_scoped(scope, run).expect("a thread");
        running.join().unwrap_or_else(|panic| std::panic::resume_unwind(panic))
    })
}
