//! Processor seconds as the kernel counts them, so that other work on the machine counts little.

use std::fs::read_to_string;

/// The processor seconds that a process or thread has used, by its folder in /proc.
pub fn used(folder: &str) -> f64 {
    let text = read_to_string(format!("{folder}/schedstat")).expect("Linux tells processor times");
    let nanoseconds = text.split_whitespace().next().and_then(|word| word.parse::<f64>().ok());
    nanoseconds.expect("a number") / 1e9
}

/// The seconds of one run, from as many as fill `enough` seconds of this thread.
pub fn each(enough: f64, mut run: impl FnMut()) -> f64 {
    let begun = used("/proc/thread-self");
    let mut runs = 0;
    while used("/proc/thread-self") < begun + enough {
        run();
        runs += 1;
    }
    (used("/proc/thread-self") - begun) / f64::from(runs)
}
