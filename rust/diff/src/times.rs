//! Times the answers to one load, and holds them to what is right.
//!
//! Means are processor seconds as the kernel counts them, so that other work on the machine counts
//! little. That clock is too coarse for one answer: an answer's own time is the least of five by the
//! clock on the wall.

use crate::library;
use crate::load::{Asked, Load};
use oracle::{Refusal, Verdict};
use std::time::Instant;

/// How many seconds are measured at least; shorter runs are repeated.
const ENOUGH: f64 = 0.5;

/// The times of a load's answers, in seconds.
pub struct Times {
    /// How many answers.
    pub count: usize,
    /// The mean.
    pub mean: f64,
    /// No more than one in a hundred took longer.
    pub ninety_nine: f64,
    /// The slowest.
    pub slowest: f64,
}

/// Times these answers, each of which is given again and again.
fn times<'a>(all: &[&'a Asked], mut answer: impl FnMut(&'a Asked)) -> Option<Times> {
    let mut each: Vec<f64> = all.iter().map(|asked| least_of_five(|| answer(asked))).collect();
    each.sort_by(f64::total_cmp);
    let count = each.len();
    let slowest = *each.last()?;
    let ninety_nine = each[(count * 99).div_ceil(100) - 1];
    let mean = mean(ENOUGH, || all.iter().for_each(|asked| answer(asked))) / count as f64;
    Some(Times { count, mean, ninety_nine, slowest })
}

/// The seconds of one run, from as many as fill `enough` seconds: of this thread or, where the library
/// runs in an emulator and so in another process, by the clock on the wall.
pub fn mean(enough: f64, mut run: impl FnMut()) -> f64 {
    if !library::EMULATED {
        return clock::each(enough, run);
    }
    let (begun, mut runs) = (Instant::now(), 0);
    while begun.elapsed().as_secs_f64() < enough {
        run();
        runs += 1;
    }
    begun.elapsed().as_secs_f64() / f64::from(runs)
}

fn least_of_five(mut run: impl FnMut()) -> f64 {
    let mut time = || {
        let begun = Instant::now();
        run();
        begun.elapsed().as_secs_f64()
    };
    (0..5).map(|_| time()).fold(f64::INFINITY, f64::min)
}

/// The library's verdicts, or the oracle's.
pub fn verdicts(load: &Load, verdict: impl Fn(u8, &[u8]) -> Result<Verdict, Refusal>) -> Option<Times> {
    let all: Vec<&Asked> = load.questions.iter().collect();
    times(&all, |asked| assert_eq!(verdict(asked.asked, &asked.bytes), Ok(asked.worked.verdict)))
}

/// The library's sheets in a room of this length, with how many of them fit.
pub fn written(load: &Load, length: usize) -> Option<(Times, usize)> {
    let all: Vec<&Asked> = load.questions.iter().collect();
    let fits = |asked: &Asked| asked.worked.whole && asked.worked.bytes.len() <= length;
    let mut room = vec![0; length];
    let times = times(&all, |asked| {
        let right = match fits(asked) {
            true => Ok((asked.worked.verdict, asked.worked.bytes.len())),
            false => Err(Refusal { number: 21, place: 0 }),
        };
        assert_eq!(library::write(asked.asked, &asked.bytes, &mut room), right);
    })?;
    Some((times, all.into_iter().filter(|asked| fits(asked)).count()))
}

/// The library's checks of the sheets that `ask` has room for, with the nodes of them all.
pub fn checked(load: &Load) -> Option<(Times, u64)> {
    let all: Vec<&Asked> = load.questions.iter().filter(|asked| asked.worked.whole).collect();
    let nodes = all.iter().map(|asked| asked.worked.nodes).sum();
    let times = times(&all, |asked| {
        let Asked { bytes, worked, .. } = asked;
        assert_eq!(library::check(asked.asked, bytes, &worked.bytes), Ok(worked.verdict));
    })?;
    Some((times, nodes))
}
