//! A seeded search for the questions that take the library longest.
//!
//! It keeps the slowest found so far, and changes them further. Of the time it measures, the least of
//! a few runs counts: what else the machine does can only add to it.

use crate::library;
use oracle::rules::question::MOST_COLUMNS;
use oracle::rules::sheet::work;
use oracle::{encode, Question};
use samples::recorded::ASK_ROOM;
use samples::{changed, deepest, hard, question, Chance};
use std::sync::Mutex;
use std::time::{Duration, Instant};

/// How many of the slowest are kept for each routine.
const KEPT: usize = 12;

/// What is timed.
#[derive(Clone, Copy, Debug, PartialEq, Eq)]
pub enum Routine {
    /// The verdict for asked 1 or 2.
    Verdict(u8),
    /// A sheet in the room that `ask` has.
    Write,
    /// The check of such a sheet, or of as much of it as there is room for.
    Check,
}

/// All that is timed.
pub const ROUTINES: [Routine; 4] = [Routine::Verdict(1), Routine::Verdict(2), Routine::Write, Routine::Check];

/// A question as it was asked, and its time.
#[derive(Clone)]
pub struct Slow {
    /// The question.
    pub question: Question,
    /// What was asked.
    pub asked: u8,
    /// Its time.
    pub time: Duration,
}

/// One routine's search.
pub struct Hunt {
    /// The routine.
    pub routine: Routine,
    /// The slowest, slowest first.
    pub kept: Vec<Slow>,
    /// How many questions were tried.
    pub tried: u64,
    /// The question in hand, and since when.
    pub running: Option<(Question, u8, Instant)>,
    spent: Duration,
}

/// Searches until the time is up, the routines by turns so that each gets as much of it. Others may
/// look at the hunts meanwhile.
pub fn search(hunts: &Mutex<Vec<Hunt>>, seed: u64, until: Instant) {
    let mut chance = Chance::new(seed);
    while Instant::now() < until {
        let begun = Instant::now();
        let at = (0..ROUTINES.len()).min_by_key(|&at| held(hunts)[at].spent).unwrap_or(0);
        let routine = ROUTINES[at];
        let (question, asked) = next(&mut chance, &held(hunts)[at]);
        held(hunts)[at].running = Some((question.clone(), asked, Instant::now()));
        let least = held(hunts)[at].kept.get(KEPT - 1).map_or(Duration::ZERO, |slow| slow.time);
        let time = timed(routine, &question, asked, least);
        let hunt = &mut held(hunts)[at];
        hunt.running = None;
        hunt.tried += 1;
        hunt.keep(Slow { question, asked, time });
        hunt.spent += begun.elapsed();
    }
}

/// The hunts, for a moment.
pub fn held(hunts: &Mutex<Vec<Hunt>>) -> std::sync::MutexGuard<'_, Vec<Hunt>> {
    hunts.lock().unwrap_or_else(|poisoned| poisoned.into_inner())
}

impl Hunt {
    /// A search that hasn't begun.
    pub fn new(routine: Routine) -> Self {
        Hunt { routine, kept: Vec::new(), tried: 0, running: None, spent: Duration::ZERO }
    }

    /// Keeps a question if it is among the slowest; equal ones once.
    fn keep(&mut self, slow: Slow) {
        self.kept.retain(|kept| kept.question != slow.question || kept.asked != slow.asked);
        self.kept.push(slow);
        self.kept.sort_by_key(|slow| std::cmp::Reverse(slow.time));
        self.kept.truncate(KEPT);
    }
}

/// A new question, or more often one of the slowest with something changed.
fn next(chance: &mut Chance, hunt: &Hunt) -> (Question, u8) {
    let asked = match hunt.routine {
        Routine::Verdict(asked) => asked,
        _ => chance.among(&[1, 2]),
    };
    if hunt.kept.is_empty() || chance.once_in(4) {
        let new = match chance.below(8) {
            0 => deepest(MOST_COLUMNS),
            1 => question(chance),
            _ => hard(chance),
        };
        return (new, asked);
    }
    let slow = &hunt.kept[chance.below(hunt.kept.len())];
    (changed(chance, &slow.question), slow.asked)
}

/// The least of five runs; of one, if that is below what counts or long enough to be sure of.
fn timed(routine: Routine, question: &Question, asked: u8, counts: Duration) -> Duration {
    let bytes = encode(question);
    let sheet = match routine {
        Routine::Check => work(question, asked, ASK_ROOM).bytes,
        _ => Vec::new(),
    };
    let mut room = vec![0; ASK_ROOM];
    let mut run = || {
        let begun = Instant::now();
        match routine {
            Routine::Verdict(_) => _ = library::verdict(asked, &bytes),
            Routine::Write => _ = library::write(asked, &bytes, &mut room),
            Routine::Check => _ = library::check(asked, &bytes, &sheet),
        }
        begun.elapsed()
    };
    let mut least = run();
    for _ in 0..4 {
        if least > counts && least < Duration::from_millis(200) {
            least = least.min(run());
        }
    }
    least
}
