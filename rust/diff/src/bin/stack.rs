//! Measures the stack that the library's routines use, the most of each on some loads: `stack`.
//!
//! The wrapper's own frames count too: a few hundred bytes.

use diff::{library, paint};
use oracle::encode;
use samples::deepest;
use samples::recorded::{asks, hard_asks, ASK_ROOM};

fn main() {
    if library::EMULATED {
        return library::warn_of_emulation();
    }
    let bytes = |asks: Vec<samples::recorded::Ask>| asks.into_iter().map(|ask| ask.question).collect();
    let loads: [(&str, Vec<Vec<u8>>); 4] = [
        ("the deepest tree of 8 columns, 120 decisions", vec![encode(&deepest(8))]),
        ("the deepest tree, 144 decisions", vec![encode(&deepest(12))]),
        ("recorded, all sorts", bytes(asks())),
        ("recorded, hard", bytes(hard_asks())),
    ];
    println!("Bytes of stack, the most of both verdicts; sheets in a room of {ASK_ROOM} bytes\n");
    println!("| load | questions | verdict | write | check |");
    println!("|---|---|---|---|---|");
    for (name, questions) in loads {
        let [verdict, write, check] = most(&questions);
        println!("| {name} | {} | {verdict} | {write} | {check} |", questions.len());
    }
}

/// The most that any of these takes, by routine.
fn most(questions: &[Vec<u8>]) -> [usize; 3] {
    let mut most = [0; 3];
    for (question, asked) in questions.iter().flat_map(|question| [(question, 1), (question, 2)]) {
        for (most, used) in most.iter_mut().zip(used(asked, question)) {
            *most = used.max(*most);
        }
    }
    most
}

/// Of one question; a sheet that has no room is checked as far as it is written.
fn used(asked: u8, question: &[u8]) -> [usize; 3] {
    let mut room = vec![0; ASK_ROOM];
    let mut written = Ok(0);
    let verdict = paint::used(|| _ = library::verdict(asked, question));
    let write =
        paint::used(|| written = library::write(asked, question, &mut room).map(|(_, length)| length));
    let sheet = &room[..written.unwrap_or(ASK_ROOM)];
    let check = paint::used(|| _ = library::check(asked, question, sheet));
    [verdict, write, check]
}
