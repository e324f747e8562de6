//! The library in a process of its own, under an emulator: it is for x86-64, and this machine isn't.
//! carrier/carrier.c is at the other end.

use super::{Left, UNSET};
use crate::machine::command;
use std::cell::RefCell;
use std::io::{Read, Write};
use std::path::Path;
use std::process::{Child, Stdio};

/// A word that a C function is called with.
enum Word<'a> {
    Number(u64),
    Bytes(&'a [u8]),
    Room(&'a mut [u8]),
}
use Word::{Bytes, Number, Room};

/// The functions, in the carrier's order.
enum Routine {
    Verdict,
    Write,
    Check,
}

pub fn verdict(asked: u8, question: &[u8]) -> Left {
    call(Routine::Verdict, [Number(asked.into()), Bytes(question), count(question)])
}

pub fn write(asked: u8, question: &[u8], room: &mut [u8]) -> Left {
    let length = count(room);
    call(Routine::Write, [Number(asked.into()), Bytes(question), count(question), Room(room), length])
}

pub fn check(asked: u8, question: &[u8], sheet: &[u8]) -> Left {
    let words = [Number(asked.into()), Bytes(question), count(question), Bytes(sheet), count(sheet)];
    call(Routine::Check, words)
}

fn count(bytes: &[u8]) -> Word<'static> {
    Number(bytes.len() as u64)
}

/// One call with these words, then those for the verdict byte and the place or length.
fn call<const COUNT: usize>(routine: Routine, words: [Word; COUNT]) -> Left {
    let (mut said, mut beside) = ([UNSET.0], UNSET.1.to_le_bytes());
    let results = [Room(&mut said), Room(&mut beside)];
    let number = carry(routine as u64, &mut words.into_iter().chain(results).collect::<Vec<Word>>());
    Left { number, said: said[0], beside: u64::from_le_bytes(beside) }
}

/// Sends the words there, and brings the rooms back.
fn carry(routine: u64, words: &mut [Word]) -> u8 {
    let sent = sent(routine, words);
    let mut number = [0];
    CARRIER.with_borrow_mut(|Carrier(carrier)| {
        carrier.stdin.as_mut().expect("a pipe").write_all(&sent).expect("the carrier reads");
        let output = carrier.stdout.as_mut().expect("a pipe");
        output.read_exact(&mut number).expect("the carrier answers");
        for word in words {
            if let Room(room) = word {
                output.read_exact(room).expect("the carrier gives the room back");
            }
        }
    });
    number[0]
}

/// A call as it goes through the pipe.
fn sent(routine: u64, words: &[Word]) -> Vec<u8> {
    let mut numbers = vec![routine, words.len() as u64];
    let mut data = Vec::new();
    for word in words {
        let (kind, bytes): (u64, &[u8]) = match word {
            Number(number) => {
                numbers.extend([0, *number]);
                continue;
            }
            Bytes(bytes) => (1, bytes),
            Room(room) => (2, room),
        };
        numbers.extend([kind, bytes.len() as u64]);
        data.extend(bytes);
    }
    numbers.into_iter().flat_map(u64::to_le_bytes).chain(data).collect()
}

thread_local! {
    /// A carrier for each thread.
    static CARRIER: RefCell<Carrier> = RefCell::new(Carrier::start());
}

struct Carrier(Child);

impl Carrier {
    fn start() -> Self {
        let mut carrier = command(Path::new(env!("SLUSHTROWEL_CARRIER")));
        carrier.stdin(Stdio::piped()).stdout(Stdio::piped());
        Carrier(carrier.spawn().expect("the emulator starts"))
    }
}

/// It ends when its input does.
impl Drop for Carrier {
    fn drop(&mut self) {
        drop(self.0.stdin.take());
        _ = self.0.wait();
    }
}
