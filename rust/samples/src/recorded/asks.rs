//! What the program `ask` was recorded to print, with the sheets that it spoke of.

use super::file::{File, ASKS, HARD};
use super::routines::{bytes, word};
use super::Recorded;

/// The room that the program `ask` has for a sheet.
pub const ASK_ROOM: usize = 32_768;

/// A question and what was answered to it.
pub struct Ask {
    /// The question's bytes.
    pub question: Vec<u8>,
    /// What the program prints.
    pub printed: String,
    /// The sheets for asked 1 and 2; nothing where there is none, or none that there is room for.
    pub sheets: [Option<Vec<u8>>; 2],
}

/// Questions of all sorts, refused ones among them.
pub fn asks() -> Vec<Ask> {
    read(&ASKS)
}

/// Questions that keep a search busy if it splits cases before it looks.
pub fn hard_asks() -> Vec<Ask> {
    read(&HARD)
}

fn read(file: &File) -> Vec<Ask> {
    let sheet = |text: &str| (text != "-").then(|| bytes(text));
    let ask = |[question, printed, one, other]: [&str; 4]| Ask {
        question: bytes(question),
        printed: printed.replace('|', "\n") + "\n",
        sheets: [sheet(one), sheet(other)],
    };
    file.lines().into_iter().map(ask).collect()
}

impl Ask {
    /// The calls that the line tells of.
    pub fn calls(&self) -> Vec<Recorded> {
        let lines: Vec<Vec<&str>> = self.printed.lines().map(|line| line.split(' ').collect()).collect();
        match &lines[..] {
            [refused] => [1, 2].into_iter().flat_map(|asked| self.refused(asked, refused)).collect(),
            both => (1..).zip(both).flat_map(|(asked, line)| self.answered(asked, line)).collect(),
        }
    }

    /// By `refused NUMBER PLACE`: every routine says so, and a room stays as it came.
    fn refused(&self, asked: usize, line: &[&str]) -> [Recorded; 3] {
        let question = word(&self.question);
        let answer = format!("{} 255 {}", line[1], line[2]);
        [
            Recorded::new(format!("verdict {asked} {question}"), answer.clone()),
            Recorded::new(format!("check {asked} {question} -"), answer.clone()),
            Recorded::new(format!("write {asked} {question} 3"), answer + " eeeeee"),
        ]
    }

    /// By `WHICH VERDICT LENGTH`, or `WHICH noroom`, which only a yes can be.
    fn answered(&self, asked: usize, line: &[&str]) -> Vec<Recorded> {
        let question = word(&self.question);
        let said = u8::from(line[1] == "no");
        let sheet = self.sheets[asked - 1].as_deref();
        let mut room = sheet.unwrap_or_default().to_vec();
        room.resize(ASK_ROOM, 0);
        let written = match line.get(2) {
            Some(length) => format!("0 {said} {length}"),
            None => "21 255 0".to_string(),
        };
        let mut calls = vec![
            Recorded::new(format!("verdict {asked} {question}"), format!("0 {said} 0")),
            Recorded::new(
                format!("write {asked} {question} {ASK_ROOM}"),
                format!("{written} {}", word(&room)),
            ),
        ];
        if let Some(sheet) = sheet.map(word) {
            calls.push(Recorded::new(format!("check {asked} {question} {sheet}"), format!("0 {said} 0")));
        }
        calls
    }
}
