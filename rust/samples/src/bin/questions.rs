//! Prints the twelve cases in both versions, the shortcuts and the published examples, one a line: name,
//! question in hexadecimal, the report's verdicts, the right ones. With the word `table`: the published
//! examples as the rows of a Markdown table. With the word `lines`: as lines that the program `published`
//! reads.

use oracle::encode;
use samples::examples::{published, shortcuts, twelve, twelve_of_version_2};
use samples::hex;

fn main() {
    let words: Vec<String> = std::env::args().skip(1).collect();
    let words: Vec<&str> = words.iter().map(String::as_str).collect();
    match words[..] {
        [] => all(),
        ["table"] => published().iter().for_each(|example| println!("{}", example.row())),
        ["lines"] => published().iter().for_each(|example| println!("{}", example.line())),
        _ => {
            eprintln!("usage: questions [table | lines]");
            std::process::exit(2)
        }
    }
}

fn all() {
    for example in [twelve(), twelve_of_version_2(), shortcuts(), published()].iter().flatten() {
        let bytes = hex(&encode(&example.question));
        println!("{}\t{bytes}\t{}\t{}", example.name, example.report, example.right);
    }
}
