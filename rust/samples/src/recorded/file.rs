//! The files of recorded lines.

/// A file: what it is called, how many lines it has, and what stands in it, fields apart by tabs.
pub struct File {
    name: &'static str,
    count: usize,
    text: &'static str,
}

/// A file in the folder `vectors`.
macro_rules! vectors {
    ($name:literal, $count:literal) => {
        File { name: $name, count: $count, text: include_str!(concat!("../../../vectors/", $name)) }
    };
}

/// Files of calls: call, answer.
pub(super) const CALLS: [File; 3] =
    [vectors!("calls.tsv", 15), vectors!("request-04.tsv", 300), vectors!("request-13.tsv", 300)];

/// Questions of all sorts, refused ones among them: question, what `ask` prints, both sheets.
pub(super) const ASKS: File = vectors!("ask.tsv", 400);

/// The same for questions that keep a search busy if it splits cases before it looks.
pub(super) const HARD: File = vectors!("hard.tsv", 160);

/// Published examples: name, question, and for each asked the verdict, length, open formula and rows.
pub const PUBLISHED: File = vectors!("published.tsv", 48);

impl File {
    /// Its lines, with so many fields each; a line lost or broken stops the run.
    pub fn lines<const FIELDS: usize>(&self) -> Vec<[&'static str; FIELDS]> {
        let lines: Vec<_> = self.text.lines().map(|line| line.split('\t').collect::<Vec<&str>>()).collect();
        assert_eq!(lines.len(), self.count, "lines in {}", self.name);
        let fields = |line: Vec<&'static str>| line.try_into().expect(self.name);
        lines.into_iter().map(fields).collect()
    }
}
