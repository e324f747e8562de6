//! Questions from text, for examples: `H 0..30 v, I 0..30; K 0..9` names the columns of two tables
//! (`v` marks a visible one), `H>10 I=K+2 and` is a condition, `H:=H+5 I:=7` a setting of columns.
//!
//! The text is part of this project, so a mistake in it stops the program.

use oracle::rules::question::*;

/// A list definition whose columns have names.
#[derive(Clone)]
pub struct Sketch {
    names: Vec<String>,
    question: Question,
}

impl Sketch {
    /// The list over these tables with this condition.
    pub fn new(tables: &str, condition: &str) -> Self {
        let question = Question {
            version: 1,
            widths: Vec::new(),
            changed: 0,
            columns: Vec::new(),
            condition: Vec::new(),
            change: Change::Insert(Vec::new()),
        };
        let names = Vec::new();
        let mut sketch = Sketch { names, question };
        for table in tables.split(';') {
            let columns: Vec<&str> = table.split(',').collect();
            sketch.question.widths.push(columns.len());
            columns.iter().for_each(|column| sketch.column(column));
        }
        sketch.question.condition = sketch.condition(condition);
        sketch
    }

    /// The insert of these rows into a table.
    pub fn insert(&self, table: usize, rows: &[&[i32]]) -> Question {
        let rows = rows.iter().map(|row| row.to_vec()).collect();
        self.with(table, Change::Insert(rows))
    }

    /// The delete of a table's rows that meet the condition.
    pub fn delete(&self, table: usize, condition: &str) -> Question {
        self.with(table, Change::Delete(self.condition(condition)))
    }

    /// The modify of a table's rows that meet the condition; a column not set keeps its value.
    pub fn modify(&self, table: usize, condition: &str, settings: &str) -> Question {
        let own = self.question.columns_of(table);
        let mut modes = vec![Mode::Keep; own.len()];
        for setting in settings.split_whitespace() {
            let (name, new) = setting.split_once(":=").expect("a setting has a :=");
            modes[self.number(name) - own.start] = Mode::Become(self.side(new));
        }
        self.with(table, Change::Modify(self.condition(condition), modes))
    }

    fn with(&self, changed: usize, change: Change) -> Question {
        Question { changed, change, ..self.question.clone() }
    }

    fn column(&mut self, text: &str) {
        let words: Vec<&str> = text.split_whitespace().collect();
        let (lo, hi) = words[1].split_once("..").expect("a range has two dots");
        self.names.push(words[0].to_string());
        self.question.columns.push(Column {
            lo: number(lo),
            hi: number(hi),
            visible: words.get(2) == Some(&"v"),
        });
    }

    fn number(&self, name: &str) -> usize {
        let known = self.names.iter().position(|known| known == name);
        known.unwrap_or_else(|| panic!("no column is named {name}"))
    }

    fn condition(&self, text: &str) -> Condition {
        text.split_whitespace().map(|word| self.token(word)).collect()
    }

    fn token(&self, word: &str) -> Token {
        const SIGNS: [(&str, Op); 6] = [
            ("<=", Op::AtMost),
            (">=", Op::AtLeast),
            ("!=", Op::Unequal),
            ("<", Op::Less),
            (">", Op::More),
            ("=", Op::Equal),
        ];
        match word {
            "and" => return Token::And,
            "or" => return Token::Or,
            "not" => return Token::Not,
            _ => {}
        }
        let split = |(sign, op): &(&str, Op)| word.split_once(sign).map(|sides| (*op, sides));
        let (op, (left, right)) = SIGNS.iter().find_map(split).expect("a comparison has a sign");
        Token::Compare(op, self.number(left), self.side(right))
    }

    fn side(&self, text: &str) -> Side {
        if let Ok(constant) = text.parse() {
            return Side::Constant(constant);
        }
        match text.find(['+', '-']) {
            None => Side::Column(self.number(text), 0),
            Some(at) => Side::Column(self.number(&text[..at]), number(&text[at..])),
        }
    }
}

fn number(text: &str) -> i32 {
    text.parse().unwrap_or_else(|_| panic!("{text} is no number"))
}
