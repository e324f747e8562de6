//! The parts that trouble lists are made of: C, D, M and S over one row, another, or either after F.

use super::formula::{Formula, Part, Place, Vertex};
use super::question::*;

/// A vertex plus an offset.
#[derive(Clone, Copy)]
pub struct Term {
    vertex: usize,
    offset: i64,
}

/// How the columns are seen: as terms, one for each column.
pub type Sight = Vec<Term>;

/// A formula in the making: its question and the places so far.
pub struct Draft<'a> {
    question: &'a Question,
    places: Vec<Place>,
}

impl<'a> Draft<'a> {
    pub fn new(question: &'a Question) -> Self {
        let places = Vec::new();
        Draft { question, places }
    }

    /// The first row's columns.
    pub fn first(&self) -> Sight {
        let columns = 0..self.question.columns.len();
        columns.map(|i| Term { vertex: 1 + i, offset: 0 }).collect()
    }

    /// The second row's columns: the hidden ones have vertices of their own.
    pub fn second(&self) -> Sight {
        let count = self.question.columns.len();
        let mut sight = self.first();
        for (term, column) in sight.iter_mut().zip(&self.question.columns) {
            if !column.visible {
                term.vertex += count;
            }
        }
        sight
    }

    /// The columns after the modify F.
    pub fn after(&self, sight: &Sight) -> Sight {
        let mut new = sight.clone();
        for (column, mode) in self.modes() {
            if let Mode::Become(side) = mode {
                new[column] = side_term(sight, *side);
            }
        }
        new
    }

    /// The changed columns with their modes.
    fn modes(&self) -> impl Iterator<Item = (usize, &'a Mode)> + use<'a> {
        let modes = match &self.question.change {
            Change::Modify(_, modes) => modes.as_slice(),
            _ => &[],
        };
        self.question.changed_columns().zip(modes)
    }

    /// The columns that aren't kept.
    fn not_kept(&self) -> Vec<usize> {
        let moved = self.modes().filter(|(_, mode)| **mode != Mode::Keep);
        moved.map(|(column, _)| column).collect()
    }

    /// `left ≤ right` as the next place.
    fn at_most(&mut self, left: Term, right: Term) -> Part {
        self.place(left, right, 0)
    }

    /// `left − right ≤ slack` as the next place.
    fn place(&mut self, left: Term, right: Term, slack: i64) -> Part {
        self.places.push(Place { a: left.vertex, b: right.vertex, k: right.offset - left.offset + slack });
        Part::Place(self.places.len() - 1)
    }

    /// `left op right` as the next one or two places.
    fn compare(&mut self, op: Op, left: Term, right: Term) -> Part {
        match op {
            Op::Less => self.place(left, right, -1),
            Op::AtMost => self.at_most(left, right),
            Op::AtLeast => self.at_most(right, left),
            Op::More => self.place(right, left, -1),
            Op::Equal => Part::All(vec![self.at_most(left, right), self.at_most(right, left)]),
            Op::Unequal => not(self.compare(Op::Equal, left, right)),
        }
    }

    /// A condition under a sight.
    pub fn condition(&mut self, condition: &[Token], sight: &Sight) -> Part {
        let mut stack = Vec::new();
        for token in condition {
            let part = match token {
                Token::Compare(op, left, side) => self.compare(*op, sight[*left], side_term(sight, *side)),
                Token::Not => not(pop(&mut stack)),
                Token::And | Token::Or => {
                    let right = pop(&mut stack);
                    let both = vec![pop(&mut stack), right];
                    if *token == Token::And {
                        Part::All(both)
                    } else {
                        Part::Any(both)
                    }
                }
            };
            stack.push(part);
        }
        stack.pop().unwrap_or(Part::All(Vec::new()))
    }

    /// C under a sight.
    pub fn c(&mut self, sight: &Sight) -> Part {
        let question = self.question;
        self.condition(&question.condition, sight)
    }

    /// C after F under a sight.
    pub fn c_after(&mut self, sight: &Sight) -> Part {
        let after = self.after(sight);
        self.c(&after)
    }

    /// The modify's condition.
    pub fn selected(&mut self, sight: &Sight) -> Part {
        let condition = match &self.question.change {
            Change::Modify(condition, _) => condition.as_slice(),
            _ => &[],
        };
        self.condition(condition, sight)
    }

    /// New ≤ hi and new ≥ lo for each column not kept.
    fn range_tests(&mut self, sight: &Sight) -> Vec<Part> {
        let after = self.after(sight);
        let mut tests = Vec::new();
        for column in self.not_kept() {
            let Column { lo, hi, .. } = self.question.columns[column];
            tests.push(self.compare(Op::AtMost, after[column], constant(hi)));
            tests.push(self.compare(Op::AtLeast, after[column], constant(lo)));
        }
        tests
    }

    /// That every new value is in range.
    pub fn in_range(&mut self, sight: &Sight) -> Part {
        Part::All(self.range_tests(sight))
    }

    /// M: selected, then every new value in range.
    pub fn m(&mut self, sight: &Sight) -> Part {
        let mut parts = vec![self.selected(sight)];
        parts.extend(self.range_tests(sight));
        Part::All(parts)
    }

    /// That the row stays as it was: not M; where rows are retired, not selected.
    pub fn kept(&mut self, sight: &Sight) -> Part {
        not(if self.question.retires() { self.selected(sight) } else { self.m(sight) })
    }

    /// S: kept, or C after F; where rows are retired, kept, or all in range and C after F.
    pub fn s(&mut self, sight: &Sight) -> Part {
        let kept = self.kept(sight);
        let listed = if self.question.retires() {
            Part::All(vec![self.in_range(sight), self.c_after(sight)])
        } else {
            self.c_after(sight)
        };
        Part::Any(vec![kept, listed])
    }

    /// Some visible column not kept differs between two sights.
    pub fn differ(&mut self, left: &Sight, right: &Sight) -> Part {
        let mut parts = Vec::new();
        for column in self.not_kept() {
            if self.question.columns[column].visible {
                parts.push(self.compare(Op::Unequal, left[column], right[column]));
            }
        }
        Part::Any(parts)
    }

    /// The formula: all parts together, over one row or two.
    pub fn done(self, parts: Vec<Part>, two: bool) -> Formula {
        let count = self.question.columns.len();
        let vertex = |number, column: &Column| Vertex { number, lo: column.lo, hi: column.hi };
        let mut vertices = Vec::new();
        for (i, column) in self.question.columns.iter().enumerate() {
            vertices.push(vertex(1 + i, column));
            if two && !column.visible {
                vertices.push(vertex(1 + count + i, column));
            }
        }
        vertices.sort_by_key(|vertex| vertex.number);
        Formula { places: self.places, whole: Part::All(parts), vertices, two, inserted: None }
    }
}

pub fn not(part: Part) -> Part {
    Part::Not(Box::new(part))
}

fn pop(stack: &mut Vec<Part>) -> Part {
    stack.pop().expect("the reader passes no token that lacks an operand")
}

pub fn constant(value: i32) -> Term {
    let (vertex, offset) = (0, i64::from(value));
    Term { vertex, offset }
}

fn side_term(sight: &Sight, side: Side) -> Term {
    match side {
        Side::Constant(value) => constant(value),
        Side::Column(column, plus) => {
            Term { vertex: sight[column].vertex, offset: sight[column].offset + i64::from(plus) }
        }
    }
}
