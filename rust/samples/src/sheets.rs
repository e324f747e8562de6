//! Sheets that pass though the writer would not write them, and ones with a cycle that is too long.

use crate::Chance;
use oracle::rules::edges::Edges;
use oracle::rules::facts::edge;
use oracle::rules::formula::Formula;
use oracle::rules::question::MOST_VERTICES;
use oracle::rules::sheet::{values_in, Worked};
use oracle::rules::trouble::trouble;
use oracle::{Question, Verdict};

/// A sheet with the same verdict as the writer's: other leaves and branches, cycles gone round several
/// times, or other rows.
pub fn other_sheet(chance: &mut Chance, question: &Question, asked: u8, worked: &Worked) -> Vec<u8> {
    other(chance, question, asked, worked, false)
}

/// Such a sheet in which a cycle, now and then, is gone round once more than its count may say.
pub fn overlong_sheet(chance: &mut Chance, question: &Question, asked: u8, worked: &Worked) -> Vec<u8> {
    other(chance, question, asked, worked, true)
}

fn other(chance: &mut Chance, question: &Question, asked: u8, worked: &Worked, overlong: bool) -> Vec<u8> {
    let formulas = trouble(question, asked);
    if worked.verdict == Verdict::No {
        let formula = &formulas[usize::from(worked.bytes[7])];
        return other_rows(chance, question, formula, &worked.bytes);
    }
    let mut bytes = worked.bytes[..7].to_vec();
    for formula in &formulas {
        let mut tree = Tree { chance, formula, overlong, decided: Vec::new(), bytes };
        tree.grow(&Edges::of_ranges(formula));
        bytes = tree.bytes;
    }
    bytes
}

/// Lowers values one by one as long as the formula is met.
fn other_rows(chance: &mut Chance, question: &Question, formula: &Formula, sheet: &[u8]) -> Vec<u8> {
    let count = question.columns.len();
    let mut values = values_in(sheet);
    for _ in 0..4 * values.len() {
        let at = chance.below(values.len());
        let column = question.columns[at % count];
        let inserted = formula.inserted.is_some() && question.changed_columns().contains(&(at % count));
        if inserted || values[at] == column.lo {
            continue;
        }
        let old = values.clone();
        let lower = if chance.once_in(2) { values[at] - 1 } else { chance.between(column.lo, column.hi) };
        values[at] = lower;
        if column.visible && formula.two {
            values[(at + count) % (2 * count)] = lower;
        }
        let value = |vertex: usize| {
            if vertex == 0 {
                0
            } else {
                i64::from(values[vertex - 1])
            }
        };
        if !formula.holds(value) {
            values = old;
        }
    }
    let bytes = values.iter().flat_map(|value| value.to_le_bytes());
    sheet[..8].iter().copied().chain(bytes).collect()
}

/// A tree in the making.
struct Tree<'a> {
    chance: &'a mut Chance,
    formula: &'a Formula,
    overlong: bool,
    decided: Vec<bool>,
    bytes: Vec<u8>,
}

impl Tree<'_> {
    /// A node with all below it: a leaf of either sort where one holds, now and then a branch instead.
    fn grow(&mut self, edges: &Edges) {
        let place = self.formula.places.get(self.decided.len());
        let further = place.is_some() && self.chance.once_in(12);
        let shut = self.formula.whole.known(&self.decided) == Some(false);
        if !further && shut && !self.chance.once_in(8) {
            return self.bytes.push(1);
        }
        if !further {
            if let Some(cycle) = edges.shortest_negative() {
                return self.walk(cycle);
            }
            if shut {
                return self.bytes.push(1);
            }
        }
        let place = *place.expect("a place left: every leaf of a yes is closed");
        self.bytes.push(3);
        for truth in [true, false] {
            let (from, to, weight) = edge(place, truth);
            let mut edges = edges.clone();
            edges.add(from, to, weight);
            self.decided.push(truth);
            self.grow(&edges);
            self.decided.pop();
        }
    }

    /// The cycle from any of its vertices on, once or several times round.
    fn walk(&mut self, mut cycle: Vec<usize>) {
        let start = self.chance.below(cycle.len());
        cycle.rotate_left(start);
        let most = MOST_VERTICES / cycle.len();
        let rounds = match self.chance.below(12) {
            0 => 1 + self.chance.below(most),
            1 => most + usize::from(self.overlong),
            _ => 1,
        };
        let vertices = cycle.repeat(rounds);
        self.bytes.extend([2, vertices.len() as u8]);
        self.bytes.extend(vertices.iter().map(|&vertex| vertex as u8));
    }
}
