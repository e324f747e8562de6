//! Facts with the reason for each, which can be taken back, and values that meet them all.

use super::facts::{highest, lowered, Values};
use super::formula::Formula;
use super::question::MOST_VERTICES;

/// An edge's weight, and why it is there; a range needs no reason.
type Edge<Reason> = (i64, Option<Reason>);

/// Facts that hold together.
pub struct Graph<Reason> {
    edges: [[Option<Edge<Reason>>; MOST_VERTICES]; MOST_VERTICES],
    values: Values,
    /// What stood where an edge was entered, oldest first.
    replaced: Vec<(usize, usize, Option<Edge<Reason>>)>,
}

impl<Reason: Copy> Graph<Reason> {
    /// The ranges of the formula's vertices.
    pub fn of_ranges(formula: &Formula) -> Self {
        let mut edges = [[None; MOST_VERTICES]; MOST_VERTICES];
        for vertex in &formula.vertices {
            edges[0][vertex.number] = Some((i64::from(vertex.hi), None));
            edges[vertex.number][0] = Some((-i64::from(vertex.lo), None));
        }
        Graph { edges, values: highest(formula), replaced: Vec::new() }
    }

    /// Values that meet every fact. Vertex 0 may have moved from zero: only differences count.
    pub fn values(&self) -> &Values {
        &self.values
    }

    /// Enters a fact, or tells the reasons that can't all hold.
    pub fn enter(&mut self, edge: (usize, usize, i64), reason: Reason) -> Result<(), Vec<Reason>> {
        let (from, to, weight) = edge;
        let old = self.edges[from][to];
        if old.is_some_and(|(least, _)| least <= weight) {
            return Ok(());
        }
        let weight_of = |from: usize, to: usize| self.edges[from][to].map(|(weight, _)| weight);
        match lowered(weight_of, &self.values, edge) {
            Ok(values) => self.values = values,
            Err(cycle) => return Err(self.reasons(&cycle, reason)),
        }
        self.replaced.push((from, to, old));
        self.edges[from][to] = Some((weight, Some(reason)));
        Ok(())
    }

    fn reasons(&self, cycle: &[(usize, usize)], new: Reason) -> Vec<Reason> {
        let reason = |&(from, to): &(usize, usize)| self.edges[from][to].and_then(|(_, reason)| reason);
        cycle.iter().filter_map(reason).chain([new]).collect()
    }

    /// How many facts were entered; `take_back` goes to such a number.
    pub fn entered(&self) -> usize {
        self.replaced.len()
    }

    /// Takes back what was entered since. The values stay: they meet the fewer facts too.
    pub fn take_back(&mut self, entered: usize) {
        while self.replaced.len() > entered {
            if let Some((from, to, old)) = self.replaced.pop() {
                self.edges[from][to] = old;
            }
        }
    }
}
