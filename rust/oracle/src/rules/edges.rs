//! Facts `a − b ≤ k` as edges from b to a with weight k, and the cycles below zero among them.

use super::formula::Formula;
use super::question::MOST_VERTICES;

/// The weight of an edge that isn't there.
const NONE: i64 = i64::MAX;

/// The least weight of each edge.
#[derive(Clone)]
pub struct Edges {
    weights: [[i64; MOST_VERTICES]; MOST_VERTICES],
}

impl Edges {
    /// The ranges of the formula's vertices: x − 0 ≤ hi and 0 − x ≤ −lo.
    pub fn of_ranges(formula: &Formula) -> Self {
        let weights = [[NONE; MOST_VERTICES]; MOST_VERTICES];
        let mut edges = Edges { weights };
        for vertex in &formula.vertices {
            edges.add(0, vertex.number, i64::from(vertex.hi));
            edges.add(vertex.number, 0, -i64::from(vertex.lo));
        }
        edges
    }

    /// The weight of an edge, if it is there.
    pub fn weight(&self, from: usize, to: usize) -> Option<i64> {
        let weight = self.weights[from][to];
        (weight != NONE).then_some(weight)
    }

    /// One more edge; of several, the least counts.
    pub fn add(&mut self, from: usize, to: usize, weight: i64) {
        let old = &mut self.weights[from][to];
        *old = weight.min(*old);
    }

    /// The sum along the vertices and back to the first, if every edge is there.
    pub fn round_trip(&self, vertices: &[usize]) -> Option<i64> {
        let ends = vertices.iter().cycle().skip(1);
        let weights = vertices.iter().zip(ends).map(|(&from, &to)| self.weight(from, to));
        weights.sum()
    }

    /// The negative cycle with the fewest edges, then the least vertex list.
    pub fn shortest_negative(&self) -> Option<Vec<usize>> {
        // walks[l][u][s]: the least weight of a walk of exactly l + 1 edges from u to s
        let mut walks = vec![self.weights];
        for count in 1..=MOST_VERTICES {
            let longest = walks[count - 1];
            if let Some(start) = (0..MOST_VERTICES).find(|&s| longest[s][s] < 0) {
                return Some(self.least_list(&walks, start));
            }
            walks.push(self.prolong(&longest));
        }
        None
    }

    /// The least weights of walks with one edge more, put in front.
    fn prolong(
        &self,
        walks: &[[i64; MOST_VERTICES]; MOST_VERTICES],
    ) -> [[i64; MOST_VERTICES]; MOST_VERTICES] {
        let mut longer = [[NONE; MOST_VERTICES]; MOST_VERTICES];
        for (from, best) in longer.iter_mut().enumerate() {
            for (via, rest) in walks.iter().enumerate() {
                let Some(weight) = self.weight(from, via) else {
                    continue;
                };
                for (least, &walk) in best.iter_mut().zip(rest) {
                    if walk != NONE {
                        *least = (weight + walk).min(*least);
                    }
                }
            }
        }
        longer
    }

    /// From `start`, always on to the least vertex from which the walk can still close below zero.
    fn least_list(&self, walks: &[[[i64; MOST_VERTICES]; MOST_VERTICES]], start: usize) -> Vec<usize> {
        let mut list = vec![start];
        let (mut at, mut sum) = (start, 0);
        for rest in walks[..walks.len() - 1].iter().rev() {
            let closes = |&to: &usize| match self.weight(at, to) {
                Some(weight) if rest[to][start] != NONE => sum + weight + rest[to][start] < 0,
                _ => false,
            };
            let to = (0..MOST_VERTICES).find(closes).expect("a walk of this length closes below zero");
            sum += self.weights[at][to];
            at = to;
            list.push(to);
        }
        list
    }
}
