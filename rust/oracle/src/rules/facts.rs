//! Facts that hold together, and values that meet them all.

use super::edges::Edges;
use super::formula::{Formula, Place};
use super::question::MOST_VERTICES;

/// A value for each vertex.
pub type Values = [i64; MOST_VERTICES];

/// The edge that a place stands for when it is decided: from, to, weight.
pub fn edge(place: Place, truth: bool) -> (usize, usize, i64) {
    if truth {
        (place.b, place.a, place.k)
    } else {
        (place.a, place.b, -place.k - 1)
    }
}

/// The greatest values that the ranges alone allow.
pub fn highest(formula: &Formula) -> Values {
    let mut values = [0; MOST_VERTICES];
    for vertex in &formula.vertices {
        values[vertex.number] = i64::from(vertex.hi);
    }
    values
}

/// A cycle below zero: its edges as pairs of vertices, the new edge left out.
pub type Cycle = Vec<(usize, usize)>;

/// The values lowered as little as a new edge asks for, given values that meet all other edges.
///
/// The vertex that must fall the furthest is settled first: no way through others lowers it more,
/// because along every other edge the values were in order. If the new edge's own start would have to
/// fall, the edge closes a cycle below zero.
pub fn lowered(
    weight: impl Fn(usize, usize) -> Option<i64>,
    old: &Values,
    (from, to, new): (usize, usize, i64),
) -> Result<Values, Cycle> {
    let mut values = *old;
    let mut fall = [0; MOST_VERTICES];
    let mut before = [from; MOST_VERTICES];
    let mut settled = [false; MOST_VERTICES];
    fall[to] = (old[from] + new - old[to]).min(0);
    if from == to && new < 0 {
        return Err(Vec::new());
    }
    while let Some(at) = (0..MOST_VERTICES).filter(|&v| fall[v] < 0).min_by_key(|&v| fall[v]) {
        values[at] += fall[at];
        fall[at] = 0;
        settled[at] = true;
        for next in (0..MOST_VERTICES).filter(|&v| !settled[v]) {
            let Some(weight) = weight(at, next) else { continue };
            let gap = values[at] + weight - old[next];
            if gap < fall[next] {
                fall[next] = gap;
                before[next] = at;
            }
        }
        if fall[from] < 0 {
            return Err(way(&before, to, from));
        }
    }
    Ok(values)
}

/// The edges of the way to `at` from `start`, from the last to the first.
fn way(before: &[usize; MOST_VERTICES], start: usize, mut at: usize) -> Cycle {
    let mut edges = Vec::new();
    while at != start {
        edges.push((before[at], at));
        at = before[at];
    }
    edges
}

/// Edges with no negative cycle, and each vertex's greatest value (vertex 0 being zero).
#[derive(Clone)]
pub struct Solved {
    edges: Edges,
    greatest: Values,
}

impl Solved {
    /// The ranges of the formula's vertices alone.
    pub fn of_ranges(formula: &Formula) -> Self {
        Solved { edges: Edges::of_ranges(formula), greatest: highest(formula) }
    }

    /// The greatest value of each vertex; together they meet every fact.
    pub fn greatest(&self, vertex: usize) -> i64 {
        self.greatest[vertex]
    }

    /// One more fact, or the edges if it closes a negative cycle.
    ///
    /// Every value is the least weight of a walk from vertex 0; the new edge can only lower values, by
    /// walks that pass it, and `lowered` lowers them no further than the least of these.
    pub fn with(&self, from: usize, to: usize, weight: i64) -> Result<Solved, Box<Edges>> {
        let mut edges = self.edges.clone();
        edges.add(from, to, weight);
        let lower = lowered(|from, to| self.edges.weight(from, to), &self.greatest, (from, to, weight));
        match lower {
            Ok(greatest) => Ok(Solved { edges, greatest }),
            Err(_) => Err(Box::new(edges)),
        }
    }
}
