//! The writer's rule: the tree of one formula, in preorder; and the way to its first open leaf.

use super::edges::Edges;
use super::facts::{edge, Solved};
use super::formula::Formula;
use super::search::Search;

/// Bytes put down one after another, as many as there is room for.
pub struct Page {
    /// The bytes.
    pub bytes: Vec<u8>,
    /// How many nodes they hold.
    pub nodes: u64,
    room: usize,
}

impl Page {
    /// An empty page.
    pub fn new(room: usize) -> Self {
        Page { bytes: Vec::new(), nodes: 0, room }
    }

    /// Some bytes more; if they don't all fit, those that do.
    pub fn put(&mut self, bytes: &[u8]) -> Result<(), Stop> {
        let fit = bytes.len().min(self.room - self.bytes.len());
        self.bytes.extend(&bytes[..fit]);
        if fit < bytes.len() {
            return Err(Stop::Full);
        }
        Ok(())
    }
}

/// Why a tree wasn't finished.
pub enum Stop {
    /// A leaf is open: these facts hold together and make the formula true.
    Open(Box<Solved>),
    /// There is no room for the next byte.
    Full,
}

/// Writes the tree of one formula.
pub fn grow(formula: &Formula, page: &mut Page) -> Result<(), Stop> {
    let facts = Ok(Solved::of_ranges(formula));
    let mut grower = Grower { formula, page, decided: Vec::new() };
    grower.node(facts)
}

struct Grower<'a> {
    formula: &'a Formula,
    page: &'a mut Page,
    decided: Vec<bool>,
}

impl Grower<'_> {
    /// The node for the places decided so far: 1 if false; else 2 if a cycle is below zero; else,
    /// if true, the formula is open; else 3.
    fn node(&mut self, facts: Result<Solved, Box<Edges>>) -> Result<(), Stop> {
        self.page.nodes += 1;
        let known = self.formula.whole.known(&self.decided);
        match (known, facts) {
            (Some(false), _) => self.page.put(&[1]),
            (_, Err(edges)) => self.cycle(&edges),
            (Some(true), Ok(facts)) => Err(Stop::Open(Box::new(facts))),
            (None, Ok(facts)) => self.branch(&facts),
        }
    }

    fn cycle(&mut self, edges: &Edges) -> Result<(), Stop> {
        let list = edges.shortest_negative().expect("there is a cycle below zero");
        self.page.put(&[2, list.len() as u8])?;
        list.iter().try_for_each(|&vertex| self.page.put(&[vertex as u8]))
    }

    /// The first undecided place taken as true, then as false.
    fn branch(&mut self, facts: &Solved) -> Result<(), Stop> {
        self.page.put(&[3])?;
        let place = self.formula.places[self.decided.len()];
        for truth in [true, false] {
            let (from, to, weight) = edge(place, truth);
            self.decided.push(truth);
            self.node(facts.with(from, to, weight))?;
            self.decided.pop();
        }
        Ok(())
    }
}

/// The facts at the first open leaf, if the formula is open.
///
/// There is an open leaf below a node exactly if some values fit the places decided there. So the way
/// goes down once, into the half taken as true wherever values fit it.
pub fn first_open_leaf(formula: &Formula) -> Option<Solved> {
    let mut search = Search::new(formula);
    let mut values = search.solve(&[])?;
    let mut decided = Vec::new();
    let mut facts = Solved::of_ranges(formula);
    while formula.whole.known(&decided) != Some(true) {
        let place = formula.places[decided.len()];
        decided.push(true);
        if !place.holds(|vertex| values[vertex]) {
            match search.solve(&decided) {
                Some(others) => values = others,
                None => _ = decided.splice(decided.len() - 1.., [false]),
            }
        }
        let (from, to, weight) = edge(place, decided.ends_with(&[true]));
        facts = facts.with(from, to, weight).unwrap_or_else(|_| panic!("there are values for these facts"));
    }
    Some(facts)
}
