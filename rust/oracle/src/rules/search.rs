//! Whether a formula is open: clauses, facts and values, with a clause learned from each dead end.
//!
//! Facts are entered as variables are decided; values that meet the facts so far are always at hand.
//! If the formula holds there it is open. If not, some place is decided as it is at these values, so
//! that the facts stay in order, and what follows by the clauses is decided with it. Where a clause
//! fails, or facts close a cycle below zero, the decisions that brought it about become a clause.

use super::clauses::{Clause, Clauses, Literal};
use super::facts::{edge, Values};
use super::formula::Formula;
use super::graph::Graph;

/// A variable's truth, the level of decisions at which it was found, and the clause that gave it.
#[derive(Clone, Copy)]
struct Found {
    truth: bool,
    level: usize,
    reason: Option<usize>,
}

/// How far the trail and the facts had come when a level began.
struct Level {
    trail: usize,
    facts: usize,
}

/// What comes after all that follows was found.
enum Step {
    Open(Box<Values>),
    Shut,
    Decided,
}

/// A search that can be asked again and again about one formula; what it learns it keeps.
pub struct Search<'a> {
    formula: &'a Formula,
    clauses: Clauses,
    /// The clauses that watch a literal: each watches its first two, one of which isn't false.
    watched: Vec<Vec<usize>>,
    found: Vec<Option<Found>>,
    trail: Vec<Literal>,
    next: usize,
    levels: Vec<Level>,
    facts: Graph<Literal>,
    /// How much a variable had to do with dead ends, the last ones counting most.
    heat: Vec<f64>,
    warmth: f64,
    shut: bool,
}

impl<'a> Search<'a> {
    /// A search over a formula.
    pub fn new(formula: &'a Formula) -> Self {
        let mut clauses = Clauses::of(formula);
        let (variables, all) = (clauses.variables, std::mem::take(&mut clauses.all));
        let mut search = Search {
            formula,
            clauses,
            watched: vec![Vec::new(); 2 * variables],
            found: vec![None; variables],
            trail: Vec::new(),
            next: 0,
            levels: Vec::new(),
            facts: Graph::of_ranges(formula),
            heat: vec![0.0; variables],
            warmth: 1.0,
            shut: false,
        };
        all.into_iter().for_each(|clause| search.add(clause));
        search
    }

    /// Values that make the formula true, its first places being as given; nothing if there are none.
    pub fn solve(&mut self, decided: &[bool]) -> Option<Values> {
        let turned = |(literal, truth): (&Literal, &bool)| if *truth { *literal } else { literal.not() };
        let wanted: Vec<Literal> = self.clauses.places.iter().zip(decided).map(turned).collect();
        self.back_to(0);
        while !self.shut {
            match self.follow() {
                Err(_) if self.levels.is_empty() => self.shut = true,
                Err(clause) => self.learn(clause),
                Ok(()) => match self.step(&wanted) {
                    Step::Open(values) => return Some(*values),
                    Step::Shut => return None,
                    Step::Decided => {}
                },
            }
        }
        None
    }

    /// Decides the next wanted literal; then looks at the values; then decides a place as it is there.
    fn step(&mut self, wanted: &[Literal]) -> Step {
        if let Some(&literal) = wanted.get(self.levels.len()) {
            return match self.truth(literal) {
                Some(false) => Step::Shut,
                truth => self.decide(literal, truth.is_none()),
            };
        }
        let moved = self.facts.values();
        let values = moved.map(|value| value - moved[0]);
        if self.formula.holds(|vertex| values[vertex]) {
            return Step::Open(Box::new(values));
        }
        let free = (0..self.clauses.atoms.len()).filter(|&variable| self.found[variable].is_none());
        let warmest = free.max_by(|&one, &other| self.heat[one].total_cmp(&self.heat[other]));
        let variable = warmest.expect("with all places decided the formula holds or a clause fails");
        let truth = self.clauses.atoms[variable].holds(|vertex| values[vertex]);
        self.decide(Literal { variable, truth }, true)
    }

    fn decide(&mut self, literal: Literal, unknown: bool) -> Step {
        self.levels.push(Level { trail: self.trail.len(), facts: self.facts.entered() });
        if unknown {
            self.find(literal, None);
        }
        Step::Decided
    }

    fn truth(&self, literal: Literal) -> Option<bool> {
        self.found[literal.variable].map(|found| found.truth == literal.truth)
    }

    fn find(&mut self, literal: Literal, reason: Option<usize>) {
        let found = Found { truth: literal.truth, level: self.levels.len(), reason };
        self.found[literal.variable] = Some(found);
        self.trail.push(literal);
    }

    /// Adds a clause; one with a single literal is found at once, with no decision.
    fn add(&mut self, clause: Clause) {
        if let [literal] = clause[..] {
            match self.truth(literal) {
                Some(true) => {}
                Some(false) => self.shut = true,
                None => self.find(literal, None),
            }
            return;
        }
        for literal in &clause[..2] {
            self.watched[literal.index()].push(self.clauses.all.len());
        }
        self.clauses.all.push(clause);
    }

    /// Finds all that follows, or a clause that fails.
    fn follow(&mut self) -> Result<(), Clause> {
        while let Some(&literal) = self.trail.get(self.next) {
            self.next += 1;
            if let Some(place) = self.clauses.atoms.get(literal.variable) {
                let entered = self.facts.enter(edge(*place, literal.truth), literal);
                entered.map_err(|reasons| reasons.into_iter().map(Literal::not).collect::<Clause>())?;
            }
            self.visit(literal.not())?;
        }
        Ok(())
    }

    /// The clauses that watch a literal which is false now.
    fn visit(&mut self, fallen: Literal) -> Result<(), Clause> {
        let mut list = std::mem::take(&mut self.watched[fallen.index()]);
        let mut failed = None;
        list.retain(|&number| failed.is_some() || self.keeps(number, fallen, &mut failed));
        self.watched[fallen.index()] = list;
        match failed {
            Some(number) => Err(self.clauses.all[number].clone()),
            None => Ok(()),
        }
    }

    /// Whether the clause goes on watching a literal that is false now. It doesn't if it has another
    /// to watch; if it has none, the other watched literal must hold, and if that can't be it fails.
    fn keeps(&mut self, number: usize, fallen: Literal, failed: &mut Option<usize>) -> bool {
        let mut clause = std::mem::take(&mut self.clauses.all[number]);
        if clause[0] == fallen {
            clause.swap(0, 1);
        }
        let other = clause[0];
        let known = self.truth(other);
        let spare = (2..clause.len()).find(|&at| self.truth(clause[at]) != Some(false));
        let moves = spare.filter(|_| known != Some(true));
        if let Some(at) = moves {
            clause.swap(1, at);
            self.watched[clause[1].index()].push(number);
        }
        self.clauses.all[number] = clause;
        match known {
            _ if moves.is_some() => {}
            None => self.find(other, Some(number)),
            Some(false) => *failed = Some(number),
            Some(true) => {}
        }
        moves.is_none()
    }

    /// Learns from a clause that fails: the literals of the last level are replaced by their reasons
    /// until one is left, which is false as soon as the others are.
    fn learn(&mut self, failed: Clause) {
        let level = self.levels.len();
        let (mut seen, mut learned) = (vec![false; self.found.len()], Vec::new());
        let (mut clause, mut at, mut left) = (failed, self.trail.len(), 0);
        let last = loop {
            for literal in clause {
                let found = self.found[literal.variable].expect("every literal of it is false");
                if found.level == 0 || std::mem::replace(&mut seen[literal.variable], true) {
                    continue;
                }
                self.heat[literal.variable] += self.warmth;
                if found.level == level {
                    left += 1;
                } else {
                    learned.push(literal);
                }
            }
            at = (0..at).rfind(|&at| seen[self.trail[at].variable]).expect("one of the last level");
            left -= 1;
            let literal = self.trail[at];
            if left == 0 {
                break literal.not();
            }
            let reason = self.found[literal.variable].and_then(|found| found.reason);
            clause = self.clauses.all[reason.expect("only the first of a level has none")].clone();
        };
        self.keep(last, learned);
    }

    /// Keeps what was learned, and goes back to where it tells something.
    fn keep(&mut self, last: Literal, mut learned: Clause) {
        let level = |literal: &Literal| self.found[literal.variable].map_or(0, |found| found.level);
        learned.sort_by_key(|literal| std::cmp::Reverse(level(literal)));
        let back = learned.first().map_or(0, level);
        learned.insert(0, last);
        self.back_to(back);
        let number = (learned.len() > 1).then_some(self.clauses.all.len());
        self.add(learned);
        if number.is_some() {
            self.find(last, number);
        }
        self.warmth *= 1.1;
        if self.warmth > 1e100 {
            self.heat.iter_mut().for_each(|heat| *heat /= self.warmth);
            self.warmth = 1.0;
        }
    }

    /// Forgets what was found after a level.
    fn back_to(&mut self, level: usize) {
        if let Some(Level { trail, facts }) = self.levels.drain(level..).next() {
            for literal in self.trail.drain(trail..) {
                self.found[literal.variable] = None;
            }
            self.next = self.next.min(trail);
            self.facts.take_back(facts);
        }
    }
}
