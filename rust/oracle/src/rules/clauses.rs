//! A formula as clauses, of each of which some literal must hold: a variable for each place that is
//! unlike those before it, and one for each and, or or inner part.

use super::formula::{Formula, Part, Place};

/// A variable, or its negation.
#[derive(Clone, Copy, Debug, PartialEq, Eq)]
pub struct Literal {
    /// The variable's number.
    pub variable: usize,
    /// Whether the variable itself is meant.
    pub truth: bool,
}

impl Literal {
    /// The literal that holds exactly if this one doesn't.
    pub fn not(self) -> Self {
        Literal { truth: !self.truth, ..self }
    }

    /// A number for it among all literals.
    pub fn index(self) -> usize {
        2 * self.variable + usize::from(self.truth)
    }
}

/// Some literal of it must hold.
pub type Clause = Vec<Literal>;

/// A formula's clauses: values that make the formula true are those that meet them all.
pub struct Clauses {
    /// What the first variables stand for.
    pub atoms: Vec<Place>,
    /// The literal for each of the formula's places.
    pub places: Vec<Literal>,
    /// The clauses.
    pub all: Vec<Clause>,
    /// How many variables there are.
    pub variables: usize,
}

impl Clauses {
    /// The clauses of a formula.
    pub fn of(formula: &Formula) -> Self {
        let (mut atoms, mut places) = (Vec::new(), Vec::new());
        for place in &formula.places {
            places.push(literal_of(*place, &mut atoms));
        }
        let variables = atoms.len();
        let mut clauses = Clauses { atoms, places, all: Vec::new(), variables };
        clauses.want(&formula.whole);
        clauses
    }

    /// The part is to hold.
    fn want(&mut self, part: &Part) {
        match part {
            Part::All(parts) => parts.iter().for_each(|part| self.want(part)),
            _ => {
                let literal = self.literal(part);
                self.all.push(vec![literal]);
            }
        }
    }

    /// A literal that holds exactly if the part does.
    fn literal(&mut self, part: &Part) -> Literal {
        match part {
            Part::Place(number) => self.places[*number],
            Part::Not(inner) => self.literal(inner).not(),
            Part::All(parts) => self.joined(parts, true),
            Part::Any(parts) => self.joined(parts, false),
        }
    }

    /// For `true` a literal for all parts; for `false` one for some part, by the negations of all.
    fn joined(&mut self, parts: &[Part], all: bool) -> Literal {
        let turn = |literal: Literal| if all { literal } else { literal.not() };
        let parts: Vec<Literal> = parts.iter().map(|part| turn(self.literal(part))).collect();
        let whole = Literal { variable: self.variables, truth: true };
        self.variables += 1;
        for part in &parts {
            self.all.push(vec![whole.not(), *part]);
        }
        self.all.push([whole].into_iter().chain(parts.iter().map(|part| part.not())).collect());
        turn(whole)
    }
}

/// The literal for a place; equal places share a variable, and so do a place and its negation.
fn literal_of(place: Place, atoms: &mut Vec<Place>) -> Literal {
    let opposite = Place { a: place.b, b: place.a, k: -place.k - 1 };
    if let Some(variable) = atoms.iter().position(|known| [place, opposite].contains(known)) {
        return Literal { variable, truth: atoms[variable] == place };
    }
    atoms.push(place);
    Literal { variable: atoms.len() - 1, truth: true }
}
