//! A formula over places `a − b ≤ k`, and what is known of it when its first places are decided.

/// One place: whether vertex `a` minus vertex `b` is at most `k`.
#[derive(Clone, Copy, Debug, PartialEq, Eq)]
pub struct Place {
    /// The vertex on the left.
    pub a: usize,
    /// The vertex taken off.
    pub b: usize,
    /// The bound.
    pub k: i64,
}

impl Place {
    /// Whether the place holds when the vertices have these values.
    pub fn holds(&self, value: impl Fn(usize) -> i64) -> bool {
        value(self.a) - value(self.b) <= self.k
    }
}

/// A formula's structure; its leaves are the numbers of places.
#[derive(Clone, Debug, PartialEq, Eq)]
pub enum Part {
    /// The place with this number.
    Place(usize),
    /// Every part holds; with no part, true.
    All(Vec<Part>),
    /// Some part holds; with no part, false.
    Any(Vec<Part>),
    /// The part fails.
    Not(Box<Part>),
}

impl Part {
    /// What the first places, decided so, tell of this part: true, false, or nothing yet.
    pub fn known(&self, decided: &[bool]) -> Option<bool> {
        match self {
            Part::Place(number) => decided.get(*number).copied(),
            Part::All(parts) => join(parts, decided, false),
            Part::Any(parts) => join(parts, decided, true),
            Part::Not(part) => part.known(decided).map(|truth| !truth),
        }
    }
}

/// One part that is `ending` settles the whole; otherwise every part must be known.
fn join(parts: &[Part], decided: &[bool], ending: bool) -> Option<bool> {
    let mut whole = Some(!ending);
    for part in parts {
        match part.known(decided) {
            Some(truth) if truth == ending => return Some(ending),
            Some(_) => {}
            None => whole = None,
        }
    }
    whole
}

/// A vertex that takes part, with the range of its column.
#[derive(Clone, Copy, Debug, PartialEq, Eq)]
pub struct Vertex {
    /// Its number.
    pub number: usize,
    /// The column's least value.
    pub lo: i32,
    /// The column's greatest value.
    pub hi: i32,
}

/// One entry of a trouble list.
#[derive(Clone, Debug, PartialEq, Eq)]
pub struct Formula {
    /// The places in order.
    pub places: Vec<Place>,
    /// How they are joined.
    pub whole: Part,
    /// The vertices beside 0.
    pub vertices: Vec<Vertex>,
    /// Whether it speaks of two full rows.
    pub two: bool,
    /// For an insert, the values of the changed table's columns.
    pub inserted: Option<Vec<i32>>,
}

impl Formula {
    /// Whether the formula has this vertex.
    pub fn has(&self, vertex: usize) -> bool {
        vertex == 0 || self.vertices.iter().any(|known| known.number == vertex)
    }

    /// Whether the formula holds when the vertices have these values.
    pub fn holds(&self, value: impl Fn(usize) -> i64) -> bool {
        let decided: Vec<bool> = self.places.iter().map(|place| place.holds(&value)).collect();
        self.whole.known(&decided) == Some(true)
    }
}
