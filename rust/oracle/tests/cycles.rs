//! Cycles and greatest solutions against plain search.

use oracle::rules::edges::Edges;
use oracle::rules::facts::Solved;
use oracle::rules::formula::{Formula, Part, Vertex};
use samples::Chance;

const VERTICES: usize = 4;

/// A formula with the vertices 1 to 3, each 0..=4, and nothing to say.
fn blank() -> Formula {
    let vertex = |number| Vertex { number, lo: 0, hi: 4 };
    Formula {
        places: Vec::new(),
        whole: Part::All(Vec::new()),
        vertices: (1..VERTICES).map(vertex).collect(),
        two: false,
        inserted: None,
    }
}

/// All vertex lists of this length, least first.
fn lists(length: usize) -> Vec<Vec<usize>> {
    if length == 0 {
        return vec![Vec::new()];
    }
    let longer = |list: Vec<usize>| (0..VERTICES).map(move |vertex| [&list[..], &[vertex]].concat());
    lists(length - 1).into_iter().flat_map(longer).collect()
}

/// Every solution within the ranges.
fn solutions(facts: &[(usize, usize, i64)]) -> Vec<[i64; VERTICES]> {
    let all = (0..125).map(|n| [0, n % 5, n / 5 % 5, n / 25]);
    all.filter(|values| facts.iter().all(|&(from, to, weight)| values[to] - values[from] <= weight)).collect()
}

#[test]
fn plain_search_agrees() {
    let mut chance = Chance::new(6);
    let every: Vec<Vec<usize>> = (1..=VERTICES).flat_map(lists).collect();
    let mut counts = [0; 1 + VERTICES];
    for _ in 0..4_000 {
        let formula = blank();
        let mut edges = Edges::of_ranges(&formula);
        let mut solved = Some(Solved::of_ranges(&formula));
        let mut facts = Vec::new();
        for _ in 0..1 + chance.below(7) {
            let (from, to) = (chance.below(VERTICES), chance.below(VERTICES));
            let weight = i64::from(chance.between(-3, 4));
            facts.push((from, to, weight));
            edges.add(from, to, weight);
            solved = solved.and_then(|solved| solved.with(from, to, weight).ok());
        }
        let below = |list: &&Vec<usize>| edges.round_trip(list).is_some_and(|sum| sum < 0);
        let first = every.iter().find(below).cloned();
        assert_eq!(edges.shortest_negative(), first, "{facts:?}");
        counts[first.as_ref().map_or(0, Vec::len)] += 1;

        let all = solutions(&facts);
        assert_eq!(all.is_empty(), first.is_some());
        assert_eq!(all.is_empty(), solved.is_none());
        if let Some(solved) = solved {
            let greatest: Vec<i64> = (0..VERTICES).map(|vertex| solved.greatest(vertex)).collect();
            assert!(all.iter().any(|solution| solution[..] == greatest[..]));
            let under =
                |solution: &[i64; VERTICES]| solution.iter().zip(&greatest).all(|(one, most)| one <= most);
            assert!(all.iter().all(under));
        }
    }
    assert!(counts.iter().all(|&count| count > 20), "{counts:?}");
}
