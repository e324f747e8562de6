//! FORMAT 9.3 and 9.5: the twelve cases, and questions on which a shortcut would go wrong.

use super::sketch::Sketch;
use super::Example;
use oracle::Question;

/// KEY and CLIENT.
const TABLES: &str = "K 0..9 v, V 0..30; N 0..9 v, Q 0..9";

fn case(name: &str, question: Question, right: &'static str) -> Example {
    Example::new(name, question, "-/-", right)
}

/// The cases a to l, in order.
pub fn twelve() -> Vec<Example> {
    let list = Sketch::new(TABLES, "K=Q V>=10 and");
    vec![
        case("a", list.insert(0, &[&[3, 9]]), "yes/yes"),
        case("b", list.insert(0, &[&[3, 10]]), "no/no"),
        case("c", list.insert(0, &[]), "yes/yes"),
        case("d", list.delete(0, "V<10"), "yes/yes"),
        case("e", list.delete(0, "V<=10"), "no/no"),
        case("f", list.delete(0, "K=4"), "no/yes"),
        case("g", list.delete(0, "V>=5"), "no/yes"),
        case("h", list.modify(0, "V>=10", "V:=V+5"), "yes/yes"),
        case("i", list.modify(0, "V>=5", "V:=V+5"), "no/no"),
        case("j", list.modify(0, "V>=10", "V:=V-8"), "no/no"),
        case("k", list.modify(0, "V>=10", "V:=V-40"), "yes/yes"),
        case("l", list.modify(0, "V>=10", "V:=7"), "no/yes"),
    ]
}

/// The same in version 2. New values leave the range in h, i and k: of what is listed some rows go, in k all.
/// By other rows i was neither in version 1 already.
pub fn twelve_of_version_2() -> Vec<Example> {
    let mut all = twelve();
    for example in &mut all {
        example.question.version = 2;
        example.right = match example.name.as_str() {
            "h" => "no/no",
            "k" => "no/yes",
            _ => example.right,
        };
        example.name += ", version 2";
    }
    all
}

/// Beside b, g and k: a hidden column that decides, a range that decides, and a comparison whose
/// negation must not lose the one that the integers give.
pub fn shortcuts() -> Vec<Example> {
    let key = Sketch::new("K 0..9 v, V 0..30", "V>=10");
    let list = Sketch::new(TABLES, "K=Q V>=10 and");
    let negated = Sketch::new(TABLES, "K=Q V<=9 not and");
    vec![
        case("properties", key.modify(0, "K=3 K=5 V>=20 and or", "K:=5"), "no/yes"),
        case("ranges", list.delete(0, "V>30"), "yes/yes"),
        case("negation", negated.delete(0, "V<=9"), "yes/yes"),
    ]
}
