//! The examples of report 002 that report 000 lacks. Ranges that the report leaves open are chosen.

use super::sketch::Sketch;
use super::Example;

const PART: &str = "a part of the example, asked alone";

/// The numbered examples, and one of section 7.3.2.
pub fn report_002() -> Vec<Example> {
    let mut all = notation();
    all.extend(inserts());
    all.extend(three_rows());
    all.extend(autonomous());
    all.extend(conditional());
    all.extend(adjacent());
    all
}

/// Example 3.3: 000's 3.2 with a second table beside.
fn notation() -> Vec<Example> {
    let tables = "H 0..50 v, I 10..100, J 10..100; K 0..30 v, L 0..30";
    let beside = Sketch::new(tables, "H>30 I=J and");
    let change = beside.modify(0, "H>5 I>=J and", "H:=H+20 I:=15");
    vec![Example::new("002-3.3", change, "-/-", "no/no").why("shows the form of the conditions only")]
}

/// Example 3.1.
fn inserts() -> Vec<Example> {
    let list = |k: &str| {
        let tables = format!("H 0..50 v, I 0..50, J 0..50; K {k} v, L {k} v");
        Sketch::new(&tables, "H>23 J=K and L<10 and")
    };
    let (wide, short) = (list("0..50"), list("0..40"));
    let (first, second) = ([15, 20, 35], [26, 20, 45]);
    let both = wide.insert(0, &[&first, &second]);
    vec![
        Example::new("002-3.1", both, "no/-", "no/no").words("first row irrelevant, second not"),
        Example::new("002-3.1 t1", wide.insert(0, &[&first]), "yes/-", "yes/yes").words("irrelevant"),
        Example::new("002-3.1 t2", wide.insert(0, &[&second]), "no/-", "no/no").words("not irrelevant"),
        Example::new("002-3.1 t2 K..40", short.insert(0, &[&second]), "-/-", "yes/yes")
            .why("a control: the report leaves the ranges open, and 45 has no partner here"),
    ]
}

/// Example 3.5: the rows inserted, then deleted.
fn three_rows() -> Vec<Example> {
    let list =
        Sketch::new("H 0..60, I 0..60 v; J 0..60 v, K 0..60, L 0..60", "H>10 L<50 and I=K and L>K+24 and");
    let (a, b, c) = ([10, 20], [12, 24], [14, 32]);
    let all_rows = "H=10 I=20 and H=12 I=24 and or H=14 I=32 and or";
    vec![
        Example::new("002-3.5 ins all", list.insert(0, &[&a, &b, &c]), "no/-", "no/no")
            .words("only (12,24) relevant"),
        Example::new("002-3.5 ins 10,20", list.insert(0, &[&a]), "yes/-", "yes/yes").words("irrelevant"),
        Example::new("002-3.5 ins 12,24", list.insert(0, &[&b]), "no/-", "no/no").words("relevant"),
        Example::new("002-3.5 ins 14,32", list.insert(0, &[&c]), "yes/-", "yes/yes")
            .words("irrelevant, by the cycle 0, L, K"),
        Example::new("002-3.5 del 10,20", list.delete(0, "H=10 I=20 and"), "yes/-", "yes/yes")
            .words("irrelevant"),
        Example::new("002-3.5 del 12,24", list.delete(0, "H=12 I=24 and"), "no/-", "no/no").words("relevant"),
        Example::new("002-3.5 del 14,32", list.delete(0, "H=14 I=32 and"), "yes/-", "yes/yes")
            .words("irrelevant"),
        Example::new("002-3.5 del all", list.delete(0, all_rows), "no/-", "no/no")
            .words("only (12,24) relevant"),
    ]
}

/// Examples 4.3 and 4.6.
fn autonomous() -> Vec<Example> {
    let one = Sketch::new("H 0..20 v, I 0..20 v", "H>10 I=5 and");
    let two = Sketch::new("H 0..20 v, I 0..20 v; J 0..20, K 0..20", "I=J H>10 and");
    let third = Sketch::new("H 0..30, I 0..30 v; J 0..30 v, K 0..30, L 0..30", "I=K L=20 and");
    let (a, b) = ([6, 10], [12, 5]);
    let moved = third.modify(1, "K>5 K<=22 and", "J:=L+3");
    vec![
        Example::new("002-4.3 E1", one.insert(0, &[&a, &b]), "-/yes", "no/yes").words("autonomous"),
        Example::new("002-4.3 E2", two.insert(0, &[&a, &b]), "-/no", "no/no").words("not autonomous"),
        Example::new("002-4.3 E2 (6,10)", two.insert(0, &[&a]), "-/-", "yes/yes").why(PART),
        Example::new("002-4.6", moved, "-/yes", "no/yes").words("autonomous"),
    ]
}

/// A list over tables such as `HI JKL` (a letter a column), the range of every column, the visible ones
/// and the condition.
fn lettered(tables: &str, range: &str, shown: &str, condition: &str) -> Sketch {
    let column = |name: char| format!("{name} {range}{}", if shown.contains(name) { " v" } else { "" });
    let table = |names: &str| names.chars().map(column).collect::<Vec<String>>().join(",");
    let tables: Vec<String> = tables.split(' ').map(table).collect();
    Sketch::new(&tables.join(";"), condition)
}

/// Section 4.3: the report asks for one given list, we ask for every list.
fn conditional() -> Vec<Example> {
    let list = |tables, shown, condition| lettered(tables, "0..60", shown, condition);
    let seven = lettered("HI JKL", "0..40", "HIL", "I=J").insert(0, &[&[4, 10]]);
    let eight = list("HI JKL MN", "HIKLN", "I>J L=M and").insert(1, &[&[25, 28, 30]]);
    let nine = |shown| list("HI JKL", shown, "I<J").insert(0, &[&[4, 21]]);
    let nine_iii = list("HI JKL MN", "HIJKLMN", "I=J L=M and").insert(1, &[&[22, 60, 30]]);
    let ten = list("HI JKL", "HIJK", "H=2 I<J and H=5 I>L and or I=K or").insert(0, &[&[2, 25]]);
    let eleven = list("HI JKL", "HJKL", "J<I I<L and").delete(0, "I<20 I>22 or");
    let other = "the report looks at one given list; over every list the verdict is no";
    let key = "right that it is not unconditional; the conditional claim that only one row goes holds \
        only if H were a key";
    let yes = "computable for the given list";
    vec![
        Example::new("002-4.7", seven, "-/-", "no/no").words(yes).why(other),
        Example::new("002-4.8", eight, "-/-", "no/no").words("candidates only").why(other),
        Example::new("002-4.9i", nine("HIJKL"), "-/-", "no/no").words(yes).why(other),
        Example::new("002-4.9ii", nine("HJKL"), "-/-", "no/no").words(yes).why(other),
        Example::new("002-4.9iii", nine_iii, "-/-", "no/no").words(yes).why(other),
        Example::new("002-4.10", ten, "-/-", "no/no").words(yes).why(other),
        Example::new("002-4.11", eleven, "-/no", "no/no")
            .words("not unconditional; computable for the given list")
            .why(key),
    ]
}

/// Example 5.2, and the unnumbered one of section 7.3.2.
fn adjacent() -> Vec<Example> {
    let part = Sketch::new("H 0..30, I 0..30 v", "");
    let ids =
        Sketch::new("H 0..20 v, I 0..60, TID1 1..99 v; J 0..60, K 0..600 v, TID2 1..99 v", "I=J H>10 and");
    let rows = "H=10 I=20 and TID1=1 and H=11 I=30 and TID1=3 and or";
    let counters = "needs counters";
    vec![
        Example::new("002-5.2 (1,10)", part.delete(0, "H=1 I=10 and"), "-/no", "no/no").words(counters),
        Example::new("002-5.2 (3,20)", part.delete(0, "H=3 I=20 and"), "-/no", "no/no").words(counters),
        Example::new("002-7.3.2", ids.delete(0, rows), "-/-", "no/no")
            .words("refreshed by tuple ids")
            .why("nothing makes TID1 a key here, so a listed (11,k,3,t) may have another I"),
        Example::new("002-7.3.2 TID1=3", ids.delete(0, "TID1=3"), "-/-", "no/yes").why(PART),
    ]
}
