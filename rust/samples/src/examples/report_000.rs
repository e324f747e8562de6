//! The numbered examples of report 000. Ranges that the report leaves open are chosen.

use super::sketch::Sketch;
use super::Example;

const CONTROL: &str = "a control beside the example: the report says nothing of it";

/// Examples 3.1 to 4.7 with their variants.
pub fn report_000() -> Vec<Example> {
    let mut all = irrelevant();
    all.extend(nonessential());
    all.extend(deletes_and_modifies());
    all
}

/// Section 3.
fn irrelevant() -> Vec<Example> {
    let deleted = Sketch::new("H 0..30 v, I 0..30, J 0..30; K 0..30, L 0..30 v", "I>J J=K and K>10 and");
    let notation = |shown: &str| {
        let all = Sketch::new(shown, "H>30 I=J and");
        all.modify(0, "H>5 I>=J and", "H:=H+20 I:=15")
    };
    let grown = Sketch::new("H 0..30, I 0..30 v; J 0..30 v, K 0..30", "H>10 I=K and");
    let form = "shows the form of the conditions only";
    vec![
        Example::new("000-3.1", deleted.delete(0, "I<5"), "yes/-", "yes/yes").words("irrelevant"),
        Example::new("000-3.2", notation("H 0..50 v, I 10..100 v, J 10..100 v"), "-/-", "no/no").why(form),
        Example::new("000-3.2v", notation("H 0..50, I 10..100, J 10..100 v"), "-/-", "no/no").why(CONTROL),
        Example::new("000-3.3", grown.modify(0, "H>20", "H:=H+5"), "yes/-", "yes/yes").words("irrelevant"),
    ]
}

/// Section 4.1, its definitions read as deletes.
fn nonessential() -> Vec<Example> {
    let hidden = Sketch::new("H 0..30, I 0..30 v, J 0..30 v", "H>5");
    let tables = "H 0..30 v, I 0..30, K 0..30";
    let fixed = Sketch::new(tables, "I=H H>7 and K=5 and");
    let free = Sketch::new(tables, "H>7 K=5 and");
    let essential = hidden.delete(0, "H>0 I=5 and J>10 and");
    vec![
        Example::new("000-4.1", essential, "-/yes", "no/yes").words("H is nonessential"),
        Example::new("000-4.2I", fixed.delete(0, "I=10"), "-/yes", "no/yes").words("I is determined by H"),
        Example::new("000-4.2K", fixed.delete(0, "K=5"), "-/yes", "no/yes").words("K is determined by H"),
        Example::new("000-4.2I-noC", free.delete(0, "I=10"), "-/-", "no/no").why(CONTROL),
    ]
}

/// Sections 4.3 and 4.4.
fn deletes_and_modifies() -> Vec<Example> {
    let joined = Sketch::new("H 0..40, I 0..40; J 0..40 v, K 0..40 v", "I=J H<20 and");
    let shown = Sketch::new("H 0..50 v, I 0..50 v", "H=20 I<10 and");
    let tables = "H 0..50 v, I 0..50, J 0..50";
    let halves = Sketch::new(tables, "H=I H<30 and J<20 and H>40 or");
    let upper = Sketch::new(tables, "H>40");
    let third = Sketch::new("H 0..30, I 0..30 v; J 0..30 v, K 0..30, L 0..30", "H<15 I=K and L=20 and");
    let wrong = "Properties 1 to 5 all hold, so Theorem 4.7 calls it computable, yet the contents \
        {(10,10,10)} and {(10,10,17)} both list {10} and end as {10} and {}: the properties leave out \
        selected rows that show the same part and may stay or go";
    let moved = third.modify(1, "K>5 K<=22 and", "J:=L+3");
    vec![
        Example::new("000-4.3", joined.delete(0, "I=20 H<30 and"), "-/yes", "no/yes").words("autonomous"),
        Example::new("000-4.3v", joined.delete(0, "I=20 H<10 and"), "-/-", "no/no").why(CONTROL),
        Example::new("000-4.4", shown.modify(0, "I<30", "I:=I+1"), "-/-", "no/yes")
            .words("Property 2 holds")
            .why("the example shows that nothing enters and says no more"),
        Example::new("000-4.5", halves.modify(0, "I<40", "J:=J+5"), "-/yes", "no/no")
            .words("by Theorem 4.7 autonomous")
            .why(wrong),
        Example::new("000-4.5 upper half", upper.modify(0, "I<40", "J:=J+5"), "-/-", "yes/yes").why(CONTROL),
        Example::new("000-4.7", moved, "-/yes", "no/yes").words("autonomous"),
    ]
}
