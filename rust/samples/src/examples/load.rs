//! Report 000's Appendix B: fourteen updates against the derived relations that fit, and the insert
//! of its conclusion. All columns of every view are visible; names are codes 0..9, regions 10..39.

use super::sketch::Sketch;
use super::Example;
use oracle::Question;

const REGIONS: [(&str, i32); 3] = [("East", 10), ("Cent", 20), ("West", 30)];

const CUSTOMER: &str = "custNumb 1..999 v, custName 0..9 v, custRegn 10..39 v";
const DISTRIBUTOR: &str = "distNumb 1..999 v, distName 0..9 v, distRegn 10..39 v";
const ITEM: &str = "itemNumb 1..999 v, itemDesc 0..9 v, itemPrix 0..9999 v";
const ITEM_SHORT: &str = "itemNumb 1..999 v, itemPrix 0..9999 v";
const ORDER: &str = "ordrNumb 1..999 v, ordrDate 850101..871231 v, ordrCust 1..999 v";
const LINE: &str = "lineOrdr 1..999 v, lineItem 1..999 v, lineQnty 0..9999 v";
const AVAILABLE: &str = "avlbItem 1..999 v, avlbDist 1..999 v, avlbSply 0..9999 v";

fn cust(from: i32) -> Sketch {
    let to = from + 10;
    Sketch::new(CUSTOMER, &format!("custRegn>={from} custRegn<{to} and"))
}

fn dist(from: i32) -> Sketch {
    let to = from + 10;
    Sketch::new(DISTRIBUTOR, &format!("distRegn>={from} distRegn<{to} and"))
}

fn ordr(from: i32) -> Sketch {
    let to = from + 10;
    let condition = format!("ordrCust=custNumb custRegn>={from} and custRegn<{to} and");
    Sketch::new(&format!("{ORDER}; {CUSTOMER}"), &condition)
}

/// Without itemDesc, which no condition and no update names: with it there are nine columns, one too many
/// when these examples were made and recorded.
fn avlb(from: i32) -> Sketch {
    let to = from + 10;
    let tables = format!("{ITEM_SHORT}; {AVAILABLE}; {DISTRIBUTOR}");
    let joined = "itemNumb=avlbItem avlbDist=distNumb and";
    Sketch::new(&tables, &format!("{joined} distRegn>={from} and distRegn<{to} and"))
}

/// The changed table whole, and of the others the columns that the condition names.
fn part_order(changed: usize) -> Sketch {
    let whole = [ITEM, LINE, ORDER, CUSTOMER];
    let mut tables = [
        "itemNumb 1..999 v",
        "lineOrdr 1..999 v, lineItem 1..999 v",
        "ordrNumb 1..999 v, ordrCust 1..999 v",
        "custNumb 1..999 v",
    ];
    tables[changed] = whole[changed];
    let condition = "itemNumb=lineItem lineOrdr=ordrNumb and ordrCust=custNumb and";
    Sketch::new(&tables.join("; "), condition)
}

/// Report 000, section 7: the insert of the customer (456, XYZ Corp., 36).
pub fn xyz() -> Vec<Example> {
    let row: &[&[i32]] = &[&[456, 7, 36]];
    let mut all = Vec::new();
    for (region, from) in REGIONS {
        let west = region == "West";
        let said = if west { "no/-" } else { "yes/-" };
        let verdicts = |relevant| if west { relevant } else { "yes/yes" };
        let views =
            [("Cust", cust(from).insert(0, row), "no/yes"), ("Ordr", ordr(from).insert(1, row), "no/no")];
        for (view, question, relevant) in views {
            let name = format!("7-XYZ {view}{region}");
            all.push(Example::new(name, question, said, verdicts(relevant)));
        }
    }
    let question = part_order(3).insert(3, row);
    all.push(Example::new("7-XYZ PartOrder*", question, "no/-", "no/no"));
    all
}

/// Every pair of an update and a view that needs a question and fits; a star marks a view from
/// which columns were dropped that neither its condition nor the update names.
pub fn load() -> Vec<Example> {
    let mut all = Vec::new();
    customers(&mut all);
    distributors(&mut all);
    available(&mut all);
    items(&mut all);
    let mut part = |name: &str, question, class| all.push(pair(name, "PartOrder*", question, class));
    let orders = part_order(2);
    part("U10", orders.delete(2, "ordrDate<860901"), COMPUTABLE);
    let lines = part_order(1);
    let rows: &[&[i32]] = &[&[101, 42, 3], &[102, 71, 80], &[103, 27, 250]];
    part("U13", lines.insert(1, rows), NEITHER);
    part("U14", lines.modify(1, "lineItem=47", "lineQnty:=lineQnty+250"), COMPUTABLE);
    all
}

/// A class of the report's Table 4: its name, the report's verdicts, the right ones.
type Class = (&'static str, &'static str, &'static str);
const IRRELEVANT: Class = ("irrelevant", "yes/-", "yes/yes");
const COMPUTABLE: Class = ("autonomously computable", "no/yes", "no/yes");
const NEITHER: Class = ("neither", "no/no", "no/no");

fn pair(update: &str, view: &str, question: Question, class: Class) -> Example {
    let (words, report, right) = class;
    Example::new(format!("{update} {view}"), question, report, right).words(words)
}

/// U3, U4 and U5 delete customers; U10 deletes orders.
fn customers(all: &mut Vec<Example>) {
    let updates = [
        ("U3", "custNumb=123"),
        ("U4", "custNumb>123 custNumb<130 and"),
        ("U5", "custNumb=123 custNumb=125 or custNumb=127 or custNumb=129 or"),
    ];
    for (update, rows) in updates {
        for (region, from) in REGIONS {
            let view = format!("Cust{region}");
            all.push(pair(update, &view, cust(from).delete(0, rows), COMPUTABLE));
            let view = format!("Ordr{region}");
            all.push(pair(update, &view, ordr(from).delete(1, rows), COMPUTABLE));
        }
        all.push(pair(update, "PartOrder*", part_order(3).delete(3, rows), COMPUTABLE));
    }
    for (region, from) in REGIONS {
        let question = ordr(from).delete(0, "ordrDate<860901");
        all.push(pair("U10", &format!("Ordr{region}"), question, COMPUTABLE));
    }
}

/// U6 to U9 move distributors between regions.
fn distributors(all: &mut Vec<Example>) {
    let updates = [
        ("U6", "distRegn=19", "distRegn:=18"),
        ("U7", "distRegn=19", "distRegn:=20"),
        ("U8", "distRegn=18 distRegn=19 or", "distRegn:=17"),
        ("U9", "distRegn>=18 distRegn<=19 and", "distRegn:=17"),
    ];
    for (update, rows, setting) in updates {
        for (region, from) in REGIONS {
            let class = match (update, region) {
                (_, "East") => COMPUTABLE,
                ("U7", "Cent") => NEITHER,
                _ => IRRELEVANT,
            };
            let question = dist(from).modify(0, rows, setting);
            all.push(pair(update, &format!("Dist{region}"), question, class));
            let question = avlb(from).modify(2, rows, setting);
            all.push(pair(update, &format!("Avlb{region}*"), question, class));
        }
    }
}

/// U1 and U2 change what is available.
fn available(all: &mut Vec<Example>) {
    let rows: &[&[i32]] = &[&[43, 542, 10], &[112, 571, 800], &[203, 627, 250]];
    for (region, from) in REGIONS {
        let view = format!("Avlb{region}*");
        all.push(pair("U1", &view, avlb(from).insert(1, rows), NEITHER));
        let question = avlb(from).modify(1, "avlbItem=117", "avlbSply:=avlbSply+300");
        all.push(pair("U2", &view, question, COMPUTABLE));
    }
}

/// U11 and U12 change prices.
fn items(all: &mut Vec<Example>) {
    let rows = "itemNumb=45 itemNumb=113 or itemNumb=297 or";
    for (update, setting) in [("U11", "itemPrix:=itemPrix+125"), ("U12", "itemPrix:=995")] {
        let part = Sketch::new(ITEM, "");
        all.push(pair(update, "Part", part.modify(0, rows, setting), COMPUTABLE));
        let question = part_order(0).modify(0, rows, setting);
        all.push(pair(update, "PartOrder*", question, COMPUTABLE));
        for (region, from) in REGIONS {
            let question = avlb(from).modify(0, rows, setting);
            all.push(pair(update, &format!("Avlb{region}*"), question, COMPUTABLE));
        }
    }
}
