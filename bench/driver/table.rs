//! The table: rows by operation and kind, columns by contender, then ratios.
use crate::names::{COUNTS, KINDS};
use crate::seats::OPERATIONS;

pub const OURS: usize = 0;
pub const ORIGINAL: usize = 1;
pub const FOLD: usize = 2;
pub const MAP: usize = 3;
pub const HASH: usize = 4;
pub const TURN: usize = 5;
pub const BARE: usize = 6;
pub const CONTENDERS: usize = 7;
/// The column of all kinds together, behind the four.
pub const ALL: usize = 4;

/// By contender, operation and kind.
pub type Cells = [[[f64; 5]; 5]; CONTENDERS];

/// How many calls a cell stands for.
pub fn calls(kind: usize) -> f64 {
    let n: usize = if kind == ALL { COUNTS.iter().sum() } else { COUNTS[kind] };
    n as f64
}

fn line(words: [&str; 13]) {
    let [operation, kind, ours, original, fold, map, bare, hash, turn, a, b, c, d] = words;
    println!("{operation:<10} {kind:<7}{ours:>6}{original:>10}{fold:>10}{map:>9}{bare:>8}{hash:>7}{turn:>8}{a:>12}{b:>12}{c:>9}{d:>8}");
}

pub fn print(title: &str, cells: &Cells) {
    println!("\n{title}\n");
    line(["", "", "ours", "original", "original", "HashMap", "bare", "hash", "hash", "ours/orig.", "ours/orig.", "ours/", "ours/"]);
    line(["operation", "kind", "", "sip", "fold", "+ Vec", "search", "alone", "in turn", "sip", "fold", "HashMap", "bare"]);
    for (o, (_, operation)) in OPERATIONS.iter().enumerate() {
        for (k, kind) in KINDS.iter().chain(["all"].iter()).enumerate() {
            let of = |contender: usize| format!("{:.0}", cells[contender][o][k]);
            let ratio = |one: usize, other: usize| format!("{:.2}", cells[one][o][k] / cells[other][o][k]);
            let over = |contender: usize| ratio(OURS, contender);
            // A read has no search.
            let hashed = |contender: usize| if *operation == "read" { "-".to_string() } else { of(contender) };
            let (bare, hash, turn) = (hashed(BARE), hashed(HASH), hashed(TURN));
            let (ours, original, fold, map) = (of(OURS), of(ORIGINAL), of(FOLD), of(MAP));
            let (a, b, c) = (over(ORIGINAL), over(FOLD), over(MAP));
            let d = if *operation == "read" { "-".to_string() } else { ratio(OURS, BARE) };
            line([operation, kind, &ours, &original, &fold, &map, &bare, &hash, &turn, &a, &b, &c, &d]);
        }
    }
}

/// The library's cells: a row for each operation, a column for each kind.
pub fn print_ours(cells: &Cells) {
    println!("\nns a call of ours with no other contender between\n");
    println!("{:<10}{:>7}{:>7}{:>8}{:>7}{:>6}", "operation", KINDS[0], KINDS[1], KINDS[2], KINDS[3], "all");
    for (o, (_, operation)) in OPERATIONS.iter().enumerate() {
        let [a, b, c, d, all] = cells[OURS][o];
        println!("{operation:<10}{a:>7.0}{b:>7.0}{c:>8.0}{d:>7.0}{all:>6.0}");
    }
}
