//! Measures the library, the original, HashMap with a Vec, the bare search and the hash alone on the same names.
//! Commands: `time ROUNDS` measures all; `alone ROUNDS` measures the library without the others between; `count` runs under callgrind;
//! `counts` reads lines "contender operation kind count" and prints the table of counts.
mod bare;
mod dictionaries;
mod counts;
mod names;
#[allow(dead_code)]
#[path = "../../tools/compare.d/driver/ours.rs"]
mod ours;
#[allow(dead_code)]
#[path = "../../tools/compare.d/driver/random.rs"]
mod random;
mod seats;
mod table;

use bare::Bare;
use dictionaries::{Library, MapAndVec, Original, OriginalFold};
use names::{Input, KINDS};
use seats::{Contender, HashAlone, HashInTurn, Seat, OPERATIONS};
use std::time::Instant;
use table::{Cells, ALL, CONTENDERS};

fn contenders() -> [Box<dyn Contender>; CONTENDERS] {
    [
        Box::new(Seat::new(Library::new())),
        Box::new(Seat::new(Original::new())),
        Box::new(Seat::new(OriginalFold::new())),
        Box::new(Seat::new(MapAndVec::default())),
        Box::new(HashAlone),
        Box::new(HashInTurn),
        Box::new(Seat::new(Bare::new())),
    ]
}

/// One round: each operation and kind, done by each of the first contenders in turn, the first of them another one each round.
fn round(number: usize, first: usize, contenders: &mut [Box<dyn Contender>; CONTENDERS], input: &Input) -> Cells {
    let mut cells = Cells::default();
    contenders.iter_mut().for_each(|c| c.clear());
    for (o, (operation, _)) in OPERATIONS.iter().enumerate() {
        for kind in 0..KINDS.len() {
            for turn in 0..first {
                let c = (turn + number) % first;
                let begin = Instant::now();
                contenders[c].run(*operation, kind, input);
                let spent = begin.elapsed().as_nanos() as f64;
                cells[c][o][kind] = spent;
                cells[c][o][ALL] += spent;
            }
        }
    }
    cells
}

fn check(contenders: &[Box<dyn Contender>; CONTENDERS], input: &Input) {
    let numbers: Vec<_> = contenders.iter().map(|c| c.check(input)).collect();
    assert!(numbers[table::OURS] == numbers[table::ORIGINAL]);
    assert!(numbers[table::OURS] == numbers[table::FOLD]);
    assert!(numbers[table::OURS] == numbers[table::BARE]);
}

/// A cell made from that cell of every round.
fn each_cell(rounds: &[Cells], make: impl Fn(Vec<f64>) -> f64) -> Cells {
    let mut cells = Cells::default();
    for c in 0..CONTENDERS {
        for o in 0..OPERATIONS.len() {
            for k in 0..=ALL {
                cells[c][o][k] = make(rounds.iter().map(|r| r[c][o][k]).collect()) / table::calls(k);
            }
        }
    }
    cells
}

fn median(mut values: Vec<f64>) -> f64 {
    values.sort_by(f64::total_cmp);
    values[values.len() / 2]
}

fn time(rounds: usize) {
    let input = Input::new();
    let mut contenders = contenders();
    // Not counted: it warms up, and its answers are checked.
    round(0, CONTENDERS, &mut contenders, &input);
    check(&contenders, &input);
    for (kind, name) in KINDS.iter().enumerate() {
        println!("{name}: {} names, {:.1} bytes on average", names::COUNTS[kind], input.length(kind));
    }
    let rounds: Vec<Cells> = (1..=rounds).map(|n| round(n, CONTENDERS, &mut contenders, &input)).collect();
    table::print(&format!("ns a call, the median of {} interleaved rounds", rounds.len()), &each_cell(&rounds, median));
}

fn alone(rounds: usize) {
    let input = Input::new();
    let mut contenders = contenders();
    round(0, 1, &mut contenders, &input);
    let rounds: Vec<Cells> = (1..=rounds).map(|n| round(n, 1, &mut contenders, &input)).collect();
    table::print_ours(&each_cell(&rounds, median));
}

fn count() {
    let input = Input::new();
    let mut contenders = contenders();
    contenders.iter_mut().for_each(|c| c.clear());
    counts::start();
    for (o, (operation, _)) in OPERATIONS.iter().enumerate() {
        for kind in 0..KINDS.len() {
            for (c, contender) in contenders.iter_mut().enumerate() {
                counts::count(&format!("{c} {o} {kind}"), || contender.run(*operation, kind, &input));
            }
        }
    }
}

fn print_counts() {
    let mut cells = Cells::default();
    let text = std::io::read_to_string(std::io::stdin()).expect("counts");
    for line in text.lines() {
        let words: Vec<usize> = line.split(' ').map(|w| w.parse().expect("a number")).collect();
        let [c, o, k, count] = words[..] else { panic!("four numbers") };
        cells[c][o][k] = count as f64;
        cells[c][o][ALL] += count as f64;
    }
    table::print("instructions a call, counted by callgrind", &each_cell(&[cells], |one| one[0]));
}

fn main() {
    let words: Vec<String> = std::env::args().skip(1).collect();
    match words.iter().map(String::as_str).collect::<Vec<_>>()[..] {
        ["time", rounds] => time(rounds.parse().expect("how many rounds")),
        ["alone", rounds] => alone(rounds.parse().expect("how many rounds")),
        ["count"] => count(),
        ["counts"] => print_counts(),
        _ => {
            eprintln!("commands: time ROUNDS, alone ROUNDS, count, counts");
            std::process::exit(2);
        }
    }
}
