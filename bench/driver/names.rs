//! Names like those of an industrial plant, from a fixed seed.
use crate::random::Random;

pub const KINDS: [&str; 4] = ["IRI", "plain", "tagged", "typed"];

/// How many names of each kind, 100,000 together.
pub const COUNTS: [usize; 4] = [40_000, 20_000, 20_000, 20_000];

#[derive(Clone)]
pub struct Name {
    pub kind: usize,
    pub first: String,
    pub second: String,
}

const DEVICES: [&str; 8] = ["pump", "valve", "drive", "sensor", "switch", "robot", "conveyor", "plc"];
const SIGNALS: [&str; 6] = ["Temperature", "Pressure", "FlowRate", "Level", "Speed", "Torque"];
const VENDORS: [&str; 5] = ["acme", "nordwerk", "fabrika", "usine", "kikai"];
const VOCABULARIES: [&str; 6] = [
    "http://www.example.org/automation#",
    "http://www.example.org/automation/signals#",
    "https://vocabulary.example.com/process/v2/",
    "https://vocabulary.example.com/units/",
    "http://assets.example.net/type#",
    "http://assets.example.net/instance/",
];
const LABELS: [(&str, &str); 10] = [
    ("de", "Füllstand am Behälter"),
    ("de-AT", "Kühlwasserpumpe"),
    ("en", "coolant pump"),
    ("en-GB", "conveyor at the packing line"),
    ("fr", "débitmètre à l'entrée"),
    ("pl", "czujnik ciśnienia"),
    ("cs", "čerpadlo chladicí vody"),
    ("ru", "датчик давления"),
    ("zh-Hans", "冷却水泵"),
    ("ja", "圧力センサー"),
];
const TYPES: [&str; 5] = [
    "http://www.w3.org/2001/XMLSchema#decimal",
    "http://www.w3.org/2001/XMLSchema#integer",
    "http://www.w3.org/2001/XMLSchema#dateTime",
    "http://www.w3.org/2001/XMLSchema#hexBinary",
    "https://vocabulary.example.com/units/bar",
];

/// Heads repeat: 108 lines for each plant, the vocabularies, and the empty head of the urn names.
fn iri(r: &mut Random, plants: usize, n: usize) -> String {
    match r.below(10) {
        0..=4 => {
            let (plant, hall, line) = (r.within(1, plants), r.within(1, 9), r.within(1, 12));
            format!("https://plant{plant}.example.com/hall{hall}/line{line}/{}{n}", r.one(&DEVICES))
        }
        5..=7 => format!("{}{}{n}", r.one(&VOCABULARIES), r.one(&SIGNALS)),
        _ => format!("urn:{}:{}:{n}", r.one(&VENDORS), r.one(&DEVICES)),
    }
}

fn plain(r: &mut Random, n: usize) -> String {
    match r.below(3) {
        0 => format!("{} {n}", r.one(&DEVICES)),
        1 => format!("SN-{:04X}-{n}", r.below(0x10000)),
        _ => format!("{} {n} of the {}", r.one(&SIGNALS), r.one(&DEVICES)),
    }
}

fn value(r: &mut Random, datatype: usize, n: usize) -> String {
    match datatype {
        0 => format!("{n}.{:03}", r.below(1000)),
        1 => format!("{n}"),
        2 => {
            format!("2026-{:02}-{:02}T{:02}:{:02}:00.{n}Z", r.within(1, 12), r.within(1, 28), r.below(24), r.below(60))
        }
        3 => format!("{n:08X}"),
        _ => format!("{}.{n}", r.below(16)),
    }
}

fn name(r: &mut Random, kind: usize, plants: usize, n: usize) -> Name {
    let (first, second) = match kind {
        0 => (iri(r, plants, n), String::new()),
        1 => (plain(r, n), String::new()),
        2 => {
            let (tag, label) = r.one(&LABELS);
            (format!("{label} {n}"), tag.to_string())
        }
        _ => {
            let datatype = r.below(TYPES.len());
            (TYPES[datatype].to_string(), value(r, datatype, n))
        }
    };
    Name { kind, first, second }
}

/// The names of each kind. Each has a number of its own in it, from `from` up.
fn names(seed: u64, plants: usize, from: usize) -> [Vec<Name>; 4] {
    let mut r = Random(seed);
    [0, 1, 2, 3].map(|kind| (0..COUNTS[kind]).map(|i| name(&mut r, kind, plants, from + i)).collect())
}

pub struct Input {
    pub known: [Vec<Name>; 4],
    /// Never added; of the IRIs with a line one in five has a head that is not there.
    pub missing: [Vec<Name>; 4],
    /// The order in which known names are asked for, as indexes of `known`.
    pub order: [Vec<usize>; 4],
    /// The known names in that order, one after the other in memory.
    pub asked: [Vec<Name>; 4],
}

impl Input {
    pub fn new() -> Self {
        let mut r = Random(3);
        let order = COUNTS.map(|count| {
            let mut order: Vec<usize> = (0..count).collect();
            for i in (1..count).rev() {
                order.swap(i, r.below(i + 1));
            }
            order
        });
        let known = names(1, 4, 100_000);
        let asked = [0, 1, 2, 3].map(|kind: usize| order[kind].iter().map(|i| known[kind][*i].clone()).collect());
        Input { known, missing: names(2, 5, 500_000), order, asked }
    }

    /// The mean length of a name, in bytes.
    pub fn length(&self, kind: usize) -> f64 {
        let bytes: usize = self.known[kind].iter().map(|n| n.first.len() + n.second.len()).sum();
        bytes as f64 / COUNTS[kind] as f64
    }
}
