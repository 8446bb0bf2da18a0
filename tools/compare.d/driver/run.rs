//! One list of calls, given to both; the answers compared call by call.
use crate::{ours, theirs};

/// What was compared, over all lists.
#[derive(Default)]
pub struct Total {
    pub lists: u64,
    pub calls: u64,
    pub fed: u64,
    pub fresh: [u64; 4],
    pub known: [u64; 4],
    pub found: [u64; 4],
    pub not_found: u64,
    pub named: [u64; 4],
    pub no_name: u64,
    pub counts: u64,
    pub refused: [u64; 14],
    pub escaped: u64,
    pub leaves: u64,
    pub mismatches: u64,
}

impl Total {
    pub fn mismatch(&mut self, text: String) {
        self.mismatches += 1;
        if self.mismatches <= 50 {
            println!("MISMATCH {text}");
        }
    }

    pub fn end(&self) -> ! {
        if self.calls > 0 {
            println!("lists of calls: {}, calls: {}, of them accepted and fed to both: {}", self.lists, self.calls, self.fed);
            println!("  by kind: fresh {:?}, known {:?}, found {:?}, read {:?}", self.fresh, self.known, self.found, self.named);
            println!("  found none {}, read none {}, counts {}", self.not_found, self.no_name, self.counts);
            println!("  refused by number, not fed: {:?}", &self.refused[1..]);
            println!("  long tags that the original gives back escaped: {}", self.escaped);
        }
        println!("leaf calls compared: {}", self.leaves);
        println!("mismatches: {}", self.mismatches);
        std::process::exit(if self.mismatches == 0 { 0 } else { 1 });
    }
}

pub struct Run<'a> {
    pub total: &'a mut Total,
    ours: ours::Dictionary,
    theirs: Box<dyn theirs::Dictionary>,
    /// A legal name that is refused counts as a mismatch.
    roomy: bool,
    label: String,
    buffer: Vec<u8>,
}

impl<'a> Run<'a> {
    pub fn new(total: &'a mut Total, sizes: ours::Sizes, roomy: bool, label: &str, memory: ours::Dictionary) -> Run<'a> {
        total.lists += 1;
        Run {
            total,
            ours: ours::Dictionary::open(sizes, memory),
            theirs: theirs::dictionary(sizes.width),
            roomy,
            label: format!("{label} {sizes:?}"),
            buffer: vec![0; 4000],
        }
    }

    /// Gives the memory back.
    pub fn end(self) -> ours::Dictionary {
        self.ours
    }

    fn refused(&mut self, why: u64, what: &str) {
        self.total.refused[why as usize] += 1;
        if self.roomy && ![4, 5, 6, 7].contains(&why) {
            self.total.mismatch(format!("{}: {what} refused {why}", self.label));
        }
    }

    fn texts<'b>(&mut self, first: &'b [u8], second: &'b [u8]) -> Option<(&'b str, &'b str)> {
        let both = std::str::from_utf8(first).ok().zip(std::str::from_utf8(second).ok());
        if both.is_none() {
            self.total.mismatch(format!("{}: no text, and accepted: {first:?} {second:?}", self.label));
        }
        both
    }

    /// The number, where one was given, and whether it was fresh.
    pub fn add(&mut self, kind: u64, first: &[u8], second: &[u8]) -> Option<(bool, u64)> {
        self.total.calls += 1;
        let answer = self.ours.add(kind, first, second);
        if answer.refusal != 0 {
            self.refused(answer.refusal, "add");
            return None;
        }
        let (a, b) = self.texts(first, second)?;
        self.total.fed += 1;
        let (fresh, number) = self.theirs.add(kind as usize, a, b);
        let per_kind = if fresh { &mut self.total.fresh } else { &mut self.total.known };
        per_kind[kind as usize] += 1;
        let right = ours::Numbered { refusal: 0, word: if fresh { 1 } else { 2 }, number };
        if answer != right {
            self.total.mismatch(format!("{}: add {kind} {a:?} {b:?}: {answer:?}, original {right:?}", self.label));
        }
        Some((fresh, number))
    }

    pub fn find(&mut self, kind: u64, first: &[u8], second: &[u8]) {
        self.total.calls += 1;
        let answer = self.ours.find(kind, first, second);
        if answer.refusal != 0 {
            self.refused(answer.refusal, "find");
            return;
        }
        let Some((a, b)) = self.texts(first, second) else { return };
        self.total.fed += 1;
        let right = match self.theirs.find(kind as usize, a, b) {
            Some(number) => {
                self.total.found[kind as usize] += 1;
                ours::Numbered { refusal: 0, word: 2, number }
            }
            None => {
                self.total.not_found += 1;
                ours::Numbered { refusal: 0, word: 0, number: 0 }
            }
        };
        if answer != right {
            self.total.mismatch(format!("{}: find {kind} {a:?} {b:?}: {answer:?}, original {right:?}", self.label));
        }
    }

    pub fn read(&mut self, number: u64) {
        self.total.calls += 1;
        let answer = self.ours.read(number, &mut self.buffer);
        if answer.refusal != 0 {
            self.refused(answer.refusal, "read");
            return;
        }
        self.total.fed += 1;
        let Some((kind, one, two)) = self.theirs.read(number) else {
            self.total.no_name += 1;
            if answer != (ours::Name { refusal: 0, word: 0, kind: 0, first_len: 0, second_len: 0 }) {
                self.total.mismatch(format!("{}: read {number}: {answer:?}, original none", self.label));
            }
            return;
        };
        self.total.named[kind] += 1;
        let (first, second) = self.parts(kind, one, two, &answer);
        let right = ours::Name {
            refusal: 0,
            word: 4,
            kind: kind as u64,
            first_len: first.len() as u64,
            second_len: second.len() as u64,
        };
        let bytes = [first.as_bytes(), second.as_bytes()].concat();
        if answer != right || self.buffer[..bytes.len()] != bytes[..] {
            self.total.mismatch(format!("{}: read {number}: {answer:?}, original {kind} {first:?} {second:?}", self.label));
        }
    }

    /// The parts that the original reads back. A long tag comes escaped there, a listed departure: then our
    /// parts, packed by the original, must be its stored form, and they are compared with themselves.
    fn parts(&mut self, kind: usize, one: String, two: String, answer: &ours::Name) -> (String, String) {
        match kind {
            0 => (one + &two, String::new()),
            1 | 3 => (one, two),
            _ => {
                let (text, tag) = theirs::unpack(&one).expect("its own form");
                if one.as_bytes()[0] != 0 || !tag.contains('\\') {
                    return (text, tag);
                }
                self.total.escaped += 1;
                let (a, b) = (answer.first_len as usize, answer.second_len as usize);
                let ours = std::str::from_utf8(&self.buffer[..a]).ok().zip(std::str::from_utf8(&self.buffer[a..a + b]).ok());
                match ours {
                    Some((t, g)) if !g.is_empty() && theirs::pack(t, g) == one && t == text => (text, g.to_string()),
                    _ => (text, tag),
                }
            }
        }
    }

    pub fn count(&mut self, kind: u64) {
        self.total.calls += 1;
        let answer = self.ours.count(kind);
        if answer.refusal != 0 {
            self.refused(answer.refusal, "count");
            return;
        }
        self.total.fed += 1;
        self.total.counts += 1;
        let right = ours::Counted { refusal: 0, count: self.theirs.count(kind as usize) };
        if answer != right {
            self.total.mismatch(format!("{}: count {kind}: {answer:?}, original {right:?}", self.label));
        }
    }
}
