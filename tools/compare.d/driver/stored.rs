//! Prints the stored lists: calls with the original's answers alone, for the programs `calls` and `replay`.
//! tools/expected_calls.py makes lines for `calls` of `stored.txt`. A line there is a call and its answer. A name is its kind, a space, the
//! first part, '|', the second part; in the parts `\` and a byte that is no printable ASCII character are escaped as in Rust.
//!   add NAME fresh NUMBER, add NAME known NUMBER
//!   find NAME known NUMBER, find NAME none
//!   read NUMBER name NAME, read NUMBER none
//!   count KIND NUMBER
//!   -- TEXT                    the title of a list; the dictionary has no names, and its blocks have 16 numbers
//! The lines of `replay` are told of in crates/replay/src/replay.rs.
use crate::random::Random;
use crate::theirs;

/// A call with its answer: + add, ? find, < read, # count; f fresh, k known, n a name, - none.
struct Line {
    call: char,
    kind: usize,
    word: char,
    number: u64,
    first: String,
    second: String,
}

impl Line {
    fn name(&self) -> String {
        assert!(!self.first.contains(['|', ' ']) && !self.second.contains(['|', ' ']));
        format!("{} {}|{}", self.kind, self.first.as_bytes().escape_ascii(), self.second.as_bytes().escape_ascii())
    }

    /// The line of `stored.txt`.
    fn stored(&self) -> String {
        let number = self.number;
        match (self.call, self.word) {
            ('+', 'f') => format!("add {} fresh {number}", self.name()),
            ('+', _) => format!("add {} known {number}", self.name()),
            ('?', 'k') => format!("find {} known {number}", self.name()),
            ('?', _) => format!("find {} none", self.name()),
            ('<', 'n') => format!("read {number} name {}", self.name()),
            ('<', _) => format!("read {number} none"),
            _ => format!("count {} {number}", self.kind),
        }
    }

    /// The line of `crates/replay/stdin`.
    fn replayed(&self) -> String {
        let Line { call, kind, word, number, first, second } = self;
        assert!(*number < 65_536 && !first.contains(['|', '\n']) && !second.contains(['|', '\n']));
        format!("{call}{kind}{word}{number:04x} {first}|{second}\n")
    }
}

struct List {
    dictionary: Box<dyn theirs::Dictionary>,
    lines: Vec<Line>,
}

impl List {
    fn new() -> List {
        List { dictionary: theirs::dictionary(4), lines: Vec::new() }
    }

    fn line(&mut self, call: char, kind: usize, word: char, number: u64, first: &str, second: &str) {
        self.lines.push(Line { call, kind, word, number, first: first.to_string(), second: second.to_string() });
    }

    fn add(&mut self, kind: usize, first: &str, second: &str) -> u64 {
        let (fresh, number) = self.dictionary.add(kind, first, second);
        self.line('+', kind, if fresh { 'f' } else { 'k' }, number, first, second);
        number
    }

    fn find(&mut self, kind: usize, first: &str, second: &str) {
        match self.dictionary.find(kind, first, second) {
            Some(number) => self.line('?', kind, 'k', number, first, second),
            None => self.line('?', kind, '-', 0, first, second),
        }
    }

    /// A long tag comes escaped from the original; such a name is not read here.
    fn read(&mut self, number: u64) {
        match self.dictionary.read(number) {
            Some((0, head, rest)) => self.line('<', 0, 'n', number, &(head + &rest), ""),
            Some((2, form, _)) => {
                let (text, tag) = theirs::unpack(&form).unwrap();
                if !(form.starts_with('\0') && tag.contains('\\')) {
                    self.line('<', 2, 'n', number, &text, &tag);
                }
            }
            Some((kind, first, second)) => self.line('<', kind, 'n', number, &first, &second),
            None => self.line('<', 0, '-', number, "", ""),
        }
    }

    fn counts(&mut self) {
        for kind in 0..4 {
            let count = self.dictionary.count(kind);
            self.line('#', kind, 'n', count, "", "");
        }
    }
}

/// The kinds in turns of several lengths, so that their blocks lie between one another and some are skipped; every third number read.
fn blocks() -> List {
    let mut list = List::new();
    let turns = [(0, 20), (1, 3), (3, 18), (2, 17), (0, 30), (1, 31), (3, 16), (2, 20), (1, 18), (0, 17)];
    let mut next = [0; 4];
    for (kind, many) in turns {
        for _ in 0..many {
            let n = next[kind];
            next[kind] += 1;
            let (a, b) = match kind {
                0 => (format!("p/{}#{n}", n % 5), String::new()),
                1 => (format!("{n}"), String::new()),
                2 => (format!("{n}"), format!("t{}", n % 3)),
                _ => (format!("h{}", n % 4), format!("{n}")),
            };
            list.add(kind, &a, &b);
            if n % 6 == 3 {
                list.add(kind, &a, &b);
                list.find(kind, &a, &b);
                list.find((kind + 2) % 4, &a, if kind == 0 { "t0" } else { "" });
            }
        }
    }
    list.counts();
    for number in (0..16 * 15).step_by(3) {
        list.read(number);
    }
    list
}

/// 70 heads of IRIs and 70 of typed values; names before and behind the 64th again.
fn heads() -> List {
    let mut list = List::new();
    let mut numbers = Vec::new();
    for n in 0..70 {
        let iri = list.add(0, &format!("{n}/"), "");
        let typed = list.add(3, &format!("{n}"), "v");
        if n % 8 == 0 || n > 60 {
            numbers.extend([iri, typed]);
        }
    }
    for n in [0, 1, 62, 63, 64, 65, 69] {
        for rest in ["", "x", "@", "A", "\0"] {
            numbers.push(list.add(0, &format!("{n}/{rest}"), ""));
            numbers.push(list.add(3, &format!("{n}"), rest));
            list.find(0, &format!("{n}#{rest}"), "");
            list.find(3, &format!("{n}{rest}"), "");
        }
    }
    list.counts();
    for number in numbers {
        list.read(number);
    }
    list
}

/// Tags at the border of 127 bytes, with and without what is escaped; texts that could be taken for a part of a tag.
fn tags() -> List {
    let mut list = List::new();
    let mut numbers = Vec::new();
    for (length, make) in [(1, ">"), (2, "\\"), (127, ">"), (128, "a"), (128, "\\a"), (129, "a>")] {
        let tag: String = make.chars().cycle().take(length).collect();
        list.find(2, "", &tag);
        for text in ["", ">", "\\a>"] {
            numbers.push(list.add(2, text, &tag));
        }
        list.add(2, ">", &tag);
        list.find(2, ">a", &tag);
    }
    for number in numbers {
        list.read(number);
    }
    list.counts();
    list
}

/// Random short names over few letters, so that many are known, near to one another, or of another kind.
fn mixed() -> List {
    let mut list = List::new();
    let mut random = Random(5);
    let letters = ["a", "/", "#", "\\", ">", "\u{e9}", "\u{1f600}", "\0", "\x7f"];
    for _ in 0..200 {
        let mut word = |most: usize| {
            let n = random.below(most + 1);
            (0..n).map(|_| *random.one(&letters)).collect::<String>()
        };
        let (a, b) = (word(3), word(1));
        let kind = random.below(4);
        let b = match kind {
            0 | 1 => String::new(),
            2 if b.is_empty() => "a".to_string(),
            _ => b,
        };
        match random.below(6) {
            0..=2 => {
                list.add(kind, &a, &b);
            }
            3 => list.find(kind, &a, &b),
            _ => list.read(random.below(16 * 8) as u64),
        }
    }
    list.counts();
    list
}

/// Each list with its name and its title.
fn lists() -> [(&'static str, &'static str, List); 4] {
    [
        ("blocks", "The kinds in turns, so that their blocks lie between one another and some are skipped; then every third number read.", blocks()),
        ("heads", "70 heads of IRIs and 70 of typed values; names before and behind the 64th again.", heads()),
        ("tags", "Tags at the border of 127 bytes, with what is escaped in them.", tags()),
        ("mixed", "Random short names over few letters.", mixed()),
    ]
}

/// `stored.txt`.
pub fn print() {
    for (_, title, list) in lists() {
        let mut title = title.trim_end_matches('.').to_string();
        title[..1].make_ascii_lowercase();
        println!("-- {title}");
        for line in &list.lines {
            println!("{}", line.stored());
        }
    }
}

/// The input of `replay`: each list with its title, an open before it and its name behind it.
pub fn print_replay() {
    for (name, title, list) in lists() {
        print!("-- {title}\no\n");
        for line in &list.lines {
            print!("{}", line.replayed());
        }
        println!("= {name}");
    }
}

/// What `replay` prints if no answer differs.
pub fn print_replay_stdout() {
    for (name, title, list) in lists() {
        println!("-- {title}\n{name}: {} calls, 0 differ", list.lines.len());
    }
}
