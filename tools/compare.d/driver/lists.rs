//! The lists of calls: short ones exhaustively, random ones around each boundary, large ones.
use crate::ours::{self, Sizes};
use crate::random::Random;
use crate::run::{Run, Total};

pub fn run(total: &mut Total) {
    let parts: [(&str, fn(&mut Total)); 8] = [
        ("every short name", short_names),
        ("every short list", short_lists),
        ("every order of blocks", block_orders),
        ("random lists", random_lists),
        ("many heads", many_heads),
        ("edges of pages", page_edges),
        ("lengths of tags", tag_lengths),
        ("largest lists", largest),
    ];
    for (name, part) in parts {
        let (calls, lists, fed) = (total.calls, total.lists, total.fed);
        part(total);
        println!("{name}: {} lists, {} calls, {} fed to both", total.lists - lists, total.calls - calls, total.fed - fed);
    }
}

/// Every string of up to `most` of the letters.
pub fn strings(letters: &[&str], most: usize) -> Vec<String> {
    let mut all = vec![String::new()];
    let mut last = all.clone();
    for _ in 0..most {
        last = last.iter().flat_map(|s| letters.iter().map(move |c| s.clone() + c)).collect();
        all.extend(last.clone());
    }
    all
}

const LETTERS: [&str; 7] = ["a", "/", "#", "\\", ">", "é", "\0"];

/// Every name of up to 5 letters together, of every kind and every border of its parts: not found, added, found, read, added again.
fn short_names(total: &mut Total) {
    let sizes = Sizes { page_width: 16, pages: 64, list: 131_072, width: 11, blocks: 4096 };
    let mut run = Run::new(total, sizes, true, "short names", ours::Dictionary::none());
    let all = strings(&LETTERS, 5);
    for again in [false, true] {
        for s in &all {
            let borders = s.char_indices().map(|(i, _)| i).chain([s.len()]);
            let names = [(0, s.len()), (1, s.len())].into_iter();
            let names = names.chain(borders.flat_map(|i| [(2, i), (3, i)]));
            for (kind, border) in names {
                let (a, b) = (&s.as_bytes()[..border], &s.as_bytes()[border..]);
                if !again {
                    run.find(kind, a, b);
                }
                if let Some((_, number)) = run.add(kind, a, b) {
                    run.find(kind, a, b);
                    run.read(number);
                }
            }
        }
        for kind in 0..4 {
            run.count(kind);
        }
    }
}

/// Every list of up to 5 adds out of 11; after each list every find, read and count.
fn short_lists(total: &mut Total) {
    let names: [(u64, &str, &str); 11] = [
        (0, "", ""),
        (0, "a", ""),
        (0, "a/", ""),
        (1, "", ""),
        (1, "a", ""),
        (1, "a/", ""),
        (2, "", "a"),
        (2, "a", "a"),
        (3, "", ""),
        (3, "a", ""),
        (3, "", "a"),
    ];
    let sizes = Sizes { page_width: 13, pages: 6, list: 5, width: 4, blocks: 4 };
    let mut memory = ours::Dictionary::none();
    for length in 0..=5 {
        for code in 0..11usize.pow(length) {
            let mut run = Run::new(total, sizes, true, "short lists", memory);
            let mut rest = code;
            for _ in 0..length {
                let (kind, a, b) = names[rest % 11];
                rest /= 11;
                run.add(kind, a.as_bytes(), b.as_bytes());
            }
            for (kind, a, b) in names {
                run.find(kind, a.as_bytes(), b.as_bytes());
            }
            for block in 0..5 {
                for offset in [0, 1, 2, 3, 4, 5, 15] {
                    run.read(16 * block + offset);
                }
            }
            for kind in 0..4 {
                run.count(kind);
            }
            memory = run.end();
        }
    }
}

/// Every order in which the kinds can fill up to 6 blocks of 16, and then one name more of each kind; every number read.
fn block_orders(total: &mut Total) {
    let sizes = Sizes { page_width: 13, pages: 16, list: 120, width: 4, blocks: 40 };
    let mut memory = ours::Dictionary::none();
    for length in 0..=6 {
        for code in 0..4usize.pow(length) {
            let mut run = Run::new(total, sizes, true, "block orders", memory);
            let mut rest = code;
            let mut next = 0;
            for _ in 0..length {
                for _ in 0..16 {
                    counted_name(&mut run, (rest % 4) as u64, next);
                    next += 1;
                }
                rest /= 4;
            }
            for kind in 0..4 {
                counted_name(&mut run, kind, next);
                next += 1;
            }
            for number in 0..16 * 41 {
                run.read(number);
            }
            memory = run.end();
        }
    }
}

fn counted_name(run: &mut Run, kind: u64, n: usize) {
    let second = if kind < 2 { String::new() } else { format!("{}", n % 7) };
    run.add(kind, format!("{}/{}", n % 3, n).as_bytes(), second.as_bytes());
}

const SPELLED: [&str; 16] = [
    "a", "b", "z", "/", "#", "\\", ">", "\0", "\u{7F}", "\u{80}", "\u{7FF}", "\u{800}", "\u{D7FF}", "\u{E000}", "\u{10000}",
    "\u{10FFFF}",
];

/// Text of exactly so many bytes.
pub fn text(random: &mut Random, length: usize) -> Vec<u8> {
    let mut bytes = Vec::new();
    let plain = random.chance(50);
    while bytes.len() < length {
        let c = if plain { "a" } else { random.one(&SPELLED) };
        if c.len() <= length - bytes.len() {
            bytes.extend_from_slice(c.as_bytes());
        }
        if plain && bytes.len() + 8 < length && random.chance(10) {
            bytes.extend_from_slice(format!("{}", random.below(1000)).as_bytes());
        }
    }
    bytes
}

type Name = (u64, Vec<u8>, Vec<u8>);

fn length(random: &mut Random) -> usize {
    match random.below(10) {
        0 | 1 => random.below(3),
        2 | 3 | 4 => random.within(2, 30),
        5 => random.within(60, 68),
        6 => random.within(124, 132),
        7 => random.within(253, 258),
        8 => random.within(300, 1500),
        _ => random.within(3990, 4001),
    }
}

fn new_name(random: &mut Random) -> Name {
    let kind = random.below(4) as u64;
    match kind {
        0 if random.chance(60) => {
            let head = format!("http://p/{}#", random.below(90));
            let short = random.below(4);
            (0, [head.as_bytes(), &text(random, short)].concat(), Vec::new())
        }
        0 | 1 => {
            let n = length(random);
            (kind, text(random, n), Vec::new())
        }
        2 => {
            let tag = *random.one(&[1, 2, 5, 126, 127, 128, 129, 200, 0]);
            let n = length(random);
            let n = if n > 3000 { n - tag } else { n };
            (kind, text(random, n), text(random, tag))
        }
        _ if random.chance(60) => {
            let head = format!("{}", random.below(90)).into_bytes();
            let short = random.below(4);
            (kind, head, text(random, short))
        }
        _ => {
            let n = length(random);
            let border = random.below(n + 1);
            (kind, text(random, border), text(random, n - border))
        }
    }
}

/// A name near to one that was used: its kind, the border of its parts or a byte is another.
fn near(random: &mut Random, name: &Name) -> Name {
    let (mut kind, mut a, mut b) = name.clone();
    match random.below(5) {
        0 => kind = random.below(5) as u64,
        1 if kind > 1 && !a.is_empty() => b.insert(0, a.pop().unwrap()),
        2 if kind > 1 && !b.is_empty() => a.push(b.remove(0)),
        3 if !a.is_empty() => {
            a.pop();
        }
        _ if !a.is_empty() => {
            let at = random.below(a.len());
            a[at] = random.below(256) as u8;
        }
        _ => a.push(b'b'),
    }
    (kind, a, b)
}

fn random_sizes(random: &mut Random) -> Sizes {
    Sizes {
        page_width: *random.one(&[13, 13, 13, 14, 15, 16, 20]),
        pages: *random.one(&[1, 2, 3, 5, 6, 7, 8, 12, 40, 200]),
        list: *random.one(&[1, 2, 3, 17, 33, 63, 64, 65, 66, 100, 400, 1000]),
        width: *random.one(&[4, 4, 4, 4, 5, 6, 7, 8, 9, 10, 11, 12, 13, 14, 15, 16, 17, 18, 19, 20, 21, 22, 23, 24]),
        blocks: *random.one(&[1, 2, 3, 4, 5, 6, 7, 8, 20, 64, 300, 4096]),
    }
}

fn random_lists(total: &mut Total) {
    let mut random = Random(1);
    let mut memory = ours::Dictionary::none();
    for _ in 0..3000 {
        let sizes = random_sizes(&mut random);
        let mut run = Run::new(total, sizes, false, "random", memory);
        let calls = random.within(200, 1500);
        random_calls(&mut run, &mut random, sizes, calls);
        memory = run.end();
    }
}

fn random_calls(run: &mut Run, random: &mut Random, sizes: Sizes, calls: usize) {
    let mut names: Vec<Name> = Vec::new();
    let mut numbers: Vec<u64> = vec![0];
    for _ in 0..calls {
        let old = !names.is_empty() && random.chance(45);
        let mut name = if old { random.one(&names).clone() } else { new_name(random) };
        if random.chance(15) {
            name = near(random, &name);
        }
        let (kind, a, b) = &name;
        match random.below(10) {
            0..=4 => {
                if let Some((_, number)) = run.add(*kind, a, b) {
                    numbers.push(number);
                }
                names.push(name);
            }
            5 | 6 => run.find(*kind, a, b),
            7 | 8 => {
                let number = some_number(random, &numbers, sizes);
                run.read(number);
            }
            _ => run.count(random.below(5) as u64),
        }
    }
    for number in numbers {
        run.read(number);
    }
    for (kind, a, b) in names {
        run.find(kind, &a, &b);
    }
}

fn some_number(random: &mut Random, numbers: &[u64], sizes: Sizes) -> u64 {
    let known = *random.one(numbers);
    let block = 1u64 << sizes.width;
    match random.below(9) {
        0..=3 => known,
        4 => known + 1,
        5 => known.wrapping_sub(1),
        6 => known + block,
        7 => (sizes.blocks * block).wrapping_add(random.below(3) as u64).wrapping_sub(1),
        _ => random.next() >> random.below(64),
    }
}

/// Past 64 and past 16,384 heads, of both kinds of pairs; names before and behind each border again and again.
fn many_heads(total: &mut Total) {
    let sizes = Sizes { page_width: 20, pages: 16, list: 40_000, width: 9, blocks: 4096 };
    let mut memory = ours::Dictionary::none();
    for order in 0..3 {
        let mut run = Run::new(total, sizes, true, "many heads", memory);
        for n in 0..16_500usize {
            let n = if order == 1 { 16_499 - n } else { n };
            for kind in [0, 3] {
                head_name(&mut run, kind, n, "x");
            }
        }
        let mut random = Random(7 + order);
        for _ in 0..40_000 {
            let near = *random.one(&[62, 16_382, 16_490]);
            let n = if random.chance(50) { near + random.below(5) } else { random.below(16_600) };
            let kind = *random.one(&[0, 3]);
            let rest = *random.one(&["", "x", "y", "@", "\0"]);
            head_name(&mut run, kind, n, rest);
        }
        memory = run.end();
    }
}

fn head_name(run: &mut Run, kind: u64, n: usize, rest: &str) {
    let head = if kind == 0 { format!("{n}/") } else { format!("{n}") };
    let (a, b) = if kind == 0 { (head + rest, String::new()) } else { (head, rest.to_string()) };
    run.find(kind, a.as_bytes(), b.as_bytes());
    if let Some((_, number)) = run.add(kind, a.as_bytes(), b.as_bytes()) {
        run.read(number);
    }
}

/// Pages of 8,192 bytes filled to one byte less, exactly, and one byte more than is left; empty names after each.
fn page_edges(total: &mut Total) {
    let mut random = Random(3);
    let mut memory = ours::Dictionary::none();
    for _ in 0..600 {
        let pages = random.within(1, 14) as u64;
        let sizes = Sizes { page_width: 13, pages, list: 200, width: 4, blocks: 100 };
        let mut run = Run::new(total, sizes, false, "page edges", memory);
        let mut used = [0usize; 4];
        let mut numbers = Vec::new();
        for n in 0..random.within(20, 60) {
            let kind = random.below(4);
            // What is stored besides the text: a lead of one byte, or a tag and its length.
            let more = [1, 0, 3, 1][kind];
            let left = 8192 - used[kind] % 8193;
            let wanted = match random.below(6) {
                0 => left,
                1 => left + 1,
                2 => left.saturating_sub(1),
                3 => more,
                _ => random.within(1, 3999),
            };
            let length = wanted.clamp(more, 3995 + more) - more;
            let mut bytes = vec![b'a' + (n % 26) as u8; length];
            if length > 3 && random.chance(50) {
                bytes[..2].copy_from_slice(format!("{:02}", n).as_bytes());
            }
            let second: &[u8] = if kind == 2 { b"de" } else { b"" };
            let (a, b): (&[u8], &[u8]) = if kind == 3 { (b"", &bytes) } else { (&bytes, second) };
            if let Some((fresh, number)) = run.add(kind as u64, a, b) {
                if fresh {
                    let stored = length + more;
                    used[kind] = if used[kind] + stored > 8192 { stored } else { used[kind] + stored };
                }
                numbers.push(number);
            }
            run.find(kind as u64, a, b);
        }
        for number in numbers {
            run.read(number);
        }
        memory = run.end();
    }
}

/// Tags of 1 to 300 bytes of every make, with texts that could be taken for a part of the tag.
fn tag_lengths(total: &mut Total) {
    let sizes = Sizes { page_width: 16, pages: 400, list: 40_000, width: 12, blocks: 200 };
    let mut run = Run::new(total, sizes, true, "tag lengths", ours::Dictionary::none());
    let makes = ["a", "\\", ">", "\\a", "\\\\", ">\\", "é", "\0", "a>"];
    for length in 1..=300 {
        for make in makes {
            let tag: Vec<u8> = make.bytes().cycle().take(length).collect();
            if std::str::from_utf8(&tag).is_err() {
                continue;
            }
            for other in ["", "a", ">", "\\", ">a", "a>", "\\a>", "\0", "é"] {
                run.find(2, other.as_bytes(), &tag);
                if let Some((_, number)) = run.add(2, other.as_bytes(), &tag) {
                    run.find(2, other.as_bytes(), &tag);
                    run.read(number);
                }
            }
        }
    }
}

/// As many names as a list can hold, in blocks of 2^16 to 2^19, and one block from each other kind.
fn largest(total: &mut Total) {
    let mut memory = ours::Dictionary::none();
    for (kind, width) in [(1, 19), (0, 18), (3, 17), (2, 16)] {
        let sizes = Sizes { page_width: 20, pages: 64, list: 1_048_576, width, blocks: 256 };
        let mut run = Run::new(total, sizes, false, "largest", memory);
        for n in 0..1_048_578usize {
            let (a, b) = large_name(kind, n);
            if let Some((_, number)) = run.add(kind, &a, &b) {
                if n % 8 == 0 || n + 3 > 1_048_576 {
                    run.read(number);
                    run.find(kind, &a, &b);
                }
            }
            if n % (1 << 18) == 7 {
                for other in 0..4 {
                    let (a, b) = large_name(other, n + 2_000_000);
                    run.add(other, &a, &b);
                }
            }
        }
        for other in 0..4 {
            run.count(other);
        }
        memory = run.end();
    }
}

fn large_name(kind: u64, n: usize) -> (Vec<u8>, Vec<u8>) {
    match kind {
        0 => (format!("h{}/{}", n % 20_000, n / 20_000).into_bytes(), Vec::new()),
        1 => (format!("{n}").into_bytes(), Vec::new()),
        2 => (format!("{}", n / 50).into_bytes(), format!("t{}", n % 50).into_bytes()),
        _ => (format!("{n}").into_bytes(), b"v".to_vec()),
    }
}
