//! The leaf rules, each against the original's function.
use crate::lists::{strings, text};
use crate::random::Random;
use crate::run::Total;
use crate::{ours, theirs};

pub fn run(total: &mut Total) {
    let parts: [(&str, fn(&mut Total)); 6] = [
        ("split against rfind_hashslash_plus", splits),
        ("frequent ids written, against pair_bytes", written_leads),
        ("frequent ids read, against id_to_pair", read_leads),
        ("packing against two_strings_to_one", packings),
        ("unpacking against one_string_to_two", unpackings),
        ("text against Rust's own check of a str", texts),
    ];
    for (name, part) in parts {
        let before = total.leaves;
        part(total);
        println!("{name}: {} calls", total.leaves - before);
    }
}

fn split(total: &mut Total, iri: &[u8]) {
    total.leaves += 1;
    let (a, b) = (ours::split_iri(iri), theirs::split(iri) as u64);
    if a != b {
        total.mismatch(format!("split {iri:?}: {a}, original {b}"));
    }
}

fn splits(total: &mut Total) {
    for s in strings(&["a", "/", "#", "é", "\u{22F}"], 8) {
        split(total, s.as_bytes());
    }
    let mut random = Random(11);
    for _ in 0..100_000 {
        let n = random.below(60);
        let bytes: Vec<u8> = (0..n).map(|_| if random.chance(3) { b'/' } else { random.below(256) as u8 }).collect();
        split(total, &bytes);
    }
}

fn write(total: &mut Total, value: u64) {
    total.leaves += 1;
    let mut buffer = [0xAAu8; 6];
    let answer = ours::write_fid(value, &mut buffer);
    let right = theirs::pair_bytes(value as usize, b"");
    let n = right.len();
    if answer != (ours::Written { refusal: 0, length: n as u64 }) || buffer[..n] != right[..] || buffer[n..].iter().any(|b| *b != 0xAA) {
        total.mismatch(format!("lead {value}: {answer:?} {buffer:?}, original {right:?}"));
    }
}

fn written_leads(total: &mut Total) {
    for value in 0..(1 << 22) + 1000 {
        write(total, value);
    }
    let mut random = Random(12);
    for _ in 0..1_000_000 {
        write(total, random.next() % (1 << 30));
    }
    for value in (1 << 30) - 1000..1 << 30 {
        write(total, value);
    }
}

fn read(total: &mut Total, reader: &mut theirs::LeadReader, bytes: &[u8]) {
    total.leaves += 1;
    let answer = ours::read_fid(bytes);
    if answer.refusal != 0 {
        total.mismatch(format!("lead {bytes:?}: {answer:?}"));
        return;
    }
    let (value, rest) = reader.read(bytes);
    let right = ours::Value { refusal: 0, value: value as u64, length: (bytes.len() - rest.len()) as u64 };
    if answer != right || !bytes.ends_with(&rest) {
        total.mismatch(format!("lead {bytes:?}: {answer:?}, original {right:?}"));
    }
}

/// Every value below 70,000 in every length that holds it, with nothing, one and three bytes behind.
fn read_leads(total: &mut Total) {
    let mut reader = theirs::LeadReader::new(70_000);
    for value in 0..70_000usize {
        for length in 1..=4usize {
            if value >> (8 * length - 2) == 0 {
                let mut bytes = value.to_be_bytes()[8 - length..].to_vec();
                bytes[0] |= ((length - 1) << 6) as u8;
                for more in [&b""[..], b"\xFF", b"a/b"] {
                    read(total, &mut reader, &[&bytes, more].concat());
                }
            }
        }
    }
}

fn pack(total: &mut Total, a: &str, b: &str) {
    total.leaves += 1;
    let mut buffer = vec![0xAA; 8010];
    let answer = ours::pack(a.as_bytes(), b.as_bytes(), &mut buffer);
    if answer.refusal != 0 {
        total.mismatch(format!("pack {a:?} {b:?}: {answer:?}"));
        return;
    }
    let right = theirs::pack(a, b);
    let n = right.len();
    if answer.length != n as u64 || buffer[..n] != *right.as_bytes() || buffer[n..].iter().any(|x| *x != 0xAA) {
        total.mismatch(format!("pack {a:?} {b:?}: {answer:?}, original {right:?}"));
    }
    unpack(total, right.as_bytes());
}

/// The parts of an accepted form. The original gives a long tag escaped: there our parts, packed by the original, must be the form.
fn unpack(total: &mut Total, form: &[u8]) -> bool {
    let mut buffer = vec![0xAA; 4000];
    let answer = ours::unpack(form, &mut buffer);
    if answer.refusal != 0 {
        return false;
    }
    total.leaves += 1;
    let (n, m) = (answer.text_len as usize, answer.tag_len as usize);
    let (Ok(text), Ok(tag), Ok(form)) =
        (std::str::from_utf8(&buffer[..n]), std::str::from_utf8(&buffer[n..n + m]), std::str::from_utf8(form))
    else {
        total.mismatch(format!("unpack {form:?}: no text"));
        return true;
    };
    let right = theirs::unpack(form);
    let same = match &right {
        Some((t, g)) if form.starts_with('\0') && g.contains('\\') => {
            total.escaped += 1;
            t == text && !tag.is_empty() && theirs::pack(text, tag) == form
        }
        Some((t, g)) => t == text && g == tag,
        None => false,
    };
    if !same || buffer[n + m..].iter().any(|x| *x != 0xAA) {
        total.mismatch(format!("unpack {form:?}: {text:?} {tag:?}, original {right:?}"));
    }
    true
}

/// Every text and tag of up to 5 letters together; random ones around 127 bytes of tag and 4,000 of both.
fn packings(total: &mut Total) {
    for s in strings(&["a", "\\", ">", "é", "\0", "\u{1}"], 6) {
        for (border, _) in s.char_indices() {
            pack(total, &s[..border], &s[border..]);
        }
    }
    let mut random = Random(13);
    for _ in 0..60_000 {
        let tag = *random.one(&[1, 2, 126, 127, 128, 129, 130, 200, 300, 3999, 4000]);
        let tag = text(&mut random, tag);
        let room = 4000 - tag.len();
        let n = *random.one(&[0, 1, 2, 50, room]);
        let first = text(&mut random, n.min(room));
        pack(total, std::str::from_utf8(&first).unwrap(), std::str::from_utf8(&tag).unwrap());
    }
}

/// Every form of up to 7 of some bytes, and broken long forms: those that are accepted.
fn unpackings(total: &mut Total) {
    let letters = ["a", "\\", ">", "\0", "\u{1}", "\u{2}", "\u{3}", "é"];
    let mut accepted = 0;
    let mut refused = 0;
    for s in strings(&letters, 7) {
        if unpack(total, s.as_bytes()) { accepted += 1 } else { refused += 1 }
    }
    let mut random = Random(14);
    for _ in 0..200_000 {
        let n = random.within(120, 140);
        let mut form = vec![0];
        for _ in 0..n {
            form.extend_from_slice(random.one(&["a", "a", "a", "a", "b", "\\\\", "\\a", "é"]).as_bytes());
        }
        form.push(b'>');
        form.extend_from_slice(random.one(&["", "a", ">", "\\"]).as_bytes());
        if random.chance(50) {
            let at = random.below(form.len());
            form[at] = *random.one(&[b'>', b'\\', b'a', 0]);
        }
        if unpack(total, &form) { accepted += 1 } else { refused += 1 }
    }
    println!("  forms accepted {accepted}, refused and not fed {refused}");
}

fn is_text(total: &mut Total, bytes: &[u8]) {
    total.leaves += 1;
    let (a, b) = (ours::is_text(bytes), std::str::from_utf8(bytes).is_ok() as u64);
    if a != b {
        total.mismatch(format!("text {bytes:?}: {a}, Rust {b}"));
    }
}

/// Every sequence of up to 3 bytes; of 4, those whose first byte is F0 to F8 and whose last two are at a border.
fn texts(total: &mut Total) {
    is_text(total, b"");
    for a in 0..=255u8 {
        is_text(total, &[a]);
        for b in 0..=255 {
            is_text(total, &[a, b]);
            for c in 0..=255 {
                is_text(total, &[a, b, c]);
            }
        }
    }
    let edges = [0, 0x7F, 0x80, 0x8F, 0x90, 0x9F, 0xA0, 0xBF, 0xC0, 0xFF];
    for a in 0xE0..=0xF8u8 {
        for b in 0..=255 {
            for c in edges {
                for d in edges {
                    is_text(total, &[a, b, c, d]);
                }
            }
        }
    }
    let mut random = Random(15);
    for _ in 0..100_000 {
        let n = random.below(40);
        let mut bytes = text(&mut random, n);
        if !bytes.is_empty() && random.chance(50) {
            let at = random.below(bytes.len());
            bytes[at] = random.below(256) as u8;
        }
        is_text(total, &bytes);
    }
}
