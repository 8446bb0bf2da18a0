//! Departures that docs/DIFFERENCES.md lists, shown on both sides.
use crate::ours::{self, Sizes};
use crate::run::Total;
use crate::theirs;
use std::panic::{catch_unwind, AssertUnwindSafe};

/// None where the original stops the program.
fn stops<T>(call: impl FnOnce() -> T) -> Option<T> {
    let hook = std::panic::take_hook();
    std::panic::set_hook(Box::new(|_| {}));
    let result = catch_unwind(AssertUnwindSafe(call)).ok();
    std::panic::set_hook(hook);
    result
}

fn show(total: &mut Total, what: &str, as_listed: bool) {
    println!("departure, {}: {what}", if as_listed { "as listed" } else { "NOT as listed" });
    if !as_listed {
        total.mismatch(what.to_string());
    }
}

fn unpacked(form: &[u8]) -> (u64, Vec<u8>) {
    let mut buffer = vec![0; 4000];
    let answer = ours::unpack(form, &mut buffer);
    buffer.truncate((answer.text_len + answer.tag_len) as usize);
    (answer.refusal, buffer)
}

pub fn run(total: &mut Total) {
    forms(total);
    stopping(total);
    sizes(total);
}

fn forms(total: &mut Total) {
    let tag = "a".repeat(127) + ">";
    let form = theirs::pack("", &tag);
    let escaped = theirs::unpack(&form) == Some((String::new(), "a".repeat(127) + "\\a"));
    show(total, "a long tag is unpacked escaped; here it is the tag", escaped && unpacked(form.as_bytes()) == (0, tag.into_bytes()));
    let loose = "\0".to_string() + &"a".repeat(128) + "\\b>t";
    for form in ["\0>", "\0de>Ein", &loose] {
        let taken = theirs::unpack(form).is_some() && unpacked(form.as_bytes()).0 == 13;
        show(total, "a form that packing never makes is accepted; here 13", taken);
    }
    for form in ["", "\u{1}", "\u{3}de", "\0de"] {
        let none = theirs::unpack(form).is_none() && unpacked(form.as_bytes()).0 == 13;
        show(total, "a form of no bytes, or cut in its tag, is None; here 13", none);
    }
}

fn stopping(total: &mut Total) {
    let mut buffer = [0; 16];
    let tag = stops(|| theirs::pack("a", "")).is_none() && ours::pack(b"a", b"", &mut buffer).refusal == 7;
    show(total, "an empty tag stops the program; here 7", tag);
    let high = stops(|| theirs::pair_bytes(1 << 30, b"")).is_none() && ours::write_fid(1 << 30, &mut buffer).refusal == 12;
    show(total, "a head's number of 2^30 stops the program; here 12", high);
    let cut = stops(|| theirs::LeadReader::new(4).read(&[0x40])).is_none() && ours::read_fid(&[0x40]).refusal == 13;
    show(total, "a frequent id cut short stops the program; here 13", cut);
    let program = std::env::current_exe().expect("this program");
    let child = std::process::Command::new(program).arg("full-page").output().expect("it runs again");
    let stopped = child.status.code() == Some(101) && child.stdout == b"full\n";
    show(total, "an empty entry after an exactly full page stops the program; here it is read as empty", stopped && empty_read_back());
}

/// Run in a process of its own: the page after the full one is not there. It is ended where it stops, since the original
/// stops with its lock taken, and dropping its buffers would wait for the lock for ever.
pub fn full_page() {
    std::panic::set_hook(Box::new(|_| std::process::exit(101)));
    let mut dictionary = theirs::dictionary(24);
    for n in 0..8388 {
        dictionary.add(1, &format!("{n:04000}"), "");
    }
    dictionary.add(1, &"a".repeat((1 << 25) - 8388 * 4000), "");
    println!("full");
    dictionary.add(1, "", "");
}

fn empty_read_back() -> bool {
    let sizes = Sizes { page_width: 13, pages: 1, list: 8, width: 4, blocks: 4 };
    let mut dictionary = ours::Dictionary::open(sizes, ours::Dictionary::none());
    for (byte, length) in [(b'a', 4000), (b'b', 4000), (b'c', 192), (b'd', 0)] {
        dictionary.add(1, &vec![byte; length], b"");
    }
    let name = ours::Name { refusal: 0, word: 4, kind: 1, first_len: 0, second_len: 0 };
    dictionary.read(3, &mut [0; 8]) == name && dictionary.count(1).count == 4
}

fn sizes(total: &mut Total) {
    let sizes = Sizes { page_width: 13, pages: 1, list: 1, width: 4, blocks: 1 };
    let mut dictionary = ours::Dictionary::open(sizes, ours::Dictionary::none());
    let mut original = theirs::dictionary(4);
    let long = "a".repeat(4001);
    let taken = original.add(1, &long, "") == (true, 0) && dictionary.add(1, long.as_bytes(), b"").refusal == 5;
    show(total, "a name over 4,000 bytes is taken; here 5", taken);
    let pair = original.add(0, "a/b", "") == (true, 16) && dictionary.add(0, b"a/b", b"").refusal == 9;
    show(total, "pages grow; here 9 with one page for a head and a pair", pair && dictionary.find(0, b"a/b", b"").word == 0);
    dictionary.add(1, b"a", b"");
    let full = original.add(1, "b", "") == (true, 1) && dictionary.add(1, b"b", b"").refusal == 8;
    show(total, "lists grow; here 8 with E 1", full);
}
