//! The leaf rules: document 01's bench cards M1 to M8, and every refusal that they give.
use namedict::{rules, Name, Refusal};

/// A long tag of `count` bytes, of which each is escaped.
fn marks(count: usize) -> Vec<u8> {
    b">\\".iter().copied().cycle().take(count).collect()
}

/// Packs into a buffer longer than any form, and checks that the bytes behind the form stay as they were.
fn packed(text: &[u8], tag: &[u8]) -> Vec<u8> {
    let mut buffer = vec![7; rules::LONGEST_FORM + 1];
    let form = rules::pack(text, tag, &mut buffer).unwrap().to_vec();
    assert!(buffer[..form.len()] == form && buffer[form.len()..].iter().all(|b| *b == 7));
    form
}

#[test]
fn text_is_utf8() {
    for text in [&b""[..], b"Ein", b"\xc3\xa4", b"\xf4\x8f\xbf\xbf"] {
        assert!(rules::is_text(text));
    }
    for other in [
        &b"\xc0\x80"[..],
        b"\xed\xa0\x80",
        b"\xf4\x90\x80\x80",
        b"a\xff",
    ] {
        assert!(!rules::is_text(other));
    }
}

#[test]
fn an_iri_splits_after_its_last_mark() {
    let split = |iri: &'static str| rules::split_iri(iri.as_bytes());
    assert_eq!(split("http://p/a#b"), (&b"http://p/a#"[..], &b"b"[..]));
    assert_eq!(split("a/"), (&b"a/"[..], &b""[..]));
    assert_eq!(split("urn:press"), (&b""[..], &b"urn:press"[..]));
    assert_eq!(split(""), (&b""[..], &b""[..]));
}

#[test]
fn frequent_ids_go_round() {
    for (value, form) in [
        (63, &b"\x3f"[..]),
        (64, b"\x40\x40"),
        (16_383, b"\x7f\xff"),
        (16_384, b"\x80\x40\x00"),
        (4_194_304, b"\xc0\x40\x00\x00"),
    ] {
        let mut buffer = [7; rules::LONGEST_FID + 1];
        assert_eq!(rules::write_fid(value, &mut buffer), Ok(form));
        assert_eq!(rules::read_fid(&buffer), Ok((value, &buffer[form.len()..])));
        assert!(buffer[form.len()..].iter().all(|b| *b == 7));
        let short = rules::write_fid(value, &mut buffer[..form.len() - 1]);
        assert_eq!(short, Err(Refusal::ShortBuffer));
        let cut = rules::read_fid(&form[..form.len() - 1]);
        assert_eq!(cut, Err(Refusal::CutForm));
    }
}

#[test]
fn a_high_number_has_no_frequent_id() {
    for value in [1 << 30, u64::MAX] {
        let high = rules::write_fid(value, &mut []);
        assert_eq!(high, Err(Refusal::HighNumber));
    }
}

#[test]
fn tagged_strings_go_round() {
    let short_tag = [b'a'; 127];
    let long_tag = [&short_tag[..], b">"].concat();
    assert_eq!(packed(b"Ein", b"de"), b"\x02deEin");
    assert_eq!(
        packed(b"", &long_tag),
        [b"\0", &short_tag[..], b"\\a>"].concat()
    );
    let escaped = marks(Name::LONGEST);
    for (text, tag) in [
        (&b"Ein"[..], &b"de"[..]),
        (b"", &short_tag),
        (b">", &long_tag),
        (b"", &escaped),
    ] {
        let form = packed(text, tag);
        let mut buffer = [7; Name::LONGEST + 1];
        assert_eq!(rules::unpack(&form, &mut buffer), Ok((text, tag)));
        assert!(buffer[text.len() + tag.len()..].iter().all(|b| *b == 7));
    }
    assert_eq!(packed(b"", &escaped).len(), rules::LONGEST_FORM);
}

#[test]
fn pack_refuses() {
    let mut buffer = [7; rules::LONGEST_FORM];
    let long = [b'x'; Name::LONGEST];
    let mut pack = |text: &[u8], tag: &[u8], len| {
        let refusal = rules::pack(text, tag, &mut buffer[..len]).err();
        assert!(buffer.iter().all(|b| *b == 7));
        refusal
    };
    assert_eq!(pack(&long, b"x", 8_002), Some(Refusal::TooLong));
    assert_eq!(pack(b"\xff", b"de", 8_002), Some(Refusal::NotText));
    assert_eq!(pack(b"Ein", b"\xff", 8_002), Some(Refusal::NotText));
    assert_eq!(pack(b"Ein", b"", 8_002), Some(Refusal::NoTag));
    assert_eq!(pack(b"Ein", b"de", 5), Some(Refusal::ShortBuffer));
}

#[test]
fn unpack_refuses() {
    let mut buffer = [7; Name::LONGEST];
    let mut unpack = |form: &[u8], len| {
        let refusal = rules::unpack(form, &mut buffer[..len]).err();
        assert!(buffer.iter().all(|b| *b == 7));
        refusal
    };
    let long = [b'x'; rules::LONGEST_FORM + 1];
    assert_eq!(unpack(&long, 4_000), Some(Refusal::TooLong));
    for cut in [
        &b""[..],
        b"\x02d",
        b"\x02de\xff",
        b"\0de>Ein",
        &long[..8_002],
    ] {
        assert_eq!(unpack(cut, 4_000), Some(Refusal::CutForm));
    }
    assert_eq!(unpack(b"\x02deEin", 4), Some(Refusal::ShortBuffer));
}
