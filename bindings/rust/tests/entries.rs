//! Every refusal that a dictionary of this crate can give, all kinds of names, and dictionaries in
//! memory that is owned, lent, copied or no dictionary's.
use namedict::{Added, Dictionary, Kind, Name, Refusal, Sizes};

const SIZES: Sizes = sizes(13, 6, 100, 4, 8);

const fn sizes(
    page_width: u64,
    page_count: u64,
    list_length: u64,
    block_width: u64,
    block_count: u64,
) -> Sizes {
    Sizes {
        page_width,
        page_count,
        list_length,
        block_width,
        block_count,
    }
}

const fn name<'a>(kind: Kind, first: &'a str, second: &'a str) -> Name<'a> {
    Name {
        kind,
        first: first.as_bytes(),
        second: second.as_bytes(),
    }
}

/// Names of all kinds, with empty parts and letters beyond ASCII among them.
const NAMES: [Name; 6] = [
    name(Kind::Iri, "http://plant/press#drive7", ""),
    name(Kind::Iri, "", ""),
    name(Kind::Plain, "drive7", ""),
    name(Kind::Tagged, "Pr\u{e4}gepresse", "de"),
    name(Kind::Typed, "urn:unit:mbit", "100"),
    name(Kind::Typed, "", ""),
];

fn opened(sizes: Sizes) -> Dictionary {
    Dictionary::new(sizes).unwrap()
}

fn filled() -> Dictionary {
    let mut dictionary = opened(SIZES);
    for name in NAMES {
        assert!(matches!(dictionary.add(name), Ok(Added::Fresh(_))));
    }
    dictionary
}

/// Add refuses the name and leaves the memory as it was.
fn add_refused(dictionary: &mut Dictionary, name: Name, why: Refusal) {
    let before = dictionary.clone();
    assert_eq!(dictionary.add(name), Err(why));
    assert!(dictionary.pages() == before.pages() && dictionary.lists() == before.lists());
}

/// Find and add both refuse the name.
fn name_refused(name: Name, why: Refusal) {
    let mut dictionary = filled();
    assert_eq!(dictionary.find(name), Err(why));
    add_refused(&mut dictionary, name, why);
}

#[test]
fn names_of_all_kinds_are_read_back() {
    let mut dictionary = filled();
    let mut buffer = [0; Name::LONGEST];
    for name in NAMES {
        let number = dictionary.find(name).unwrap().unwrap();
        assert_eq!(dictionary.add(name), Ok(Added::Known(number)));
        assert_eq!(dictionary.read(number, &mut buffer), Ok(Some(name)));
    }
    let counts = Kind::ALL.map(|kind| dictionary.count(kind).unwrap());
    assert_eq!(counts, [2, 1, 1, 2]);
}

#[test]
fn names_are_equal_by_kind_and_parts() {
    let mut dictionary = filled();
    for other in [
        Name::plain("http://plant/press#drive7"),
        Name::tagged("drive7", "de"),
        Name::typed("urn:unit:mbit1", "00"),
    ] {
        assert_eq!(dictionary.find(other), Ok(None));
        assert!(matches!(dictionary.add(other), Ok(Added::Fresh(_))));
    }
}

#[test]
fn numbers_come_in_blocks() {
    let iris: Vec<String> = (0..65).map(|n| format!("http://p/{n}")).collect();
    let mut dictionary = opened(SIZES);
    let mut number = |iri| dictionary.add(Name::iri(iri)).unwrap().number();
    let numbers: Vec<u64> = iris.iter().map(&mut number).collect();
    assert_eq!(
        [0, 16, 32, 48, 64].map(|n| numbers[n]),
        [0, 16, 32, 64, 112]
    );
    assert_eq!(dictionary.add(Name::plain("Ein")), Ok(Added::Fresh(48)));
}

#[test]
fn a_number_that_no_name_got_reads_as_none() {
    let dictionary = filled();
    for number in [2, 127, 128, u64::MAX] {
        assert_eq!(dictionary.read(number, &mut [0; 100]), Ok(None));
    }
}

#[test]
fn refusal_1_bad_size() {
    for bad in [
        sizes(12, 6, 100, 4, 8),
        sizes(21, 6, 100, 4, 8),
        sizes(u64::MAX, 6, 100, 4, 8),
        sizes(13, 0, 100, 4, 8),
        sizes(13, 1_025, 100, 4, 8),
        sizes(13, 6, 0, 4, 8),
        sizes(13, 6, 1_048_577, 4, 8),
        sizes(13, 6, 100, 3, 8),
        sizes(13, 6, 100, 25, 8),
        sizes(13, 6, 100, 4, 0),
        sizes(13, 6, 100, 4, 4_097),
    ] {
        assert_eq!(bad.bytes(), Err(Refusal::BadSize));
        assert_eq!(Dictionary::new(bad).err(), Some(Refusal::BadSize));
    }
}

#[test]
fn refusal_2_short_memory() {
    let (pages, lists) = SIZES.bytes().unwrap();
    assert_eq!((pages, lists), (6 << 13, 8 * (64 + 6 + 18 * 100 + 5 * 8)));
    let open = |pages, lists| Dictionary::open(vec![0; pages], vec![0; lists], SIZES).err();
    assert_eq!(open(pages - 1, lists), Some(Refusal::ShortMemory));
    assert_eq!(open(pages, lists - 1), Some(Refusal::ShortMemory));
    assert_eq!(open(pages, lists), None);
}

#[test]
fn refusal_3_memory_that_is_no_dictionarys() {
    let whole = filled();
    let (pages, lists) = (whole.pages(), whole.lists());
    let unopened = |pages: &[u8], lists: &[u8]| {
        let dictionary = Dictionary::over(pages, lists);
        assert_eq!(dictionary.find(NAMES[0]), Err(Refusal::Unopened));
        assert_eq!(dictionary.read(0, &mut [0; 100]), Err(Refusal::Unopened));
        assert_eq!(dictionary.count(Kind::Iri), Err(Refusal::Unopened));
        let mut copy = Dictionary::over(pages.to_vec(), lists.to_vec());
        add_refused(&mut copy, NAMES[0], Refusal::Unopened);
    };
    unopened(&[], &[]);
    unopened(pages, &vec![0; lists.len()]);
    unopened(pages, &vec![0xff; lists.len()]);
    unopened(pages, &lists[..511]);
    unopened(pages, &lists[..lists.len() - 1]);
    unopened(&pages[..pages.len() - 1], lists);
}

#[test]
fn a_changed_dictionary_is_answered_or_refused() {
    let whole = filled();
    let mut buffer = [0; Name::LONGEST];
    for place in 0..whole.lists().len() {
        let mut lists = whole.lists().to_vec();
        lists[place] ^= 0x81;
        let mut changed = Dictionary::over(whole.pages().to_vec(), lists);
        for name in NAMES {
            let _ = changed.find(name);
        }
        for number in 0..128 {
            let _ = changed.read(number, &mut buffer);
        }
        for kind in Kind::ALL {
            let _ = changed.count(kind);
        }
        if let Err(why) = changed.clone().add(Name::iri("urn:new")) {
            add_refused(&mut changed, Name::iri("urn:new"), why);
        }
    }
}

#[test]
fn refusals_4_to_7_of_a_name() {
    let long = "x".repeat(Name::LONGEST);
    name_refused(name(Kind::Iri, "Ein", "de"), Refusal::BadKind);
    name_refused(name(Kind::Plain, "Ein", "de"), Refusal::BadKind);
    name_refused(Name::plain(&format!("{long}x")), Refusal::TooLong);
    name_refused(Name::tagged(&long, "x"), Refusal::TooLong);
    name_refused(Name::iri(b"\xc0\x80"), Refusal::NotText);
    name_refused(Name::tagged("Ein", b"\xed\xa0\x80"), Refusal::NotText);
    name_refused(Name::typed("urn:unit", b"\xff"), Refusal::NotText);
    name_refused(Name::tagged("Ein", ""), Refusal::NoTag);

    let mut dictionary = filled();
    let number = dictionary.add(Name::plain(&long)).unwrap().number();
    let mut buffer = [0; Name::LONGEST];
    assert_eq!(
        dictionary.read(number, &mut buffer),
        Ok(Some(Name::plain(&long)))
    );
}

#[test]
fn refusal_8_list_full() {
    let mut dictionary = opened(sizes(13, 6, 1, 4, 8));
    dictionary.add(Name::plain("a")).unwrap();
    add_refused(&mut dictionary, Name::plain("b"), Refusal::ListFull);
    assert_eq!(dictionary.add(Name::plain("a")), Ok(Added::Known(0)));
}

#[test]
fn refusal_9_no_page() {
    let mut dictionary = opened(sizes(13, 1, 100, 4, 8));
    // Head and rest need a page each.
    add_refused(&mut dictionary, Name::iri("a/b"), Refusal::NoPage);
    dictionary.add(Name::plain("a")).unwrap();
    add_refused(&mut dictionary, Name::tagged("a", "de"), Refusal::NoPage);
}

#[test]
fn refusal_10_no_block() {
    let mut dictionary = opened(sizes(13, 6, 100, 4, 1));
    let strings: Vec<String> = (0..17).map(|n| n.to_string()).collect();
    for string in &strings[..16] {
        dictionary.add(Name::plain(string)).unwrap();
    }
    add_refused(&mut dictionary, Name::plain(&strings[16]), Refusal::NoBlock);
    add_refused(&mut dictionary, Name::iri("a/b"), Refusal::NoBlock);
}

#[test]
fn refusal_10_with_lower_blocks_free() {
    // The 65th IRI would take block 7; blocks 3, 5 and 6 are free.
    let mut dictionary = opened(sizes(13, 6, 100, 4, 7));
    let iris: Vec<String> = (0..65).map(|n| format!("http://p/{n}")).collect();
    for iri in &iris[..64] {
        dictionary.add(Name::iri(iri)).unwrap();
    }
    add_refused(&mut dictionary, Name::iri(&iris[64]), Refusal::NoBlock);
    assert_eq!(dictionary.add(Name::plain("Ein")), Ok(Added::Fresh(48)));
}

#[test]
fn refusal_11_short_buffer() {
    let dictionary = filled();
    let number = dictionary.find(NAMES[3]).unwrap().unwrap();
    let length = NAMES[3].first.len() + NAMES[3].second.len();
    let mut buffer = vec![7; length + 1];
    let short = dictionary.read(number, &mut buffer[..length - 1]);
    assert_eq!(short, Err(Refusal::ShortBuffer));
    assert_eq!(buffer, vec![7; length + 1]);
    assert_eq!(dictionary.read(number, &mut buffer), Ok(Some(NAMES[3])));
    assert_eq!(buffer[length], 7);
}

#[test]
fn a_copy_goes_on_by_itself() {
    let mut old = filled();
    let (mut pages, mut lists) = (old.pages().to_vec(), old.lists().to_vec());
    pages.resize(pages.len() + 5, 7);
    lists.resize(lists.len() + 5, 7);
    let mut copy = Dictionary::over(&mut pages[..], &mut lists[..]);
    let fresh = copy.add(Name::plain("new")).unwrap();
    assert!(matches!(fresh, Added::Fresh(_)));
    for name in NAMES {
        assert_eq!(copy.find(name), old.find(name));
    }
    assert_eq!(old.find(Name::plain("new")), Ok(None));
    assert_eq!(old.add(Name::plain("new")), Ok(fresh));
    assert!(pages.ends_with(&[7; 5]) && lists.ends_with(&[7; 5]));
}

#[test]
fn memory_may_be_lent() {
    let (mut pages, mut lists) = ([0; 6 << 13], [0; 8 * (64 + 6 + 18 * 100 + 5 * 8)]);
    let mut dictionary = Dictionary::open(&mut pages[..], &mut lists[..], SIZES).unwrap();
    assert_eq!(dictionary.add(NAMES[0]), Ok(Added::Fresh(0)));
    let reader = Dictionary::over(&pages[..], &lists[..]);
    assert_eq!(reader.find(NAMES[0]), Ok(Some(0)));
}

#[test]
fn refusals_say_their_words() {
    assert_eq!(Refusal::BadSize.to_string(), "bad size");
    assert_eq!(Refusal::NoBlock.to_string(), "no block");
    assert_eq!(Refusal::CutForm.to_string(), "cut form");
}
