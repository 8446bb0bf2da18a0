/// The four kinds of names.
#[derive(Clone, Copy, Debug, PartialEq, Eq, Hash, PartialOrd, Ord)]
#[repr(u64)]
pub enum Kind {
    /// An IRI.
    Iri = 0,
    /// A plain string.
    Plain = 1,
    /// A text and its tag.
    Tagged = 2,
    /// A typed value: a head and a rest, as the caller gives them.
    Typed = 3,
}

impl Kind {
    /// All kinds, by their numbers.
    pub const ALL: [Kind; 4] = [Kind::Iri, Kind::Plain, Kind::Tagged, Kind::Typed];

    pub(crate) fn of(number: u64) -> Kind {
        Kind::ALL[number as usize]
    }
}

/// A name: a kind and two parts. Two names are equal when all three agree, byte for byte.
///
/// Any bytes may be given; the dictionary refuses those that are no name.
#[derive(Clone, Copy, Debug, PartialEq, Eq, Hash)]
pub struct Name<'a> {
    /// The kind.
    pub kind: Kind,
    /// The IRI, the string, the text or the head.
    pub first: &'a [u8],
    /// The tag or the rest; empty for an IRI and for a plain string.
    pub second: &'a [u8],
}

impl<'a> Name<'a> {
    /// How many bytes the parts of a name have at the most, together.
    pub const LONGEST: usize = 4_000;

    /// An IRI.
    pub fn iri<B: AsRef<[u8]> + ?Sized>(iri: &'a B) -> Self {
        Name {
            kind: Kind::Iri,
            first: iri.as_ref(),
            second: &[],
        }
    }

    /// A plain string.
    pub fn plain<B: AsRef<[u8]> + ?Sized>(string: &'a B) -> Self {
        Name {
            kind: Kind::Plain,
            first: string.as_ref(),
            second: &[],
        }
    }

    /// A tagged string.
    pub fn tagged<A: AsRef<[u8]> + ?Sized, B: AsRef<[u8]> + ?Sized>(
        text: &'a A,
        tag: &'a B,
    ) -> Self {
        Name {
            kind: Kind::Tagged,
            first: text.as_ref(),
            second: tag.as_ref(),
        }
    }

    /// A typed value.
    pub fn typed<A: AsRef<[u8]> + ?Sized, B: AsRef<[u8]> + ?Sized>(
        head: &'a A,
        rest: &'a B,
    ) -> Self {
        Name {
            kind: Kind::Typed,
            first: head.as_ref(),
            second: rest.as_ref(),
        }
    }
}
