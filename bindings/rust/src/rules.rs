//! The leaf rules, which need no dictionary: which bytes are text, where an IRI splits, how a head's
//! number (a frequent id) and a tagged string are stored.
//!
//! A form is put at the start of the caller's buffer and lent back. The rest of the buffer stays as
//! it was. If the call is refused, the whole buffer stays as it was.
//!
//! ```
//! use namedict::rules;
//!
//! let mut form = [0; rules::LONGEST_FORM];
//! let form = rules::pack(b"Ein", b"de", &mut form)?;
//! assert_eq!(form, b"\x02deEin");
//!
//! let mut parts = [0; namedict::Name::LONGEST];
//! let (text, tag) = rules::unpack(form, &mut parts)?;
//! assert_eq!((text, tag), (&b"Ein"[..], &b"de"[..]));
//! # Ok::<(), namedict::Refusal>(())
//! ```

use crate::{entries, Refusal};

/// How many bytes a frequent id has at the most.
pub const LONGEST_FID: usize = 4;

/// How many bytes a packed form has at the most.
pub const LONGEST_FORM: usize = 8_002;

/// Whether the bytes are UTF-8 by RFC 3629.
///
/// ```
/// use namedict::rules::is_text;
///
/// assert!(is_text("Pr\u{e4}gepresse".as_bytes()));
/// assert!(!is_text(b"\xc0\x80"));
/// ```
pub fn is_text(bytes: &[u8]) -> bool {
    entries::is_text(bytes) != 0
}

/// An IRI's head, up to and including its last '/' or '#', and its rest. With neither the head is
/// empty.
///
/// ```
/// use namedict::rules::split_iri;
///
/// assert_eq!(split_iri(b"http://p/a#b"), (&b"http://p/a#"[..], &b"b"[..]));
/// assert_eq!(split_iri(b"urn:press"), (&b""[..], &b"urn:press"[..]));
/// ```
pub fn split_iri(iri: &[u8]) -> (&[u8], &[u8]) {
    iri.split_at(entries::split_iri(iri) as usize)
}

/// Writes a number as a frequent id, in 1 to 4 bytes. Refusals 12, 11.
///
/// ```
/// use namedict::rules::{write_fid, LONGEST_FID};
///
/// let mut buffer = [0; LONGEST_FID];
/// assert_eq!(write_fid(63, &mut buffer)?, [0x3f]);
/// assert_eq!(write_fid(64, &mut buffer)?, [0x40, 0x40]);
/// # Ok::<(), namedict::Refusal>(())
/// ```
pub fn write_fid(value: u64, buffer: &mut [u8]) -> Result<&[u8], Refusal> {
    let answer = entries::write_fid(value, buffer);
    Refusal::check(answer.refusal)?;
    Ok(&buffer[..answer.length as usize])
}

/// The number in front of the bytes, and what follows it. Refusal 13.
///
/// ```
/// use namedict::rules::read_fid;
///
/// assert_eq!(read_fid(b"\x40\x40drive7")?, (64, &b"drive7"[..]));
/// # Ok::<(), namedict::Refusal>(())
/// ```
pub fn read_fid(bytes: &[u8]) -> Result<(u64, &[u8]), Refusal> {
    let answer = entries::read_fid(bytes);
    Refusal::check(answer.refusal)?;
    Ok((answer.value, &bytes[answer.length as usize..]))
}

/// Packs a text and its tag into one form. A buffer of [`LONGEST_FORM`] bytes is always long
/// enough. Refusals 5, 6, 7, 11.
pub fn pack<'b>(text: &[u8], tag: &[u8], buffer: &'b mut [u8]) -> Result<&'b [u8], Refusal> {
    let answer = entries::pack(text, tag, buffer);
    Refusal::check(answer.refusal)?;
    Ok(&buffer[..answer.length as usize])
}

/// The text and the tag of a packed form, one after the other at the buffer's start. A buffer of
/// [`Name::LONGEST`](crate::Name::LONGEST) bytes is always long enough. Refusals 5, 13, 11.
pub fn unpack<'b>(packed: &[u8], buffer: &'b mut [u8]) -> Result<(&'b [u8], &'b [u8]), Refusal> {
    let answer = entries::unpack(packed, buffer);
    Refusal::check(answer.refusal)?;
    let (text, rest) = buffer.split_at(answer.text_len as usize);
    Ok((text, &rest[..answer.tag_len as usize]))
}
