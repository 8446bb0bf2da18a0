//! The exported entries, declared as `include/namedict.h` declares them, behind functions on
//! slices. All unsafe code is here.
//!
//! Why each call keeps the caller's duties: a slice's pointer is not null and its length is right;
//! a slice that is written is a `&mut`, so no other overlaps it. Slices that are only read are `&`
//! in the library too, and may share memory. A slice may hold any bytes: the library answers or
//! refuses.

use crate::{Name, Sizes};

#[repr(C)]
pub struct Numbered {
    pub refusal: u64,
    pub word: u64,
    pub number: u64,
}

#[repr(C)]
pub struct Read {
    pub refusal: u64,
    pub word: u64,
    pub kind: u64,
    pub first_len: u64,
    pub second_len: u64,
}

#[repr(C)]
pub struct Counted {
    pub refusal: u64,
    pub count: u64,
}

#[repr(C)]
pub struct Written {
    pub refusal: u64,
    pub length: u64,
}

#[repr(C)]
pub struct Value {
    pub refusal: u64,
    pub value: u64,
    pub length: u64,
}

#[repr(C)]
pub struct Unpacked {
    pub refusal: u64,
    pub text_len: u64,
    pub tag_len: u64,
}

// The values of a field `word`.
pub const NONE: u64 = 0;
pub const FRESH: u64 = 1;

#[rustfmt::skip]
extern "C" {
    fn namedict_open(
        pages: *mut u8, pages_len: usize, lists: *mut u8, lists_len: usize,
        page_width: u64, page_count: u64, list_length: u64, block_width: u64, block_count: u64,
    ) -> u64;
    fn namedict_add(
        pages: *mut u8, pages_len: usize, lists: *mut u8, lists_len: usize,
        kind: u64, first: *const u8, first_len: usize, second: *const u8, second_len: usize,
    ) -> Numbered;
    fn namedict_find(
        pages: *const u8, pages_len: usize, lists: *const u8, lists_len: usize,
        kind: u64, first: *const u8, first_len: usize, second: *const u8, second_len: usize,
    ) -> Numbered;
    fn namedict_read(
        pages: *const u8, pages_len: usize, lists: *const u8, lists_len: usize,
        number: u64, buffer: *mut u8, buffer_len: usize,
    ) -> Read;
    fn namedict_count(
        pages: *const u8, pages_len: usize, lists: *const u8, lists_len: usize, kind: u64,
    ) -> Counted;
    fn namedict_is_text(bytes: *const u8, bytes_len: usize) -> u64;
    fn namedict_split_iri(iri: *const u8, iri_len: usize) -> u64;
    fn namedict_write_fid(value: u64, buffer: *mut u8, buffer_len: usize) -> Written;
    fn namedict_read_fid(bytes: *const u8, bytes_len: usize) -> Value;
    fn namedict_pack(
        text: *const u8, text_len: usize, tag: *const u8, tag_len: usize,
        buffer: *mut u8, buffer_len: usize,
    ) -> Written;
    fn namedict_unpack(
        packed: *const u8, packed_len: usize, buffer: *mut u8, buffer_len: usize,
    ) -> Unpacked;
}

pub fn open(pages: &mut [u8], lists: &mut [u8], sizes: Sizes) -> u64 {
    unsafe {
        namedict_open(
            pages.as_mut_ptr(),
            pages.len(),
            lists.as_mut_ptr(),
            lists.len(),
            sizes.page_width,
            sizes.page_count,
            sizes.list_length,
            sizes.block_width,
            sizes.block_count,
        )
    }
}

pub fn add(pages: &mut [u8], lists: &mut [u8], name: Name) -> Numbered {
    unsafe {
        namedict_add(
            pages.as_mut_ptr(),
            pages.len(),
            lists.as_mut_ptr(),
            lists.len(),
            name.kind as u64,
            name.first.as_ptr(),
            name.first.len(),
            name.second.as_ptr(),
            name.second.len(),
        )
    }
}

pub fn find(pages: &[u8], lists: &[u8], name: Name) -> Numbered {
    unsafe {
        namedict_find(
            pages.as_ptr(),
            pages.len(),
            lists.as_ptr(),
            lists.len(),
            name.kind as u64,
            name.first.as_ptr(),
            name.first.len(),
            name.second.as_ptr(),
            name.second.len(),
        )
    }
}

pub fn read(pages: &[u8], lists: &[u8], number: u64, buffer: &mut [u8]) -> Read {
    unsafe {
        namedict_read(
            pages.as_ptr(),
            pages.len(),
            lists.as_ptr(),
            lists.len(),
            number,
            buffer.as_mut_ptr(),
            buffer.len(),
        )
    }
}

pub fn count(pages: &[u8], lists: &[u8], kind: u64) -> Counted {
    unsafe {
        namedict_count(
            pages.as_ptr(),
            pages.len(),
            lists.as_ptr(),
            lists.len(),
            kind,
        )
    }
}

pub fn is_text(bytes: &[u8]) -> u64 {
    unsafe { namedict_is_text(bytes.as_ptr(), bytes.len()) }
}

pub fn split_iri(iri: &[u8]) -> u64 {
    unsafe { namedict_split_iri(iri.as_ptr(), iri.len()) }
}

pub fn write_fid(value: u64, buffer: &mut [u8]) -> Written {
    unsafe { namedict_write_fid(value, buffer.as_mut_ptr(), buffer.len()) }
}

pub fn read_fid(bytes: &[u8]) -> Value {
    unsafe { namedict_read_fid(bytes.as_ptr(), bytes.len()) }
}

pub fn pack(text: &[u8], tag: &[u8], buffer: &mut [u8]) -> Written {
    unsafe {
        namedict_pack(
            text.as_ptr(),
            text.len(),
            tag.as_ptr(),
            tag.len(),
            buffer.as_mut_ptr(),
            buffer.len(),
        )
    }
}

pub fn unpack(packed: &[u8], buffer: &mut [u8]) -> Unpacked {
    unsafe {
        namedict_unpack(
            packed.as_ptr(),
            packed.len(),
            buffer.as_mut_ptr(),
            buffer.len(),
        )
    }
}
