//! The exported entries of libnamedict.a.
#[repr(C)]
#[derive(Debug, Clone, Copy, PartialEq)]
pub struct Numbered {
    pub refusal: u64,
    pub word: u64,
    pub number: u64,
}

#[repr(C)]
#[derive(Debug, Clone, Copy, PartialEq)]
pub struct Name {
    pub refusal: u64,
    pub word: u64,
    pub kind: u64,
    pub first_len: u64,
    pub second_len: u64,
}

#[repr(C)]
#[derive(Debug, Clone, Copy, PartialEq)]
pub struct Counted {
    pub refusal: u64,
    pub count: u64,
}

#[repr(C)]
#[derive(Debug, Clone, Copy, PartialEq)]
pub struct Written {
    pub refusal: u64,
    pub length: u64,
}

#[repr(C)]
#[derive(Debug, Clone, Copy, PartialEq)]
pub struct Value {
    pub refusal: u64,
    pub value: u64,
    pub length: u64,
}

#[repr(C)]
#[derive(Debug, Clone, Copy, PartialEq)]
pub struct Unpacked {
    pub refusal: u64,
    pub text_len: u64,
    pub tag_len: u64,
}

#[rustfmt::skip]
unsafe extern "C" {
    fn namedict_open(pages: *mut u8, pages_len: usize, lists: *mut u8, lists_len: usize, page_width: u64, page_count: u64,
                     list_length: u64, block_width: u64, block_count: u64) -> u64;
    fn namedict_add(pages: *mut u8, pages_len: usize, lists: *mut u8, lists_len: usize, kind: u64,
                    first: *const u8, first_len: usize, second: *const u8, second_len: usize) -> Numbered;
    fn namedict_find(pages: *const u8, pages_len: usize, lists: *const u8, lists_len: usize, kind: u64,
                     first: *const u8, first_len: usize, second: *const u8, second_len: usize) -> Numbered;
    fn namedict_read(pages: *const u8, pages_len: usize, lists: *const u8, lists_len: usize, number: u64,
                     buffer: *mut u8, buffer_len: usize) -> Name;
    fn namedict_count(pages: *const u8, pages_len: usize, lists: *const u8, lists_len: usize, kind: u64) -> Counted;
    fn namedict_is_text(bytes: *const u8, len: usize) -> u64;
    fn namedict_split_iri(iri: *const u8, len: usize) -> u64;
    fn namedict_write_fid(value: u64, buffer: *mut u8, len: usize) -> Written;
    fn namedict_read_fid(bytes: *const u8, len: usize) -> Value;
    fn namedict_pack(text: *const u8, text_len: usize, tag: *const u8, tag_len: usize, buffer: *mut u8, len: usize) -> Written;
    fn namedict_unpack(packed: *const u8, packed_len: usize, buffer: *mut u8, len: usize) -> Unpacked;
}

#[derive(Debug, Clone, Copy)]
pub struct Sizes {
    pub page_width: u64,
    pub pages: u64,
    pub list: u64,
    pub width: u64,
    pub blocks: u64,
}

pub struct Dictionary {
    pages: Vec<u8>,
    lists: Vec<u8>,
}

impl Dictionary {
    /// A dictionary in memory that was lent before; grows it where needed.
    pub fn open(sizes: Sizes, mut old: Dictionary) -> Dictionary {
        let pages = (sizes.pages as usize) << sizes.page_width;
        let lists = 8 * (64 + sizes.pages + 18 * sizes.list + 5 * sizes.blocks) as usize;
        old.pages.resize(pages, 0xA5);
        old.lists.resize(lists, 0xA5);
        let answer = unsafe {
            namedict_open(
                old.pages.as_mut_ptr(),
                old.pages.len(),
                old.lists.as_mut_ptr(),
                old.lists.len(),
                sizes.page_width,
                sizes.pages,
                sizes.list,
                sizes.width,
                sizes.blocks,
            )
        };
        assert_eq!(answer, 0, "open {sizes:?}");
        old
    }

    pub fn none() -> Dictionary {
        Dictionary { pages: Vec::new(), lists: Vec::new() }
    }

    pub fn add(&mut self, kind: u64, first: &[u8], second: &[u8]) -> Numbered {
        unsafe {
            namedict_add(
                self.pages.as_mut_ptr(),
                self.pages.len(),
                self.lists.as_mut_ptr(),
                self.lists.len(),
                kind,
                first.as_ptr(),
                first.len(),
                second.as_ptr(),
                second.len(),
            )
        }
    }

    pub fn find(&self, kind: u64, first: &[u8], second: &[u8]) -> Numbered {
        unsafe {
            namedict_find(
                self.pages.as_ptr(),
                self.pages.len(),
                self.lists.as_ptr(),
                self.lists.len(),
                kind,
                first.as_ptr(),
                first.len(),
                second.as_ptr(),
                second.len(),
            )
        }
    }

    pub fn read(&self, number: u64, buffer: &mut [u8]) -> Name {
        unsafe {
            namedict_read(
                self.pages.as_ptr(),
                self.pages.len(),
                self.lists.as_ptr(),
                self.lists.len(),
                number,
                buffer.as_mut_ptr(),
                buffer.len(),
            )
        }
    }

    pub fn count(&self, kind: u64) -> Counted {
        unsafe {
            namedict_count(self.pages.as_ptr(), self.pages.len(), self.lists.as_ptr(), self.lists.len(), kind)
        }
    }
}

pub fn is_text(bytes: &[u8]) -> u64 {
    unsafe { namedict_is_text(bytes.as_ptr(), bytes.len()) }
}

pub fn split_iri(iri: &[u8]) -> u64 {
    unsafe { namedict_split_iri(iri.as_ptr(), iri.len()) }
}

pub fn write_fid(value: u64, buffer: &mut [u8]) -> Written {
    unsafe { namedict_write_fid(value, buffer.as_mut_ptr(), buffer.len()) }
}

pub fn read_fid(bytes: &[u8]) -> Value {
    unsafe { namedict_read_fid(bytes.as_ptr(), bytes.len()) }
}

pub fn pack(text: &[u8], tag: &[u8], buffer: &mut [u8]) -> Written {
    unsafe {
        namedict_pack(text.as_ptr(), text.len(), tag.as_ptr(), tag.len(), buffer.as_mut_ptr(), buffer.len())
    }
}

pub fn unpack(packed: &[u8], buffer: &mut [u8]) -> Unpacked {
    unsafe { namedict_unpack(packed.as_ptr(), packed.len(), buffer.as_mut_ptr(), buffer.len()) }
}
