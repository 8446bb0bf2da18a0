//! The root of the crate that Nemo's files are compiled in. The modules not named in a stand-in's comment are Nemo's own.
#![feature(slice_swap_unchecked)]
#![allow(dead_code, unused_imports, unused_variables, unreachable_code)]

pub mod datavalues;
pub mod management {
    pub mod bytesized;
}

/// Stands in for dictionary/mod.rs.
pub mod dictionary {
    pub(crate) mod bytes_buffer;
    pub(crate) mod bytes_dictionary;
    pub(crate) mod datavalue_dictionary;
    pub(crate) mod meta_dv_dict;
    pub(crate) mod null_dv_dict;
    pub(crate) mod ranked_pair_dictionary;
    pub(crate) mod ranked_pair_dv_dict;
    pub(crate) mod ranked_pair_iri_dv_dict;
    pub(crate) mod ranked_pair_other_dv_dict;
    pub(crate) mod string_dictionary;
    pub(crate) mod string_dv_dict;
    pub(crate) mod string_langstring_dv_dict;
    pub(crate) mod tuple_dv_dict;

    pub(crate) use datavalue_dictionary::{AddResult, DvDict, KNOWN_ID_MARK, NONEXISTING_ID_MARK};
    pub(crate) use null_dv_dict::NullDvDictionary;
    pub(crate) use string_dictionary::StringDictionary;
    pub(crate) use string_dv_dict::StringDvDictionary;
}

pub mod oracle;
