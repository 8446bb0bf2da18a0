//! A child module of meta_dv_dict.rs, so that it sees the private functions.
use super::{MetaDvDictionary, NO_DICT};

pub(crate) fn local_to_global(meta: &mut MetaDvDictionary, dict: usize, local: usize) -> usize {
    meta.local_to_global(dict, local)
}

pub(crate) fn local_to_global_unchecked(meta: &MetaDvDictionary, dict: usize, local: usize) -> usize {
    meta.local_to_global_unchecked(dict, local)
}

pub(crate) fn global_to_local(meta: &MetaDvDictionary, number: usize) -> Option<(usize, usize)> {
    let (dict, local) = meta.global_to_local(number);
    if dict == NO_DICT { None } else { Some((dict, local)) }
}

/// The dictionaries of the kinds 0 to 3.
pub(crate) fn dicts(meta: &MetaDvDictionary) -> [usize; 4] {
    [meta.iri_dict, meta.string_dict, meta.langstring_dict, meta.other_dict]
}

pub(crate) fn blocksize() -> u32 {
    super::BLOCKSIZE
}
