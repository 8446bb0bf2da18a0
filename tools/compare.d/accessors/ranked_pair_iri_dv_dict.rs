//! A child module of ranked_pair_iri_dv_dict.rs, so that it sees the private function.
pub(crate) fn rfind_hashslash_plus(s: &[u8]) -> usize {
    super::IriDvPairConverter::rfind_hashslash_plus(s)
}
