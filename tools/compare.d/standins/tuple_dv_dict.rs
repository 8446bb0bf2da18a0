//! Stands in for dictionary/tuple_dv_dict.rs. It is made by MetaDvDictionary and never called.
use super::{AddResult, DvDict};
use crate::datavalues::AnyDataValue;
use crate::management::bytesized::ByteSized;

#[derive(Debug)]
pub(crate) struct TupleDvDict;

impl TupleDvDict {
    pub(crate) fn new() -> Self {
        TupleDvDict
    }
}

impl ByteSized for TupleDvDict {
    fn size_bytes(&self) -> u64 {
        unreachable!("no tuples")
    }
}

impl DvDict for TupleDvDict {
    fn add_datavalue(&mut self, dv: AnyDataValue) -> AddResult {
        match dv {}
    }
    fn fresh_null(&mut self) -> (AnyDataValue, usize) {
        unreachable!("no tuples")
    }
    fn fresh_null_id(&mut self) -> usize {
        unreachable!("no tuples")
    }
    fn datavalue_to_id(&self, dv: &AnyDataValue) -> Option<usize> {
        match *dv {}
    }
    fn id_to_datavalue(&self, _: usize) -> Option<AnyDataValue> {
        unreachable!("no tuples")
    }
    fn len(&self) -> usize {
        unreachable!("no tuples")
    }
    fn is_iri(&self, _: usize) -> bool {
        unreachable!("no tuples")
    }
    fn is_plain_string(&self, _: usize) -> bool {
        unreachable!("no tuples")
    }
    fn is_lang_string(&self, _: usize) -> bool {
        unreachable!("no tuples")
    }
    fn is_null(&self, _: usize) -> bool {
        unreachable!("no tuples")
    }
    fn mark_dv(&mut self, dv: AnyDataValue) -> AddResult {
        match dv {}
    }
    fn has_marked(&self) -> bool {
        unreachable!("no tuples")
    }
}
