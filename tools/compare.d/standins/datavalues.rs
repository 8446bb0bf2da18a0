//! Stands in for datavalues/. AnyDataValue has no values, so nothing of it can run.
#[derive(Debug, Clone, PartialEq, Eq, Hash)]
pub enum AnyDataValue {}

#[derive(Debug, Clone, Copy, PartialEq, Eq, Hash)]
pub enum ValueDomain {
    PlainString,
    LanguageTaggedString,
    Iri,
    Other,
    Null,
    Tuple,
    Boolean,
    UnsignedLong,
    Float,
}

pub trait DataValue {
    fn value_domain(&self) -> ValueDomain;
    fn datatype_iri(&self) -> String;
    fn lexical_value(&self) -> String;
    fn to_plain_string(&self) -> Option<String>;
    fn to_iri_unchecked(&self) -> String;
    fn to_language_tagged_string_unchecked(&self) -> (String, String);
    fn null_id_unchecked(&self) -> usize;
}

impl DataValue for AnyDataValue {
    fn value_domain(&self) -> ValueDomain {
        match *self {}
    }
    fn datatype_iri(&self) -> String {
        match *self {}
    }
    fn lexical_value(&self) -> String {
        match *self {}
    }
    fn to_plain_string(&self) -> Option<String> {
        match *self {}
    }
    fn to_iri_unchecked(&self) -> String {
        match *self {}
    }
    fn to_language_tagged_string_unchecked(&self) -> (String, String) {
        match *self {}
    }
    fn null_id_unchecked(&self) -> usize {
        match *self {}
    }
}

impl AnyDataValue {
    pub fn new_plain_string(_: String) -> Self {
        unreachable!("no data value is made")
    }
    pub fn new_iri(_: String) -> Self {
        unreachable!("no data value is made")
    }
    pub fn new_language_tagged_string(_: String, _: String) -> Self {
        unreachable!("no data value is made")
    }
    pub fn new_other(_: String, _: String) -> Self {
        unreachable!("no data value is made")
    }
    pub fn new_boolean(_: bool) -> Self {
        unreachable!("no data value is made")
    }
}

#[derive(Debug, Clone, Copy)]
pub struct NullDataValue(usize);

impl NullDataValue {
    pub fn new(id: usize) -> Self {
        NullDataValue(id)
    }
    pub fn id(&self) -> usize {
        self.0
    }
}

impl From<NullDataValue> for AnyDataValue {
    fn from(_: NullDataValue) -> Self {
        unreachable!("no data value is made")
    }
}
