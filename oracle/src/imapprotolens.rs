//! Stands in for the crate that reads fetch replies: it never finds one.
#![allow(dead_code)]

pub struct Structure;

impl Structure {
    pub fn into_owned(self) -> Structure {
        self
    }
}

pub enum AttributeValue2 {
    BodyStructure(Structure),
    Other,
}

pub enum ContentEncoding {
    SevenBit,
    EightBit,
    Binary,
    Base64,
    QuotedPrintable,
    Other,
}

pub struct BodyStructParser2;

impl BodyStructParser2 {
    pub fn new(_structure: Structure) -> Self {
        Self
    }

    pub fn get_transfer_encoding(&self, _section: &()) -> Option<ContentEncoding> {
        None
    }
}

pub struct Fetched {
    pub attrs: Vec<AttributeValue2>,
}

impl Fetched {
    pub fn data(&self) -> Option<&[u8]> {
        None
    }

    pub fn literal_size(&self) -> Option<usize> {
        None
    }

    pub fn is_header(&self) -> bool {
        false
    }

    pub fn body_section_parts(&self) -> Option<()> {
        None
    }
}

pub fn rsp_fetch(_line: &str) -> Option<Fetched> {
    None
}

pub fn follow_rsp_fetch(_line: &str) -> Option<Fetched> {
    None
}
