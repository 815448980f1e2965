//! Stands for `context.rs`, `datatypes.rs` and what `decoder.rs` needs of `reader.rs`, which leans on those two.
//!
//! Leans on it: `Grib2SubmessageDecoder::from` in `decoder.rs`, which takes sections out of a message. Messages are
//! outside document 01; the function has to compile, and no door runs it.

use crate::error::ParseError;

pub struct GridDefinition;

impl GridDefinition {
    pub fn num_points(&self) -> u32 {
        unimplemented!("messages")
    }
}

pub enum SectionBody {
    Section3(GridDefinition),
    Another,
}

pub struct SectionInfo {
    pub body: Option<SectionBody>,
}

pub struct SubMessageSection<'a> {
    pub body: &'a SectionInfo,
}

/// Sections 0 to 8, and then the reader that they are read with.
pub struct SubMessage<'a, R>(
    (),
    (),
    (),
    pub SubMessageSection<'a>,
    (),
    pub SubMessageSection<'a>,
    pub SubMessageSection<'a>,
    pub SubMessageSection<'a>,
    (),
    pub &'a mut R,
);

pub trait Grib2Read {
    fn read_sect_as_slice(&mut self, section: &SectionInfo) -> Result<Vec<u8>, ParseError>;
}
