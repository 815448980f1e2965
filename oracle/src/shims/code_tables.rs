//! Stands for `codetables/grib2.rs`: code table 5.6, the order of spatial differencing.
//!
//! Leans on it: `ComplexSpatial::iter` in `decoder/complex.rs`, which turns the order's number into it and refuses
//! a number that is not in the table. 255 is the table's number for missing.

pub(crate) enum Table5_6 {
    FirstOrderSpatialDifferencing,
    SecondOrderSpatialDifferencing,
    Missing,
}

pub(crate) struct NotInTable {
    pub(crate) number: u8,
}

impl TryFrom<u8> for Table5_6 {
    type Error = NotInTable;

    fn try_from(number: u8) -> Result<Self, NotInTable> {
        match number {
            1 => Ok(Self::FirstOrderSpatialDifferencing),
            2 => Ok(Self::SecondOrderSpatialDifferencing),
            255 => Ok(Self::Missing),
            _ => Err(NotInTable { number }),
        }
    }
}
