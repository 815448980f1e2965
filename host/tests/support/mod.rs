//! What tests share. Each file of tests uses a part of it.

#![allow(dead_code)]

pub mod grib2;
pub mod guarded;
pub mod maps;
pub mod model;
pub mod others;
pub mod sha256;
