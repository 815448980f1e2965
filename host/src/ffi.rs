//! The C calls, as include/cleatmow.h declares them, each over slices. The only unsafe code of this crate.

use crate::{Differences, Template};

mod c {
    extern "C" {
        pub fn cleatmow_unpack_complex(
            declared: u32,
            num_bits: u8,
            splitting: u8,
            missing: u8,
            num_groups: u32,
            width_ref: u8,
            width_bits: u8,
            len_ref: u32,
            len_inc: u8,
            len_last: u32,
            len_bits: u8,
            payload: *const u8,
            payload_len: usize,
            points: *mut u8,
            points_len: usize,
        ) -> u32;

        pub fn cleatmow_unpack_spatial(
            declared: u32,
            num_bits: u8,
            splitting: u8,
            missing: u8,
            num_groups: u32,
            width_ref: u8,
            width_bits: u8,
            len_ref: u32,
            len_inc: u8,
            len_last: u32,
            len_bits: u8,
            order: u8,
            descriptor_octets: u8,
            payload: *const u8,
            payload_len: usize,
            points: *mut u8,
            points_len: usize,
        ) -> u32;

        pub fn cleatmow_run_length(
            bits: u8,
            max_level: u16,
            declared: u32,
            payload: *const u8,
            payload_len: usize,
            levels: *mut u8,
            levels_len: usize,
        ) -> u32;

        pub fn cleatmow_write_run_length(
            bits: u8,
            max_level: u16,
            levels: *const u8,
            levels_len: usize,
            payload: *mut u8,
            payload_len: usize,
            octets: *mut u32,
        ) -> u32;

        pub fn cleatmow_pack(
            lookahead: u32,
            numbers: *const u8,
            numbers_len: usize,
            groups: *mut u8,
            groups_len: usize,
            payload: *mut u8,
            payload_len: usize,
            summary: *mut u8,
            summary_len: usize,
        ) -> u32;

        pub fn cleatmow_read_section5(
            section5: *const u8,
            section5_len: usize,
            fields: *mut u8,
            fields_len: usize,
        ) -> u32;

        pub fn cleatmow_write_section5(
            fields: *const u8,
            fields_len: usize,
            section5: *mut u8,
            section5_len: usize,
        ) -> u32;

        pub fn cleatmow_unpack(
            section5: *const u8,
            section5_len: usize,
            payload: *const u8,
            payload_len: usize,
            points: *mut u8,
            points_len: usize,
        ) -> u32;

        pub fn cleatmow_point(
            place: u32,
            section5: *const u8,
            section5_len: usize,
            payload: *const u8,
            payload_len: usize,
            mark: *mut u8,
            number: *mut i64,
        ) -> u32;
    }
}

pub fn unpack_complex(template: &Template, declared: u32, payload: &[u8], points: &mut [u8]) -> u32 {
    // SAFETY: each pointer and length is that of a slice, so as many octets stand behind it; `points` is borrowed for
    // writing, so it overlaps nothing and nobody else uses it. The call keeps neither pointer.
    unsafe {
        c::cleatmow_unpack_complex(
            declared,
            template.number_width,
            template.splitting,
            template.missing,
            template.groups,
            template.width_reference,
            template.width_bits,
            template.length_reference,
            template.length_increment,
            template.last_length,
            template.length_bits,
            payload.as_ptr(),
            payload.len(),
            points.as_mut_ptr(),
            points.len(),
        )
    }
}

pub fn unpack_spatial(
    template: &Template,
    differences: &Differences,
    declared: u32,
    payload: &[u8],
    points: &mut [u8],
) -> u32 {
    // SAFETY: as in `unpack_complex`.
    unsafe {
        c::cleatmow_unpack_spatial(
            declared,
            template.number_width,
            template.splitting,
            template.missing,
            template.groups,
            template.width_reference,
            template.width_bits,
            template.length_reference,
            template.length_increment,
            template.last_length,
            template.length_bits,
            differences.order,
            differences.descriptor_octets,
            payload.as_ptr(),
            payload.len(),
            points.as_mut_ptr(),
            points.len(),
        )
    }
}

pub fn run_length(bits: u8, max_level: u16, declared: u32, payload: &[u8], levels: &mut [u8]) -> u32 {
    // SAFETY: as in `unpack_complex`, with `levels` for `points`.
    unsafe {
        c::cleatmow_run_length(
            bits,
            max_level,
            declared,
            payload.as_ptr(),
            payload.len(),
            levels.as_mut_ptr(),
            levels.len(),
        )
    }
}

pub fn write_run_length(bits: u8, max_level: u16, levels: &[u8], payload: &mut [u8], octets: &mut u32) -> u32 {
    // SAFETY: as in `unpack_complex`, with `payload` and the value for `points`: each is borrowed for writing.
    unsafe {
        c::cleatmow_write_run_length(
            bits,
            max_level,
            levels.as_ptr(),
            levels.len(),
            payload.as_mut_ptr(),
            payload.len(),
            octets,
        )
    }
}

pub fn pack(lookahead: u32, numbers: &[u8], groups: &mut [u8], payload: &mut [u8], summary: &mut [u8]) -> u32 {
    // SAFETY: as in `unpack_complex`, with the three lent slices for `points`: none overlaps another.
    unsafe {
        c::cleatmow_pack(
            lookahead,
            numbers.as_ptr(),
            numbers.len(),
            groups.as_mut_ptr(),
            groups.len(),
            payload.as_mut_ptr(),
            payload.len(),
            summary.as_mut_ptr(),
            summary.len(),
        )
    }
}

pub fn read_section5(section5: &[u8], fields: &mut [u8]) -> u32 {
    // SAFETY: as in `unpack_complex`, with `fields` for `points`.
    unsafe { c::cleatmow_read_section5(section5.as_ptr(), section5.len(), fields.as_mut_ptr(), fields.len()) }
}

pub fn write_section5(fields: &[u8], section5: &mut [u8]) -> u32 {
    // SAFETY: as in `unpack_complex`, with `section5` for `points`.
    unsafe { c::cleatmow_write_section5(fields.as_ptr(), fields.len(), section5.as_mut_ptr(), section5.len()) }
}

pub fn unpack(section5: &[u8], payload: &[u8], points: &mut [u8]) -> u32 {
    // SAFETY: as in `unpack_complex`.
    unsafe {
        c::cleatmow_unpack(
            section5.as_ptr(),
            section5.len(),
            payload.as_ptr(),
            payload.len(),
            points.as_mut_ptr(),
            points.len(),
        )
    }
}

pub fn point(place: u32, section5: &[u8], payload: &[u8], mark: &mut u8, number: &mut i64) -> u32 {
    // SAFETY: as in `unpack_complex`, with the two values for `points`: each is borrowed for writing.
    unsafe {
        c::cleatmow_point(place, section5.as_ptr(), section5.len(), payload.as_ptr(), payload.len(), mark, number)
    }
}

/// The octets of a list of levels, to lend it.
pub fn octets_of(levels: &mut [u16]) -> &mut [u8] {
    // SAFETY: a `u16` is two octets without padding, any octets are a `u16`, and an octet needs no alignment. The octets
    // are borrowed for as long as the list is.
    unsafe { std::slice::from_raw_parts_mut(levels.as_mut_ptr().cast(), size_of_val(levels)) }
}
