//! The functions of libdenial, as `denial.h` declares them. That header says what each one takes and
//! returns, and documents the codes. The crate `denial` makes safe calls of them.
//!
//! Pass no null pointer, even for octets of length 0.
#![no_std]
#![warn(missing_docs)]

use core::ffi::c_char;

/// The octets of each text, with the octet 0 at its end.
pub const DENIAL_TEXT_ROOM: usize = 32;
/// The greatest number of octets of a name.
pub const DENIAL_NAME_ROOM: usize = 255;

extern "C" {
    /// Returns the version of the library: 10000 * major + 100 * minor + patch.
    pub fn denial_version() -> u32;

    /// Sets `text` to the text of a number. It must point to at least `DENIAL_TEXT_ROOM` octets.
    pub fn denial_find_text(number: u32, text: *mut *const c_char);

    /// Judges a question by NSEC records.
    pub fn denial_judge_nsec(
        apex: *const u8,
        apex_length: usize,
        name: *const u8,
        name_length: usize,
        rtype: u16,
        rclass: u16,
        records: *const u8,
        records_length: usize,
        labels: *mut usize,
    ) -> u32;

    /// Judges a question by NSEC3 records and one NSEC3PARAM record.
    pub fn denial_judge_nsec3(
        apex: *const u8,
        apex_length: usize,
        name: *const u8,
        name_length: usize,
        rtype: u16,
        rclass: u16,
        limit: u16,
        records: *const u8,
        records_length: usize,
        labels: *mut usize,
    ) -> u32;

    /// Judges a question by NSEC3 records, the first of which gives the parameters.
    pub fn denial_judge_nsec3_alone(
        apex: *const u8,
        apex_length: usize,
        name: *const u8,
        name_length: usize,
        rtype: u16,
        rclass: u16,
        limit: u16,
        records: *const u8,
        records_length: usize,
        labels: *mut usize,
    ) -> u32;

    /// Judges data that were expanded from a wildcard, by NSEC3 records and one NSEC3PARAM record.
    pub fn denial_judge_nsec3_expansion(
        apex: *const u8,
        apex_length: usize,
        name: *const u8,
        name_length: usize,
        rrsig_labels: u8,
        rclass: u16,
        limit: u16,
        records: *const u8,
        records_length: usize,
        labels: *mut usize,
    ) -> u32;

    /// Judges data that were expanded from a wildcard, by NSEC3 records, the first of which gives
    /// the parameters.
    pub fn denial_judge_nsec3_expansion_alone(
        apex: *const u8,
        apex_length: usize,
        name: *const u8,
        name_length: usize,
        rrsig_labels: u8,
        rclass: u16,
        limit: u16,
        records: *const u8,
        records_length: usize,
        labels: *mut usize,
    ) -> u32;

    /// Checks one name and one type by NSEC records.
    pub fn denial_check_nsec(
        apex: *const u8,
        apex_length: usize,
        name: *const u8,
        name_length: usize,
        rtype: u16,
        rclass: u16,
        records: *const u8,
        records_length: usize,
        labels: *mut usize,
    ) -> u32;

    /// Checks one name and one type by NSEC3 records and one NSEC3PARAM record.
    pub fn denial_check_nsec3(
        apex: *const u8,
        apex_length: usize,
        name: *const u8,
        name_length: usize,
        rtype: u16,
        rclass: u16,
        records: *const u8,
        records_length: usize,
        labels: *mut usize,
    ) -> u32;

    /// Checks one name and one type by NSEC3 records, the first of which gives the parameters.
    pub fn denial_check_nsec3_alone(
        apex: *const u8,
        apex_length: usize,
        name: *const u8,
        name_length: usize,
        rtype: u16,
        rclass: u16,
        records: *const u8,
        records_length: usize,
        labels: *mut usize,
    ) -> u32;

    /// Writes the NSEC chain of a zone.
    pub fn denial_nsec_chain(
        apex: *const u8,
        apex_length: usize,
        rclass: u16,
        assume_dnskey: bool,
        occlude_below_dname: bool,
        records: *const u8,
        records_length: usize,
        chain: *mut u8,
        chain_length: usize,
        count: *mut usize,
    ) -> u32;

    /// Writes the NSEC3 chain of a zone, and its NSEC3PARAM record.
    pub fn denial_nsec3_chain(
        apex: *const u8,
        apex_length: usize,
        rclass: u16,
        assume_dnskey: bool,
        occlude_below_dname: bool,
        iterations: u16,
        salt: *const u8,
        salt_length: usize,
        opt_out: bool,
        records: *const u8,
        records_length: usize,
        chain: *mut u8,
        chain_length: usize,
        count: *mut usize,
    ) -> u32;

    /// Finds two names of an NSEC3 chain that have the same hash. Each buffer has
    /// `DENIAL_NAME_ROOM` octets.
    pub fn denial_nsec3_collision(
        apex: *const u8,
        apex_length: usize,
        rclass: u16,
        occlude_below_dname: bool,
        iterations: u16,
        salt: *const u8,
        salt_length: usize,
        opt_out: bool,
        records: *const u8,
        records_length: usize,
        earlier: *mut u8,
        later: *mut u8,
    ) -> u32;
}
