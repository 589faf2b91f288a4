#![doc = include_str!("../README.md")]
#![no_std]
#![warn(missing_docs, unsafe_op_in_unsafe_fn)]

#[cfg(feature = "alloc")]
extern crate alloc;
#[cfg(feature = "std")]
extern crate std;

mod answer;
mod chain;
mod error;
mod name;

use core::ffi::{c_char, CStr};
use denial_sys as raw;

pub use answer::{Judgement, Verdict};
#[cfg(feature = "alloc")]
pub use chain::{nsec3_chain, nsec_chain};
pub use chain::{nsec3_chain_into, nsec3_collision, nsec_chain_into, Hashing, Zone};
pub use error::Error;
pub use name::{name_length, records, Name, Records};

/// Returns the version of the library: 10000 * major + 100 * minor + patch.
#[must_use]
pub fn version() -> u32 {
    // SAFETY: the function takes nothing.
    unsafe { raw::denial_version() }
}

/// Returns the text of a code of `denial.h`, such as "name error" for 44.
#[must_use]
pub fn text(number: u32) -> &'static str {
    static NONE: [u8; raw::DENIAL_TEXT_ROOM] = [0; raw::DENIAL_TEXT_ROOM];
    let mut text: *const c_char = NONE.as_ptr().cast();
    // SAFETY: `text` points to as many octets as a text has. It is then set to as many that are
    // valid as long as the program runs, and end with an octet 0.
    let text = unsafe {
        raw::denial_find_text(number, &mut text);
        CStr::from_ptr(text)
    };
    text.to_str().unwrap_or("")
}

/// Returns a judgement by its code and its labels.
fn judged(call: impl FnOnce(*mut usize) -> u32) -> Result<Judgement, Error> {
    let mut labels = 0;
    let number = call(&mut labels);
    Judgement::from_code(number, labels).ok_or_else(|| Error::from_code(number, None))
}

/// Returns a verdict by its code and its labels.
fn checked(call: impl FnOnce(*mut usize) -> u32) -> Result<Verdict, Error> {
    let mut labels = 0;
    let number = call(&mut labels);
    Verdict::from_code(number, labels).ok_or_else(|| Error::from_code(number, None))
}

/// Returns the whole answer of NSEC records about a name and a type.
///
/// # Errors
///
/// `BadApex`, `BadName`, `BadRecords` if octets do not encode these, and `OutOfMemory`.
pub fn judge_nsec(
    apex: &[u8],
    name: &[u8],
    rtype: u16,
    class: u16,
    records: &[u8],
) -> Result<Judgement, Error> {
    // SAFETY: a slice is a pointer to as many octets as its length says, and never null. `labels` is
    // in none of them.
    judged(|labels| unsafe {
        raw::denial_judge_nsec(
            apex.as_ptr(),
            apex.len(),
            name.as_ptr(),
            name.len(),
            rtype,
            class,
            records.as_ptr(),
            records.len(),
            labels,
        )
    })
}

/// Returns the whole answer of NSEC3 records about a name and a type. The records include the one
/// NSEC3PARAM record of the apex. With more iterations than `limit`, nothing is hashed.
///
/// # Errors
///
/// Those of [`judge_nsec`], `NoParam` and `HasherRefused`.
pub fn judge_nsec3(
    apex: &[u8],
    name: &[u8],
    rtype: u16,
    class: u16,
    limit: u16,
    records: &[u8],
) -> Result<Judgement, Error> {
    // SAFETY: as in `judge_nsec`.
    judged(|labels| unsafe {
        raw::denial_judge_nsec3(
            apex.as_ptr(),
            apex.len(),
            name.as_ptr(),
            name.len(),
            rtype,
            class,
            limit,
            records.as_ptr(),
            records.len(),
            labels,
        )
    })
}

/// Returns the whole answer of NSEC3 records about a name and a type. The first record gives the
/// parameters, as in a response. With more iterations than `limit`, nothing is hashed.
///
/// # Errors
///
/// Those of [`judge_nsec`].
pub fn judge_nsec3_alone(
    apex: &[u8],
    name: &[u8],
    rtype: u16,
    class: u16,
    limit: u16,
    records: &[u8],
) -> Result<Judgement, Error> {
    // SAFETY: as in `judge_nsec`.
    judged(|labels| unsafe {
        raw::denial_judge_nsec3_alone(
            apex.as_ptr(),
            apex.len(),
            name.as_ptr(),
            name.len(),
            rtype,
            class,
            limit,
            records.as_ptr(),
            records.len(),
            labels,
        )
    })
}

/// Returns the whole answer of NSEC3 records about data that were expanded from a wildcard.
/// `rrsig_labels` is the field Labels of the signatures of the data. The records include the one
/// NSEC3PARAM record of the apex.
///
/// # Errors
///
/// Those of [`judge_nsec3`].
pub fn judge_nsec3_expansion(
    apex: &[u8],
    name: &[u8],
    rrsig_labels: u8,
    class: u16,
    limit: u16,
    records: &[u8],
) -> Result<Judgement, Error> {
    // SAFETY: as in `judge_nsec`.
    judged(|labels| unsafe {
        raw::denial_judge_nsec3_expansion(
            apex.as_ptr(),
            apex.len(),
            name.as_ptr(),
            name.len(),
            rrsig_labels,
            class,
            limit,
            records.as_ptr(),
            records.len(),
            labels,
        )
    })
}

/// Returns the whole answer of NSEC3 records about data that were expanded from a wildcard. The first
/// record gives the parameters, as in a response.
///
/// # Errors
///
/// Those of [`judge_nsec`].
pub fn judge_nsec3_expansion_alone(
    apex: &[u8],
    name: &[u8],
    rrsig_labels: u8,
    class: u16,
    limit: u16,
    records: &[u8],
) -> Result<Judgement, Error> {
    // SAFETY: as in `judge_nsec`.
    judged(|labels| unsafe {
        raw::denial_judge_nsec3_expansion_alone(
            apex.as_ptr(),
            apex.len(),
            name.as_ptr(),
            name.len(),
            rrsig_labels,
            class,
            limit,
            records.as_ptr(),
            records.len(),
            labels,
        )
    })
}

/// Returns what NSEC records prove of one name and one type.
///
/// # Errors
///
/// Those of [`judge_nsec`], except `OutOfMemory`.
pub fn check_nsec(
    apex: &[u8],
    name: &[u8],
    rtype: u16,
    class: u16,
    records: &[u8],
) -> Result<Verdict, Error> {
    // SAFETY: as in `judge_nsec`.
    checked(|labels| unsafe {
        raw::denial_check_nsec(
            apex.as_ptr(),
            apex.len(),
            name.as_ptr(),
            name.len(),
            rtype,
            class,
            records.as_ptr(),
            records.len(),
            labels,
        )
    })
}

/// Returns what NSEC3 records prove of one name and one type. The records include the one NSEC3PARAM
/// record of the apex. There is no limit of iterations.
///
/// # Errors
///
/// Those of [`judge_nsec3`].
pub fn check_nsec3(
    apex: &[u8],
    name: &[u8],
    rtype: u16,
    class: u16,
    records: &[u8],
) -> Result<Verdict, Error> {
    // SAFETY: as in `judge_nsec`.
    checked(|labels| unsafe {
        raw::denial_check_nsec3(
            apex.as_ptr(),
            apex.len(),
            name.as_ptr(),
            name.len(),
            rtype,
            class,
            records.as_ptr(),
            records.len(),
            labels,
        )
    })
}

/// Returns what NSEC3 records prove of one name and one type. The first record gives the parameters.
/// There is no limit of iterations.
///
/// # Errors
///
/// Those of [`judge_nsec`].
pub fn check_nsec3_alone(
    apex: &[u8],
    name: &[u8],
    rtype: u16,
    class: u16,
    records: &[u8],
) -> Result<Verdict, Error> {
    // SAFETY: as in `judge_nsec`.
    checked(|labels| unsafe {
        raw::denial_check_nsec3_alone(
            apex.as_ptr(),
            apex.len(),
            name.as_ptr(),
            name.len(),
            rtype,
            class,
            records.as_ptr(),
            records.len(),
            labels,
        )
    })
}
