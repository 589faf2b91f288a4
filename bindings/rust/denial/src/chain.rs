//! The chains of a zone.
use crate::{Error, Name};
#[cfg(feature = "alloc")]
use alloc::vec::Vec;
use denial_sys as raw;

const COLLISION: u32 = 28;
const CHAIN_MADE: u32 = 48;
const NO_COLLISION: u32 = 49;

/// A zone, and what its chain lists and leaves out.
#[derive(Clone, Copy, Debug, PartialEq, Eq, Hash)]
pub struct Zone<'a> {
    /// The name of the apex.
    pub apex: &'a [u8],
    /// The number of the class of all records; 1 for the Internet.
    pub class: u16,
    /// Whether the apex lists DNSKEY in any case.
    pub assume_dnskey: bool,
    /// Whether names strictly below an owner of a DNAME record are left out.
    pub occlude_below_dname: bool,
}

impl<'a> Zone<'a> {
    /// Returns a zone of the class Internet, whose apex lists DNSKEY, and with the names below an
    /// owner of a DNAME record.
    #[must_use]
    pub fn new(apex: &'a [u8]) -> Self {
        Self {
            apex,
            class: 1,
            assume_dnskey: true,
            occlude_below_dname: false,
        }
    }
}

/// How names are hashed (RFC 5155, section 5), and whether unsigned delegations are left out. The
/// default has no further iterations, no salt and no opt-out, as RFC 9276 recommends.
#[derive(Clone, Copy, Debug, Default, PartialEq, Eq, Hash)]
pub struct Hashing<'a> {
    /// The number of additional iterations.
    pub iterations: u16,
    /// The octets of the salt, at most 255.
    pub salt: &'a [u8],
    /// Whether delegations without DS are left out.
    pub opt_out: bool,
}

/// Returns the number of octets that were written, or the error of a code.
fn made(number: u32, count: usize) -> Result<usize, Error> {
    match number {
        CHAIN_MADE => Ok(count),
        number => Err(Error::from_code(number, Some(count))),
    }
}

/// Writes the NSEC chain of a zone to the beginning of a buffer, and returns the number of its octets.
/// The records of the zone may have any order.
///
/// # Errors
///
/// `BadApex`, `BadRecords`, `OtherClass`, `NoSingleSoa`, `UnequalTtls`, `ShortBuffer` and
/// `OutOfMemory`. An error leaves the buffer as it was.
pub fn nsec_chain_into(zone: &Zone<'_>, records: &[u8], chain: &mut [u8]) -> Result<usize, Error> {
    let mut count = 0;
    // SAFETY: a slice is a pointer to as many octets as its length says, and never null. Those that
    // are written are in no other one.
    let number = unsafe {
        raw::denial_nsec_chain(
            zone.apex.as_ptr(),
            zone.apex.len(),
            zone.class,
            zone.assume_dnskey,
            zone.occlude_below_dname,
            records.as_ptr(),
            records.len(),
            chain.as_mut_ptr(),
            chain.len(),
            &mut count,
        )
    };
    made(number, count)
}

/// Writes the NSEC3 chain of a zone by SHA-1, and its NSEC3PARAM record, to the beginning of a buffer,
/// and returns the number of octets.
///
/// # Errors
///
/// Those of [`nsec_chain_into`], `LongSalt`, `LongOwner` and `Collision`.
pub fn nsec3_chain_into(
    zone: &Zone<'_>,
    hashing: &Hashing<'_>,
    records: &[u8],
    chain: &mut [u8],
) -> Result<usize, Error> {
    let mut count = 0;
    // SAFETY: as in `nsec_chain_into`.
    let number = unsafe {
        raw::denial_nsec3_chain(
            zone.apex.as_ptr(),
            zone.apex.len(),
            zone.class,
            zone.assume_dnskey,
            zone.occlude_below_dname,
            hashing.iterations,
            hashing.salt.as_ptr(),
            hashing.salt.len(),
            hashing.opt_out,
            records.as_ptr(),
            records.len(),
            chain.as_mut_ptr(),
            chain.len(),
            &mut count,
        )
    };
    made(number, count)
}

/// Calls a function with a buffer, whose size the first call returns.
#[cfg(feature = "alloc")]
fn with_room(write: impl Fn(&mut [u8]) -> Result<usize, Error>) -> Result<Vec<u8>, Error> {
    let mut chain = Vec::new();
    loop {
        match write(&mut chain) {
            Ok(count) => {
                chain.truncate(count);
                return Ok(chain);
            }
            Err(Error::ShortBuffer { needed }) if needed > chain.len() => {
                chain
                    .try_reserve_exact(needed)
                    .map_err(|_| Error::OutOfMemory)?;
                chain.resize(needed, 0);
            }
            Err(error) => return Err(error),
        }
    }
}

/// Returns the NSEC chain of a zone: its records one after another.
///
/// # Errors
///
/// Those of [`nsec_chain_into`], except `ShortBuffer`.
#[cfg(feature = "alloc")]
pub fn nsec_chain(zone: &Zone<'_>, records: &[u8]) -> Result<Vec<u8>, Error> {
    with_room(|chain| nsec_chain_into(zone, records, chain))
}

/// Returns the NSEC3 chain of a zone by SHA-1, and its NSEC3PARAM record after it.
///
/// # Errors
///
/// Those of [`nsec3_chain_into`], except `ShortBuffer`.
#[cfg(feature = "alloc")]
pub fn nsec3_chain(
    zone: &Zone<'_>,
    hashing: &Hashing<'_>,
    records: &[u8],
) -> Result<Vec<u8>, Error> {
    with_room(|chain| nsec3_chain_into(zone, hashing, records, chain))
}

/// Returns two names with the same hash, for which a zone has no NSEC3 chain, or None. The names are in
/// lower case, and the first one is earlier in canonical order. `assume_dnskey` changes nothing.
///
/// # Errors
///
/// `BadApex`, `LongSalt`, `BadRecords` and `OtherClass` without an offset, and `OutOfMemory`.
pub fn nsec3_collision(
    zone: &Zone<'_>,
    hashing: &Hashing<'_>,
    records: &[u8],
) -> Result<Option<(Name, Name)>, Error> {
    let mut earlier = [0; raw::DENIAL_NAME_ROOM];
    let mut later = [0; raw::DENIAL_NAME_ROOM];
    // SAFETY: as in `nsec_chain_into`; both buffers have room for a name.
    let number = unsafe {
        raw::denial_nsec3_collision(
            zone.apex.as_ptr(),
            zone.apex.len(),
            zone.class,
            zone.occlude_below_dname,
            hashing.iterations,
            hashing.salt.as_ptr(),
            hashing.salt.len(),
            hashing.opt_out,
            records.as_ptr(),
            records.len(),
            earlier.as_mut_ptr(),
            later.as_mut_ptr(),
        )
    };
    match number {
        COLLISION => Ok(Some((Name::of_buffer(earlier), Name::of_buffer(later)))),
        NO_COLLISION => Ok(None),
        number => Err(Error::from_code(number, None)),
    }
}
