//! Names and records as octets in wire form without compression (RFC 1035, section 3.1).
use core::fmt;
use denial_sys::DENIAL_NAME_ROOM;

/// The greatest number of octets of a label.
const LABEL: u8 = 63;

/// A name in wire form without compression.
#[derive(Clone, Copy, PartialEq, Eq, Hash)]
pub struct Name {
    octets: [u8; DENIAL_NAME_ROOM],
    length: usize,
}

impl Name {
    /// Returns the name that a buffer of the library begins with.
    pub(crate) fn of_buffer(octets: [u8; DENIAL_NAME_ROOM]) -> Self {
        let length = name_length(&octets).unwrap_or(0);
        Self { octets, length }
    }

    /// Returns the octets of the name, with that of the root.
    #[must_use]
    pub fn as_octets(&self) -> &[u8] {
        self.octets.get(..self.length).unwrap_or(&[])
    }
}

impl AsRef<[u8]> for Name {
    fn as_ref(&self) -> &[u8] {
        self.as_octets()
    }
}

impl fmt::Debug for Name {
    fn fmt(&self, f: &mut fmt::Formatter<'_>) -> fmt::Result {
        f.debug_tuple("Name").field(&self.as_octets()).finish()
    }
}

/// Returns the number of octets of the name that octets begin with, or None if there is no name.
///
/// ```
/// assert_eq!(denial::name_length(b"\x01a\0 and more"), Some(3));
/// assert_eq!(denial::name_length(b"\x01a"), None);
/// ```
#[must_use]
pub fn name_length(octets: &[u8]) -> Option<usize> {
    let mut at = 0;
    loop {
        let label = *octets.get(at)?;
        at += 1 + usize::from(label);
        if label == 0 {
            return (at <= DENIAL_NAME_ROOM).then_some(at);
        }
        if label > LABEL {
            return None;
        }
    }
}

/// Returns an iterator over the records of a chain.
///
/// It ends at the first octets that begin no record; [`Records::rest`] returns these.
#[must_use]
pub fn records(octets: &[u8]) -> Records<'_> {
    Records { rest: octets }
}

/// The records of a chain, each in wire form without compression.
#[derive(Clone, Debug)]
pub struct Records<'a> {
    rest: &'a [u8],
}

impl<'a> Records<'a> {
    /// Returns the octets that are not read yet.
    #[must_use]
    pub fn rest(&self) -> &'a [u8] {
        self.rest
    }
}

impl<'a> Iterator for Records<'a> {
    type Item = &'a [u8];

    fn next(&mut self) -> Option<&'a [u8]> {
        let data = name_length(self.rest)? + 10;
        let size = self.rest.get(data - 2..data)?;
        let end = data + usize::from(u16::from_be_bytes([size[0], size[1]]));
        let record = self.rest.get(..end)?;
        self.rest = &self.rest[end..];
        Some(record)
    }
}

impl core::iter::FusedIterator for Records<'_> {}
