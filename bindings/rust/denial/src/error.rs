//! Why there is no result.
use core::fmt;

/// Why there is no result.
#[derive(Clone, Copy, Debug, PartialEq, Eq, Hash)]
#[non_exhaustive]
pub enum Error {
    /// The octets of the apex do not encode a name.
    BadApex,
    /// The octets of the name do not encode a name.
    BadName,
    /// The octets are not a sequence of records, or a record has data that are not of its type.
    BadRecords {
        /// The first octet that belongs to no record. Only functions that make chains report it.
        offset: Option<usize>,
    },
    /// The apex does not have exactly one NSEC3PARAM record of the class.
    NoParam,
    /// The records have a hash algorithm other than SHA-1.
    HasherRefused,
    /// There is not enough memory.
    OutOfMemory,
    /// A record has another class than the zone.
    OtherClass {
        /// The first such record. Only functions that make chains report it.
        offset: Option<usize>,
    },
    /// The apex does not own exactly one SOA record.
    NoSingleSoa,
    /// Two records of one owner and one type have different TTLs.
    UnequalTtls {
        /// The first record of that owner and type whose TTL is not that of the records before it.
        offset: usize,
    },
    /// The buffer is too small.
    ShortBuffer {
        /// The number of octets of the chain.
        needed: usize,
    },
    /// The salt has over 255 octets.
    LongSalt,
    /// The owner of a hash would be longer than a name may be.
    LongOwner,
    /// Two names of the chain have the same hash: use another salt.
    Collision,
    /// The library returned a code that this crate does not know.
    Unknown(u32),
}

impl Error {
    /// Returns an error by its code, and the number that comes with it.
    pub(crate) fn from_code(number: u32, count: Option<usize>) -> Self {
        match number {
            16 => Self::BadApex,
            17 => Self::BadName,
            18 => Self::BadRecords { offset: count },
            19 => Self::NoParam,
            20 => Self::HasherRefused,
            21 => Self::OutOfMemory,
            22 => Self::OtherClass { offset: count },
            23 => Self::NoSingleSoa,
            24 => Self::UnequalTtls {
                offset: count.unwrap_or(0),
            },
            25 => Self::ShortBuffer {
                needed: count.unwrap_or(0),
            },
            26 => Self::LongSalt,
            27 => Self::LongOwner,
            28 => Self::Collision,
            other => Self::Unknown(other),
        }
    }

    /// Returns the code of `denial.h`.
    #[must_use]
    pub fn number(&self) -> u32 {
        match *self {
            Self::BadApex => 16,
            Self::BadName => 17,
            Self::BadRecords { .. } => 18,
            Self::NoParam => 19,
            Self::HasherRefused => 20,
            Self::OutOfMemory => 21,
            Self::OtherClass { .. } => 22,
            Self::NoSingleSoa => 23,
            Self::UnequalTtls { .. } => 24,
            Self::ShortBuffer { .. } => 25,
            Self::LongSalt => 26,
            Self::LongOwner => 27,
            Self::Collision => 28,
            Self::Unknown(number) => number,
        }
    }

    /// Returns the offset of the record that has the fault.
    #[must_use]
    pub fn offset(&self) -> Option<usize> {
        match *self {
            Self::BadRecords { offset } | Self::OtherClass { offset } => offset,
            Self::UnequalTtls { offset } => Some(offset),
            _ => None,
        }
    }
}

impl fmt::Display for Error {
    fn fmt(&self, f: &mut fmt::Formatter<'_>) -> fmt::Result {
        let text = crate::text(self.number());
        match (self, self.offset()) {
            (Self::Unknown(number), _) => write!(f, "{text}: {number}"),
            (_, Some(offset)) => write!(f, "{text} at octet {offset}"),
            (_, None) => f.pad(text),
        }
    }
}

#[cfg(feature = "std")]
impl std::error::Error for Error {}
