//! What records prove.
use core::fmt;

/// What the functions `judge_*` return: the answer to a question as a whole.
///
/// `labels` is the count of the last labels of the name in the question, the root not counted.
#[derive(Clone, Copy, Debug, PartialEq, Eq, Hash)]
#[non_exhaustive]
pub enum Judgement {
    /// The records do not prove what the zone says.
    NotProven,
    /// The name is not at or below the apex.
    OutsideZone,
    /// The type is DS and the name is the apex: the parent zone has these records.
    AtParent,
    /// The child zone answers.
    Referral {
        /// The labels of the zone cut.
        labels: usize,
    },
    /// The name is below an owner of a DNAME record, which leads to another name.
    Redirected {
        /// The labels of that owner.
        labels: usize,
    },
    /// The name owns records of the type, or of any type if the type is ANY: nothing is denied.
    Exists,
    /// The type is DS, and the name is a zone cut that owns none: an unsigned delegation.
    NoDs,
    /// The name owns a CNAME record, which answers instead of the type.
    Alias,
    /// The signer says that the name does not exist: its record lists NXNAME (RFC 9824).
    NxName,
    /// The name exists and owns no records of the type.
    NoData,
    /// The name does not exist, and the wildcard below its closest encloser answers.
    Wildcard {
        /// The labels of the closest encloser.
        labels: usize,
    },
    /// The name does not exist, and the wildcard below its closest encloser owns a CNAME record.
    WildcardAlias {
        /// The labels of the closest encloser.
        labels: usize,
    },
    /// The name does not exist, and the wildcard below its closest encloser owns no records of the
    /// type.
    WildcardNoData {
        /// The labels of the closest encloser.
        labels: usize,
    },
    /// Neither the name nor the wildcard below its closest encloser exists.
    NameError {
        /// The labels of the closest encloser.
        labels: usize,
    },
    /// The name, one above it, or the wildcard may be an unsigned delegation that the chain leaves
    /// out.
    MayBeUnsigned {
        /// The labels of the closest encloser.
        labels: usize,
    },
    /// The name does not exist, and the records say nothing about the wildcard.
    NoCloserName {
        /// The labels of the closest encloser.
        labels: usize,
    },
    /// The records have more iterations than the limit. Nothing was hashed.
    TooManyIterations,
}

/// What the functions `check_*` return: what records prove of one name and one type.
#[derive(Clone, Copy, Debug, PartialEq, Eq, Hash)]
#[non_exhaustive]
pub enum Verdict {
    /// The records do not prove what the zone says.
    NotProven,
    /// The name is not at or below the apex.
    OutsideZone,
    /// The child zone answers.
    BelowDelegation,
    /// The name owns records of the type.
    Has,
    /// The name owns records, but none of the type. It may own a CNAME record.
    NoType,
    /// The name is an empty non-terminal.
    EmptyName,
    /// The name, or one above it, may be an unsigned delegation that the chain leaves out.
    OptOut {
        /// The labels of the closest encloser.
        labels: usize,
    },
    /// The name does not exist. A wildcard may still answer.
    NoName {
        /// The labels of the closest encloser.
        labels: usize,
    },
}

impl Judgement {
    /// Returns a judgement by its code and its labels.
    pub(crate) fn from_code(number: u32, labels: usize) -> Option<Self> {
        Some(match number {
            32 => Self::NotProven,
            33 => Self::OutsideZone,
            34 => Self::AtParent,
            35 => Self::Referral { labels },
            36 => Self::Redirected { labels },
            37 => Self::Exists,
            38 => Self::NoDs,
            39 => Self::Alias,
            40 => Self::NoData,
            41 => Self::Wildcard { labels },
            42 => Self::WildcardAlias { labels },
            43 => Self::WildcardNoData { labels },
            44 => Self::NameError { labels },
            45 => Self::MayBeUnsigned { labels },
            46 => Self::NoCloserName { labels },
            47 => Self::TooManyIterations,
            50 => Self::NxName,
            _ => return None,
        })
    }

    /// Returns the code of `denial.h`.
    #[must_use]
    pub fn number(&self) -> u32 {
        match self {
            Self::NotProven => 32,
            Self::OutsideZone => 33,
            Self::AtParent => 34,
            Self::Referral { .. } => 35,
            Self::Redirected { .. } => 36,
            Self::Exists => 37,
            Self::NoDs => 38,
            Self::Alias => 39,
            Self::NoData => 40,
            Self::Wildcard { .. } => 41,
            Self::WildcardAlias { .. } => 42,
            Self::WildcardNoData { .. } => 43,
            Self::NameError { .. } => 44,
            Self::MayBeUnsigned { .. } => 45,
            Self::NoCloserName { .. } => 46,
            Self::TooManyIterations => 47,
            Self::NxName => 50,
        }
    }

    /// Returns the labels that come with the answer.
    #[must_use]
    pub fn labels(&self) -> Option<usize> {
        match *self {
            Self::Referral { labels }
            | Self::Redirected { labels }
            | Self::Wildcard { labels }
            | Self::WildcardAlias { labels }
            | Self::WildcardNoData { labels }
            | Self::NameError { labels }
            | Self::MayBeUnsigned { labels }
            | Self::NoCloserName { labels } => Some(labels),
            _ => None,
        }
    }
}

impl Verdict {
    /// Returns a verdict by its code and its labels.
    pub(crate) fn from_code(number: u32, labels: usize) -> Option<Self> {
        Some(match number {
            0 => Self::NotProven,
            1 => Self::OutsideZone,
            2 => Self::BelowDelegation,
            3 => Self::Has,
            4 => Self::NoType,
            5 => Self::EmptyName,
            6 => Self::OptOut { labels },
            7 => Self::NoName { labels },
            _ => return None,
        })
    }

    /// Returns the code of `denial.h`.
    #[must_use]
    pub fn number(&self) -> u32 {
        match self {
            Self::NotProven => 0,
            Self::OutsideZone => 1,
            Self::BelowDelegation => 2,
            Self::Has => 3,
            Self::NoType => 4,
            Self::EmptyName => 5,
            Self::OptOut { .. } => 6,
            Self::NoName { .. } => 7,
        }
    }

    /// Returns the labels that come with the verdict.
    #[must_use]
    pub fn labels(&self) -> Option<usize> {
        match *self {
            Self::OptOut { labels } | Self::NoName { labels } => Some(labels),
            _ => None,
        }
    }
}

impl fmt::Display for Judgement {
    fn fmt(&self, f: &mut fmt::Formatter<'_>) -> fmt::Result {
        f.pad(crate::text(self.number()))
    }
}

impl fmt::Display for Verdict {
    fn fmt(&self, f: &mut fmt::Formatter<'_>) -> fmt::Result {
        f.pad(crate::text(self.number()))
    }
}
