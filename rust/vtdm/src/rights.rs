//! What a device may do with a page.

use std::ops::{BitAnd, BitOr, BitOrAssign};

/// What a device may do with a page: to read, to write, or both by `|`.
///
/// ```
/// use vtdm::Rights;
///
/// let both = Rights::READ | Rights::WRITE;
/// assert!(both.contains(Rights::WRITE));
/// assert_eq!(both & Rights::READ, Rights::READ);
/// ```
#[derive(Clone, Copy, Debug, Default, PartialEq, Eq, Hash)]
#[repr(transparent)]
pub struct Rights(u64);

impl Rights {
    /// No right. A map without any is refused.
    pub const NONE: Rights = Rights(0);
    /// To read.
    pub const READ: Rights = Rights(1);
    /// To write.
    pub const WRITE: Rights = Rights(2);
    /// To read and to write.
    pub const BOTH: Rights = Rights(3);

    /// The number that they have in the header, and in a table entry.
    #[must_use]
    pub const fn bits(self) -> u64 {
        self.0
    }

    /// Those of a number from 0 to 3, as a guest may pass it.
    #[must_use]
    pub const fn from_bits(bits: u64) -> Option<Rights> {
        if bits <= Rights::BOTH.0 { Some(Rights(bits)) } else { None }
    }

    /// Whether all of the others are among them.
    #[must_use]
    pub const fn contains(self, others: Rights) -> bool {
        self.0 & others.0 == others.0
    }
}

impl BitOr for Rights {
    type Output = Rights;

    fn bitor(self, other: Rights) -> Rights {
        Rights(self.0 | other.0)
    }
}

impl BitOrAssign for Rights {
    fn bitor_assign(&mut self, other: Rights) {
        *self = *self | other;
    }
}

impl BitAnd for Rights {
    type Output = Rights;

    fn bitand(self, other: Rights) -> Rights {
        Rights(self.0 & other.0)
    }
}

#[cfg(test)]
mod tests {
    use super::*;

    #[test]
    fn they_are_flags() {
        let mut rights = Rights::default();
        assert_eq!(rights, Rights::NONE);
        rights |= Rights::READ;
        assert!(rights.contains(Rights::READ) && !rights.contains(Rights::WRITE));
        assert_eq!(rights | Rights::WRITE, Rights::BOTH);
        assert_eq!(Rights::BOTH & Rights::WRITE, Rights::WRITE);
        assert!(Rights::BOTH.contains(Rights::BOTH) && rights.contains(Rights::NONE));
    }

    #[test]
    fn four_numbers_are_rights() {
        let all = [Rights::NONE, Rights::READ, Rights::WRITE, Rights::BOTH];
        for (bits, rights) in (0..).zip(all) {
            assert_eq!(Rights::from_bits(bits), Some(rights));
            assert_eq!(rights.bits(), bits);
        }
        for bits in [4, 5, 7, 1 << 32, u64::MAX] {
            assert_eq!(Rights::from_bits(bits), None);
        }
    }
}
