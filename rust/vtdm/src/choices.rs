//! What a call is told, and what it answers, where that is one of a few or has parts.

use crate::refused::Refused;

/// How a domain unmaps.
#[derive(Clone, Copy, Debug, PartialEq, Eq, Hash)]
#[repr(u64)]
pub enum Mode {
    /// An unmap invalidates before it returns.
    Strict = 0,
    /// An unmap leaves that to a later flush.
    Lazy = 1,
}

impl Mode {
    pub(crate) const fn of(number: u64) -> Result<Mode, Refused> {
        match number {
            0 => Ok(Mode::Strict),
            1 => Ok(Mode::Lazy),
            _ => Err(Refused::Unknown),
        }
    }
}

/// How many bits the device addresses of a domain have.
#[derive(Clone, Copy, Debug, PartialEq, Eq, Hash)]
pub enum Width {
    /// 39 bits: three levels of tables.
    W39,
    /// 48 bits: four levels of tables.
    W48,
}

impl Width {
    /// The bits of its addresses.
    #[must_use]
    pub const fn bits(self) -> u64 {
        match self {
            Width::W39 => 39,
            Width::W48 => 48,
        }
    }

    pub(crate) const fn of(bits: u64) -> Result<Width, Refused> {
        match bits {
            39 => Ok(Width::W39),
            48 => Ok(Width::W48),
            _ => Err(Refused::Unknown),
        }
    }
}

/// What a device wants to do at an address.
#[derive(Clone, Copy, Debug, PartialEq, Eq, Hash)]
pub enum Access {
    /// To read.
    Read,
    /// To write.
    Write,
}

/// What the unit's caches do at one request.
#[derive(Clone, Copy, Debug, PartialEq, Eq, Hash)]
pub struct Whim {
    /// Whether cached entries are used. Otherwise the tables are walked.
    pub look: bool,
    /// Whether the entries that were used are cached.
    pub fill: bool,
}

impl Whim {
    /// Cached entries are used, and those that were used are cached: as a unit mostly does.
    pub const CACHED: Whim = Whim { look: true, fill: true };
    /// The tables are walked, and nothing is cached.
    pub const WALKED: Whim = Whim { look: false, fill: false };
}

/// A cache of the unit.
#[derive(Clone, Copy, Debug, PartialEq, Eq, Hash)]
#[repr(u64)]
pub enum Cache {
    /// The IOTLB: what pages are mapped to.
    Leaf = 0,
    /// The paging-structure cache: tables below the roots.
    NonLeaf = 1,
    /// The context cache: devices with their domains and roots.
    Context = 2,
    /// Pages that are remembered as absent, with Caching Mode alone.
    Fault = 3,
}

/// Whether the unit did a descriptor.
#[derive(Clone, Copy, Debug, PartialEq, Eq, Hash)]
pub enum Progress {
    /// It did the first of its queue.
    Did,
    /// The queue was empty.
    Idle,
}

impl Progress {
    pub(crate) const fn of(number: u64) -> Result<Progress, Refused> {
        match number {
            0 => Ok(Progress::Idle),
            1 => Ok(Progress::Did),
            _ => Err(Refused::Unknown),
        }
    }
}

/// What became of the pages of an unmap, and with it, whether their memory may be used again.
#[derive(Clone, Copy, Debug, PartialEq, Eq, Hash)]
#[must_use = "in a lazy domain devices may still reach the memory"]
pub enum Unmapped {
    /// Of a strict domain: no device reaches them, and their addresses are free. The memory may be used again, once whoever got a host
    /// address of it from an earlier request has done with it.
    Free,
    /// Of a lazy domain: devices may reach them until a flush, so the memory must not be used again before. Their addresses aren't
    /// used again before either. Where the domain had as many retired ranges as it may have, those were released first.
    Retired {
        /// How many ranges were released first.
        released: u64,
    },
}

impl Unmapped {
    /// How many retired ranges, of earlier unmaps, were released first.
    #[must_use]
    pub const fn released(self) -> u64 {
        match self {
            Unmapped::Free => 0,
            Unmapped::Retired { released } => released,
        }
    }
}

/// What came of a reap.
#[derive(Clone, Copy, Debug, PartialEq, Eq, Hash)]
#[must_use = "nothing is released where the ticket is pending"]
pub enum Reaped {
    /// So many ranges were released, those that were retired before the flush was begun, and the ticket is closed. No device reaches
    /// their pages.
    Released(u64),
    /// The unit hasn't done the ticket's wait, and nothing was released. Let the unit work ([`Manager::unit`](crate::Manager::unit), or
    /// any call that waits for it; where yours has worked, [`Manager::done_up_to`](crate::Manager::done_up_to)), and reap again.
    Pending,
}

/// What a manager has.
#[derive(Clone, Copy, Debug, PartialEq, Eq, Hash)]
pub struct Totals {
    /// Table frames that are free.
    pub free: u64,
    /// Table frames that tables use.
    pub used: u64,
    /// Table frames that retired ranges hold.
    pub held: u64,
    /// Open tickets.
    pub tickets: u64,
    /// Descriptors that wait in the queue.
    pub pending: u64,
}

/// What a domain has.
#[derive(Clone, Copy, Debug, PartialEq, Eq, Hash)]
pub struct DomainTotals {
    /// How it unmaps.
    pub mode: Mode,
    /// Mapped pages.
    pub live: u64,
    /// Retired ranges.
    pub retired: u64,
    /// Pieces of its address space.
    pub pieces: u64,
}

/// The context entry of a device, in legacy mode: both words are 0 where it is attached to no domain.
#[derive(Clone, Copy, Debug, PartialEq, Eq, Hash)]
pub struct Context {
    /// Bit 0 is set, and bits 12 and up are the root's host frame.
    pub low: u64,
    /// Bits 0 to 2 are the address width (1 for 39 bits, 2 for 48), and bits 8 to 23 the id of the domain.
    pub high: u64,
}

/// A descriptor of the unit's queue, by its two words, as the VT-d specification lays them out.
///
/// A wait has 5 in bits 0 to 3 of the low word, and in bits 32 to 63 the status that it writes. The high word is then the address to which
/// it writes. Of [`Manager::effects`](crate::Manager::effects) it is the one that the manager was made with, of
/// [`Manager::sent`](crate::Manager::sent) that of the library's unit, 2^36, which is beyond all host frames.
#[derive(Clone, Copy, Debug, PartialEq, Eq, Hash)]
pub struct Descriptor {
    /// The low word. Bits 0 to 3 are the kind.
    pub low: u64,
    /// The high word.
    pub high: u64,
}

#[cfg(test)]
mod tests {
    use super::*;

    #[test]
    fn numbers_of_the_library_are_read() {
        assert_eq!(Mode::of(Mode::Strict as u64), Ok(Mode::Strict));
        assert_eq!(Mode::of(Mode::Lazy as u64), Ok(Mode::Lazy));
        for width in [Width::W39, Width::W48] {
            assert_eq!(Width::of(width.bits()), Ok(width));
        }
        assert_eq!(Progress::of(0), Ok(Progress::Idle));
        assert_eq!(Progress::of(1), Ok(Progress::Did));
    }

    #[test]
    fn other_numbers_are_told() {
        assert_eq!(Mode::of(2), Err(Refused::Unknown));
        assert_eq!(Width::of(57), Err(Refused::Unknown));
        assert_eq!(Progress::of(u64::MAX), Err(Refused::Unknown));
    }

    #[test]
    fn an_unmap_tells_what_it_released() {
        assert_eq!(Unmapped::Free.released(), 0);
        assert_eq!(Unmapped::Retired { released: 256 }.released(), 256);
    }
}
