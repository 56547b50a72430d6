//! Why a call is refused.

use std::error::Error;
use std::fmt;

/// What is added to a fault reason of the VT-d specification, to make it a status.
const FAULTS: u64 = 32;

/// Why a call was refused: each status of the C library but `VTDM_OK`, by its name there.
///
/// A refused call has changed nothing but the count of calls, and a fault perhaps the unit's caches.
///
/// ```
/// use vtdm::{Domain, Manager, Refused};
///
/// let mut manager = Manager::new(64)?;
/// let refused = manager.flush(Domain::new(7)).unwrap_err();
/// assert_eq!(refused, Refused::NoDomain);
/// assert_eq!(refused.to_string(), "no such domain");
/// # Ok::<(), Refused>(())
/// ```
#[derive(Clone, Copy, Debug, PartialEq, Eq, Hash)]
#[non_exhaustive]
#[repr(u64)]
pub enum Refused {
    /// There is no domain of this id.
    NoDomain = 1,
    /// The device number is above 15.
    NoDevice = 2,
    /// The device is attached; or a device is attached to the domain, or one of its tickets is open.
    Busy = 3,
    /// The device is attached to no domain.
    NotAttached = 4,
    /// Pages, frames, order, rights or address are outside their limits, or a page to unmap is none.
    BadRange = 5,
    /// A segment has a table frame.
    FrameOwned = 6,
    /// No free range is long enough, which does not happen with the limits of today.
    NoRange = 7,
    /// Too few table frames are free.
    NoFrames = 8,
    /// The range cuts a piece of the address space, and there are too many.
    TooManyPieces = 9,
    /// A page of the range is not mapped.
    NotLive = 10,
    /// The device address lies in the interrupt address range.
    Window = 11,
    /// All ids of domains are in use.
    TooManyDomains = 12,
    /// There is no open ticket of this domain and number.
    BadTicket = 13,
    /// As many tickets as there may be are open.
    TooManyTickets = 14,

    /// A request: the device is attached to no domain.
    FaultNotAttached = 34,
    /// A request: the address is beyond the domain's width.
    FaultBeyondWidth = 36,
    /// A request: the page is not mapped, or without the right to write.
    FaultWrite = 37,
    /// A request: the page is not mapped, or without the right to read.
    FaultRead = 38,

    /// There is no manager. No call of this crate is answered so: a [`Manager`](crate::Manager) is one as long as it lives.
    Absent = 64,
    /// The manager has answered 2^56 calls, or can't answer all that this one counts for.
    Spent = 65,
    /// There is a manager already. No call of this crate is answered so: each creation has a place of its own.
    Present = 66,
    /// The number of table frames is outside its limits.
    BadFrames = 67,
    /// The C library's `malloc` or `realloc` gave no memory.
    NoMemory = 68,
    /// More segments than one map may have.
    ManySegments = 69,
    /// The unit has not done the ticket's wait. [`Manager::reap`](crate::Manager::reap) answers it as
    /// [`Reaped::Pending`](crate::Reaped::Pending), and no call of this crate as a refusal.
    Pending = 70,
    /// There is no such table frame, or no such index, or a span of words ends behind its last.
    NoWord = 71,
    /// There is no such cache. No call of this crate is answered so: a [`Cache`](crate::Cache) is one.
    BadCache = 72,
    /// No descriptor was sent so long ago, or the queue holds it no more.
    NoDescriptor = 73,
    /// Effects: the manager was not made by [`Manager::driven`](crate::Manager::driven).
    NotDriven = 74,
    /// There are more effects than places. No call of this crate is answered so: there are as many places as effects of one call.
    FewPlaces = 75,
    /// The address of the status is no multiple of 4.
    BadAddress = 76,
    /// Fewer waits than this number were sent.
    NoWait = 77,
    /// The base is no multiple of 512, or a table frame would be none of host memory.
    BadBase = 78,

    /// The library answered a number that this crate doesn't know: it was made from another header.
    Unknown = u64::MAX,
}

impl Refused {
    /// All that the header names.
    pub const ALL: [Refused; 33] = [
        Refused::NoDomain,
        Refused::NoDevice,
        Refused::Busy,
        Refused::NotAttached,
        Refused::BadRange,
        Refused::FrameOwned,
        Refused::NoRange,
        Refused::NoFrames,
        Refused::TooManyPieces,
        Refused::NotLive,
        Refused::Window,
        Refused::TooManyDomains,
        Refused::BadTicket,
        Refused::TooManyTickets,
        Refused::FaultNotAttached,
        Refused::FaultBeyondWidth,
        Refused::FaultWrite,
        Refused::FaultRead,
        Refused::Absent,
        Refused::Spent,
        Refused::Present,
        Refused::BadFrames,
        Refused::NoMemory,
        Refused::ManySegments,
        Refused::Pending,
        Refused::NoWord,
        Refused::BadCache,
        Refused::NoDescriptor,
        Refused::NotDriven,
        Refused::FewPlaces,
        Refused::BadAddress,
        Refused::NoWait,
        Refused::BadBase,
    ];

    /// Its number in `enum vtdm_status` of the header.
    #[must_use]
    pub const fn status(self) -> u64 {
        self as u64
    }

    /// The one of a status, where the header names it and it isn't `VTDM_OK`.
    #[must_use]
    pub fn from_status(status: u64) -> Option<Refused> {
        Refused::ALL.into_iter().find(|it| it.status() == status)
    }

    /// The fault reason of the VT-d specification (2, 4, 5 or 6), where a request faulted.
    ///
    /// ```
    /// use vtdm::Refused;
    ///
    /// assert_eq!(Refused::FaultRead.fault_reason(), Some(6));
    /// assert_eq!(Refused::NotAttached.fault_reason(), None);
    /// ```
    #[must_use]
    pub const fn fault_reason(self) -> Option<u64> {
        match self {
            Refused::FaultNotAttached
            | Refused::FaultBeyondWidth
            | Refused::FaultWrite
            | Refused::FaultRead => self.status().checked_sub(FAULTS),
            _ => None,
        }
    }

    const fn text(self) -> &'static str {
        match self {
            Refused::NoDomain => "no such domain",
            Refused::NoDevice => "no such device",
            Refused::Busy => "busy",
            Refused::NotAttached => "not attached",
            Refused::BadRange => "bad range",
            Refused::FrameOwned => "frame of a table",
            Refused::NoRange => "no free range",
            Refused::NoFrames => "no table frames",
            Refused::TooManyPieces => "too many pieces",
            Refused::NotLive => "not live",
            Refused::Window => "interrupt window",
            Refused::TooManyDomains => "too many domains",
            Refused::BadTicket => "no such ticket",
            Refused::TooManyTickets => "64 tickets are open",
            Refused::FaultNotAttached => "not attached",
            Refused::FaultBeyondWidth => "beyond the domain's width",
            Refused::FaultWrite => "a write isn't permitted",
            Refused::FaultRead => "a read isn't permitted",
            Refused::Absent => "no manager",
            Refused::Spent => "the manager has answered 2^56 calls",
            Refused::Present => "there is a manager already",
            Refused::BadFrames => "bad number of table frames",
            Refused::NoMemory => "no memory",
            Refused::ManySegments => "more than 16 segments",
            Refused::Pending => "the ticket is pending",
            Refused::NoWord => "no such table word",
            Refused::BadCache => "no such cache",
            Refused::NoDescriptor => "no such descriptor",
            Refused::NotDriven => "not a driven manager",
            Refused::FewPlaces => "more effects than places",
            Refused::BadAddress => "bad address of a status",
            Refused::NoWait => "no such wait",
            Refused::BadBase => "bad base of the table frames",
            Refused::Unknown => "a number of another header",
        }
    }
}

impl fmt::Display for Refused {
    fn fmt(&self, f: &mut fmt::Formatter<'_>) -> fmt::Result {
        f.write_str(self.text())
    }
}

impl Error for Refused {}

#[cfg(test)]
mod tests {
    use super::*;

    #[test]
    fn a_status_is_of_one_refusal() {
        for (place, one) in Refused::ALL.into_iter().enumerate() {
            assert_eq!(Refused::from_status(one.status()), Some(one));
            assert!(Refused::ALL[..place].iter().all(|it| it.status() < one.status()));
        }
    }

    #[test]
    fn other_numbers_are_of_none() {
        let others = (0..200).filter(|it| !Refused::ALL.iter().any(|one| one.status() == *it));
        for number in others.chain([u64::MAX, 1 << 32]) {
            assert_eq!(Refused::from_status(number), None);
        }
    }

    #[test]
    fn faults_have_the_reasons_of_vt_d() {
        let reasons = Refused::ALL.map(Refused::fault_reason);
        assert!(reasons.into_iter().flatten().eq([2, 4, 5, 6]));
    }

    #[test]
    fn it_is_an_error_with_a_text() {
        let error: Box<dyn Error + Send + Sync> = Refused::NotLive.into();
        assert_eq!(error.to_string(), "not live");
        assert!(Refused::ALL.iter().all(|it| !it.to_string().is_empty()));
    }
}
