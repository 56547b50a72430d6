//! The manager.

use crate::choices::{Access, Cache, Mode, Progress, Reaped, Unmapped, Whim, Width};
use crate::ffi::{self, Answer, Handle};
use crate::numbers::{Address, Device, Domain, Frame, HostAddress, Order, Pages, Segment, Ticket};
use crate::refused::Refused;
use crate::rights::Rights;
use std::cell::Cell;
use std::fmt;

/// `VTDM_OK`.
const OK: u64 = 0;

/// A manager of DMA addresses, with its simulated unit. Where it is dropped, its memory is given back.
///
/// The refusals of a method are named in the order in which they are judged: the first whose condition holds is answered.
/// [`Refused::Spent`], which each call can answer and no reader, is judged before the others, but after [`Refused::ManySegments`].
///
/// It is `Send`: nothing of it belongs to a thread, and the library asks for one call at a time alone. It is not `Sync`, since readers
/// too are calls of which there is one at a time:
///
/// ```
/// fn is_send<T: Send>() {}
/// is_send::<vtdm::Manager>();
/// ```
///
/// ```compile_fail,E0277
/// fn is_sync<T: Sync>() {}
/// is_sync::<vtdm::Manager>();
/// ```
///
/// Nor can it be copied: a copy would call a manager that is gone.
///
/// ```compile_fail,E0599
/// let manager = vtdm::Manager::new(64).unwrap();
/// let copy = manager.clone();
/// ```
pub struct Manager {
    /// It holds a manager but inside `read`.
    handle: Cell<Handle>,
    /// Bit D is set where domain D is lazy, so that an unmap needn't ask for the mode.
    lazy: u64,
}

/// Calls.
impl Manager {
    /// Makes an empty domain.
    ///
    /// # Errors
    ///
    /// [`Refused::TooManyDomains`], [`Refused::NoFrames`].
    ///
    /// ```
    /// use vtdm::{Domain, Mode, Width};
    ///
    /// # let mut manager = vtdm::Manager::new(64)?;
    /// assert_eq!(manager.domain(Mode::Strict, Width::W39)?, Domain::new(1));
    /// assert_eq!(manager.domain(Mode::Lazy, Width::W48)?, Domain::new(2));
    /// # Ok::<(), vtdm::Refused>(())
    /// ```
    pub fn domain(&mut self, mode: Mode, width: Width) -> Result<Domain, Refused> {
        let lazy = mode == Mode::Lazy;
        let answer = match width {
            Width::W39 => ffi::vtdm_domain(self.handle(), lazy),
            Width::W48 => ffi::vtdm_domain_wide(self.handle(), lazy),
        };
        let domain = answer.value().map(Domain::new)?;
        if lazy {
            self.lazy |= bit_of(domain);
        } else {
            self.lazy &= !bit_of(domain);
        }
        Ok(domain)
    }

    /// Ends a domain with all its mapped pages and retired ranges, and gives its table frames back. No device may be attached to it, and
    /// no ticket of it open.
    ///
    /// # Errors
    ///
    /// [`Refused::NoDomain`], [`Refused::Busy`].
    ///
    /// ```
    /// # use vtdm::{Manager, Mode, Refused, Width};
    /// # let mut manager = Manager::new(64)?;
    /// let domain = manager.domain(Mode::Strict, Width::W39)?;
    /// manager.drop_domain(domain)?;
    /// assert_eq!(manager.drop_domain(domain), Err(Refused::NoDomain));
    /// # Ok::<(), Refused>(())
    /// ```
    pub fn drop_domain(&mut self, domain: Domain) -> Result<(), Refused> {
        ffi::vtdm_drop(self.handle(), domain.get()).done()
    }

    /// Attaches a device to a domain: it reaches what is mapped there.
    ///
    /// # Errors
    ///
    /// [`Refused::NoDevice`], [`Refused::NoDomain`], [`Refused::Busy`].
    ///
    /// ```
    /// # use vtdm::{Device, Manager, Mode, Refused, Width};
    /// # let mut manager = Manager::new(64)?;
    /// let domain = manager.domain(Mode::Strict, Width::W39)?;
    /// manager.attach(Device::new(3), domain)?;
    /// assert_eq!(manager.attach(Device::new(3), domain), Err(Refused::Busy));
    /// # Ok::<(), Refused>(())
    /// ```
    pub fn attach(&mut self, device: Device, domain: Domain) -> Result<(), Refused> {
        ffi::vtdm_attach(self.handle(), device.get(), domain.get()).done()
    }

    /// Detaches a device from its domain: when it returns the device reaches nothing.
    ///
    /// # Errors
    ///
    /// [`Refused::NoDevice`], [`Refused::NotAttached`].
    ///
    /// ```
    /// # use vtdm::{Device, Manager, Mode, Refused, Width};
    /// # let mut manager = Manager::new(64)?;
    /// # let domain = manager.domain(Mode::Strict, Width::W39)?;
    /// manager.attach(Device::new(3), domain)?;
    /// manager.detach(Device::new(3))?;
    /// assert_eq!(manager.detach(Device::new(3)), Err(Refused::NotAttached));
    /// # Ok::<(), Refused>(())
    /// ```
    pub fn detach(&mut self, device: Device) -> Result<(), Refused> {
        ffi::vtdm_detach(self.handle(), device.get()).done()
    }

    /// Detaches a device, as [`Manager::detach`] does, and then flushes the domain that it had, as [`Manager::flush`] does: two calls in
    /// one. Answers how many retired ranges the flush released. A unit of your own that finds cached translations by the device too, as
    /// VT-d allows, reaches the domain until then.
    ///
    /// # Errors
    ///
    /// [`Refused::Spent`] also where one call alone is left, [`Refused::NoDevice`], [`Refused::NotAttached`].
    ///
    /// ```
    /// # use vtdm::{Device, Manager, Mode, Order, Refused, Rights, Width};
    /// # let mut manager = Manager::new(64)?;
    /// let domain = manager.domain(Mode::Lazy, Width::W39)?;
    /// manager.attach(Device::new(3), domain)?;
    /// let at = manager.map(domain, 0x100.into(), 1.into(), Order::PAGE, Rights::READ)?;
    /// let _ = manager.unmap(domain, at, 1.into())?;
    /// assert_eq!(manager.detach_all(Device::new(3))?, 1);
    /// assert_eq!(manager.detach_all(Device::new(3)), Err(Refused::NotAttached));
    /// # Ok::<(), Refused>(())
    /// ```
    pub fn detach_all(&mut self, device: Device) -> Result<u64, Refused> {
        ffi::vtdm_detach_all(self.handle(), device.get()).value()
    }

    /// Maps 1 to 4096 pages to the host frames from `frame` on, and answers the device address of the first page: the lowest free one that
    /// is a multiple of 2^`order` pages. In a 48-bit domain it is the lowest at 512 GiB or above, and where there is none there the lowest
    /// of all. Where page and frame are multiples of 512, 512 pages are mapped by one leaf of 2 MiB, unless an earlier map left a table
    /// there.
    ///
    /// # Errors
    ///
    /// [`Refused::NoDomain`], [`Refused::BadRange`], [`Refused::FrameOwned`], [`Refused::NoRange`], [`Refused::TooManyPieces`],
    /// [`Refused::NoFrames`].
    ///
    /// ```
    /// use vtdm::{Address, Frame, Order, Pages, Rights};
    ///
    /// # use vtdm::{Manager, Mode, Refused, Width};
    /// # let mut manager = Manager::new(64)?;
    /// # let domain = manager.domain(Mode::Strict, Width::W39)?;
    /// let at = manager.map(domain, Frame::new(0x400), Pages::new(512), Order::MIB_2, Rights::BOTH)?;
    /// assert_eq!(at, Address::new(0x20_0000));
    /// # Ok::<(), Refused>(())
    /// ```
    pub fn map(
        &mut self,
        domain: Domain,
        frame: Frame,
        pages: Pages,
        order: Order,
        rights: Rights,
    ) -> Result<Address, Refused> {
        let (frame, pages) = (frame.get(), pages.get());
        ffi::vtdm_map(self.handle(), domain.get(), frame, pages, order.get(), rights.bits())
            .value()
            .map(Address::new)
    }

    /// Maps 1 to 16 segments, 4096 pages together at most, one after the other at one range of device addresses: all of them, or none.
    /// No segment is a [`Refused::BadRange`]. Otherwise as [`Manager::map`].
    ///
    /// # Errors
    ///
    /// [`Refused::ManySegments`], and then those of [`Manager::map`].
    ///
    /// ```
    /// use vtdm::{Frame, Order, Pages, Rights, Segment};
    ///
    /// # use vtdm::{Manager, Mode, Refused, Width};
    /// # let mut manager = Manager::new(64)?;
    /// # let domain = manager.domain(Mode::Strict, Width::W39)?;
    /// let segments = [Segment::new(Frame::new(0x100), Pages::new(1)), Segment::new(Frame::new(0x200), Pages::new(2))];
    /// let at = manager.map_list(domain, Order::PAGE, Rights::READ, &segments)?;
    /// assert_eq!(manager.domain_totals(domain)?.live, 3);
    /// # Ok::<(), Refused>(())
    /// ```
    pub fn map_list(
        &mut self,
        domain: Domain,
        order: Order,
        rights: Rights,
        segments: &[Segment],
    ) -> Result<Address, Refused> {
        ffi::map_list(self.handle(), domain.get(), order.get(), rights.bits(), segments)
            .value()
            .map(Address::new)
    }

    /// Unmaps 1 to 4096 mapped pages from a device address on that is a multiple of 4096, in one or several maps or inside one. The answer
    /// tells whether their memory may be used again; the mode of the domain decides that.
    ///
    /// # Errors
    ///
    /// [`Refused::NoDomain`], [`Refused::BadRange`], [`Refused::NotLive`], [`Refused::TooManyPieces`], [`Refused::NoFrames`] (to split a
    /// leaf of 2 MiB). A range is bad too where a member of it is no page: of the first 4096 bytes, of the interrupt address range, or
    /// beyond the domain's width.
    ///
    /// ```
    /// use vtdm::{Frame, Order, Pages, Rights, Unmapped};
    ///
    /// # use vtdm::{Manager, Mode, Refused, Width};
    /// # let mut manager = Manager::new(64)?;
    /// let domain = manager.domain(Mode::Lazy, Width::W39)?;
    /// let at = manager.map(domain, Frame::new(0x100), Pages::new(1), Order::PAGE, Rights::READ)?;
    /// assert_eq!(manager.unmap(domain, at, Pages::new(1))?, Unmapped::Retired { released: 0 });
    /// assert_eq!(manager.flush(domain)?, 1); // now the memory may be used again
    /// # Ok::<(), Refused>(())
    /// ```
    pub fn unmap(
        &mut self,
        domain: Domain,
        address: Address,
        pages: Pages,
    ) -> Result<Unmapped, Refused> {
        let handle = self.handle();
        let released = ffi::vtdm_unmap(handle, domain.get(), address.get(), pages.get()).value()?;
        Ok(if self.lazy & bit_of(domain) == 0 {
            Unmapped::Free
        } else {
            Unmapped::Retired { released }
        })
    }

    /// Has the unit invalidate all cached translations of a domain, releases its retired ranges, and answers how many there were (0 in a
    /// strict domain). No device reaches them when it returns, and their addresses are free.
    ///
    /// # Errors
    ///
    /// [`Refused::NoDomain`].
    ///
    /// ```
    /// # use vtdm::{Manager, Mode, Refused, Width};
    /// # let mut manager = Manager::new(64)?;
    /// let domain = manager.domain(Mode::Lazy, Width::W39)?;
    /// assert_eq!(manager.flush(domain)?, 0);
    /// # Ok::<(), Refused>(())
    /// ```
    pub fn flush(&mut self, domain: Domain) -> Result<u64, Refused> {
        ffi::vtdm_flush(self.handle(), domain.get()).value()
    }

    /// Begins a flush of a domain: queues its two descriptors and does not wait for the unit. [`Manager::reap`] takes the ticket.
    ///
    /// # Errors
    ///
    /// [`Refused::NoDomain`], [`Refused::TooManyTickets`].
    ///
    /// ```
    /// use vtdm::{Progress, Reaped};
    ///
    /// # use vtdm::{Manager, Mode, Refused, Width};
    /// # let mut manager = Manager::new(64)?;
    /// # let domain = manager.domain(Mode::Lazy, Width::W39)?;
    /// let ticket = manager.begin(domain)?;
    /// assert_eq!(manager.reap(ticket)?, Reaped::Pending);
    /// while manager.unit()? == Progress::Did {}
    /// assert_eq!(manager.reap(ticket)?, Reaped::Released(0));
    /// assert_eq!(manager.reap(ticket), Err(Refused::BadTicket));
    /// # Ok::<(), Refused>(())
    /// ```
    pub fn begin(&mut self, domain: Domain) -> Result<Ticket, Refused> {
        let number = ffi::vtdm_begin(self.handle(), domain.get()).value()?;
        Ok(Ticket { domain, number })
    }

    /// Has the unit do the first descriptor of its queue. [`Manager::begin`] shows it.
    ///
    /// # Errors
    ///
    /// None of its own.
    pub fn unit(&mut self) -> Result<Progress, Refused> {
        ffi::vtdm_unit(self.handle()).value().and_then(Progress::of)
    }

    /// Ends a begun flush: releases the ranges that were retired before it was begun, and closes the ticket. [`Manager::begin`] shows it.
    /// Of a manager of [`Manager::driven`], [`Manager::done_up_to`] comes before it.
    ///
    /// # Errors
    ///
    /// [`Refused::BadTicket`].
    pub fn reap(&mut self, ticket: Ticket) -> Result<Reaped, Refused> {
        let answer = ffi::vtdm_reap(self.handle(), ticket.domain.get(), ticket.number);
        match answer.value() {
            Ok(released) => Ok(Reaped::Released(released)),
            Err(Refused::Pending) => Ok(Reaped::Pending),
            Err(refused) => Err(refused),
        }
    }

    /// A request of a device at a device address, as the unit translates it.
    ///
    /// The host address holds as long as you hold your lock. After that another thread's unmap may end the page, and its memory be used for
    /// something else, also where the device was detached in between. So use the memory under the lock, or have that thread wait until you
    /// have done with it.
    ///
    /// # Errors
    ///
    /// [`Refused::NoDevice`], [`Refused::Window`] (also where the device is not attached), and the faults
    /// [`Refused::FaultNotAttached`], [`Refused::FaultBeyondWidth`], [`Refused::FaultWrite`], [`Refused::FaultRead`].
    ///
    /// ```
    /// use vtdm::{Access, Address, Device, Frame, HostAddress, Order, Pages, Rights, Whim};
    ///
    /// # use vtdm::{Manager, Mode, Refused, Width};
    /// # let mut manager = Manager::new(64)?;
    /// # let domain = manager.domain(Mode::Strict, Width::W39)?;
    /// # manager.attach(Device::new(3), domain)?;
    /// manager.map(domain, Frame::new(0x100), Pages::new(1), Order::PAGE, Rights::READ)?;
    /// let at = Address::new(0x1234);
    /// assert_eq!(manager.dma(Device::new(3), at, Access::Read, Whim::CACHED)?, HostAddress::new(0x10_0234));
    /// assert_eq!(manager.dma(Device::new(3), at, Access::Write, Whim::CACHED), Err(Refused::FaultWrite));
    /// # Ok::<(), Refused>(())
    /// ```
    pub fn dma(
        &mut self,
        device: Device,
        address: Address,
        access: Access,
        whim: Whim,
    ) -> Result<HostAddress, Refused> {
        let write = access == Access::Write;
        let Whim { look, fill } = whim;
        ffi::vtdm_dma(self.handle(), device.get(), address.get(), write, look, fill)
            .value()
            .map(HostAddress::new)
    }

    /// Has the unit drop the entry at a place, from 0 on, of a cache, as a unit may at any time. Where there is no entry nothing happens.
    ///
    /// # Errors
    ///
    /// None of its own.
    ///
    /// ```
    /// # let mut manager = vtdm::Manager::new(64)?;
    /// manager.evict(vtdm::Cache::Leaf, 0)?;
    /// # Ok::<(), vtdm::Refused>(())
    /// ```
    pub fn evict(&mut self, cache: Cache, place: u64) -> Result<(), Refused> {
        ffi::vtdm_evict(self.handle(), cache as u64, place).done()
    }

    pub(crate) fn handle(&mut self) -> &mut Handle {
        self.handle.get_mut()
    }
}

impl Manager {
    /// Asks a reader. The handle is taken out and put back, as it may be moved between two calls; meanwhile there is no manager here,
    /// which nobody sees, since a reader calls nothing else.
    pub(crate) fn read<A>(&self, ask: impl FnOnce(&mut Handle) -> A) -> A {
        let mut handle = self.handle.replace(Handle::none());
        let answer = ask(&mut handle);
        self.handle.set(handle);
        answer
    }
}

/// The bit of a domain, whose id is 1 to 15.
const fn bit_of(domain: Domain) -> u64 {
    1 << (domain.get() & 63)
}

impl Drop for Manager {
    fn drop(&mut self) {
        ffi::vtdm_destroy(self.handle.get_mut());
    }
}

/// Its sizes. What it maps isn't shown.
impl fmt::Debug for Manager {
    fn fmt(&self, f: &mut fmt::Formatter<'_>) -> fmt::Result {
        let mut shown = f.debug_struct("Manager");
        if let Ok(totals) = self.totals() {
            shown
                .field("free", &totals.free)
                .field("used", &totals.used)
                .field("held", &totals.held)
                .field("tickets", &totals.tickets)
                .field("pending", &totals.pending);
        }
        shown.finish_non_exhaustive()
    }
}

/// The manager that a creation makes.
pub(crate) fn made(create: impl FnOnce(&mut Handle) -> u64) -> Result<Manager, Refused> {
    let mut handle = Handle::none();
    check(create(&mut handle))?;
    Ok(Manager { handle: Cell::new(handle), lazy: 0 })
}

/// Why a status is a refusal, if it is one.
pub(crate) fn check(status: u64) -> Result<(), Refused> {
    if status == OK {
        return Ok(());
    }
    Err(Refused::from_status(status).unwrap_or(Refused::Unknown))
}

impl Answer {
    /// Its value, where the status is `VTDM_OK`.
    pub(crate) fn value(self) -> Result<u64, Refused> {
        check(self.status).map(|()| self.value)
    }

    /// The same of an answer without a value.
    pub(crate) fn done(self) -> Result<(), Refused> {
        check(self.status)
    }
}

#[cfg(test)]
mod tests {
    use super::*;

    #[test]
    fn a_status_without_a_name_is_told() {
        assert_eq!(check(OK), Ok(()));
        assert_eq!(check(Refused::Busy.status()), Err(Refused::Busy));
        assert_eq!(check(15), Err(Refused::Unknown));
        assert_eq!(Answer { status: 1 << 40, value: 7 }.value(), Err(Refused::Unknown));
        assert_eq!(Answer { status: OK, value: 7 }.value(), Ok(7));
    }

    #[test]
    fn it_is_shown_by_its_sizes() {
        let mut manager = Manager::new(64).unwrap();
        manager.domain(Mode::Lazy, Width::W39).unwrap();
        let shown = "Manager { free: 63, used: 1, held: 0, tickets: 0, pending: 0, .. }";
        assert_eq!(format!("{manager:?}"), shown);
    }

    #[test]
    fn a_manager_that_was_taken_out_is_absent() {
        let manager = Manager::new(64).unwrap();
        manager.read(|_| assert_eq!(manager.totals(), Err(Refused::Absent)));
        assert_eq!(manager.totals().unwrap().free, 64);
    }
}
