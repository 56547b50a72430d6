//! How a manager is made: over the library's own unit, or for one of your own.

use crate::ffi;
use crate::manager::{Manager, made};
use crate::numbers::{Frame, HostAddress};
use crate::refused::Refused;

/// Begin and end. The end is [`Drop`].
impl Manager {
    /// Makes a manager with 16 to 4096 table frames: no domain, no device attached, nothing mapped. It takes about 1.4 MiB, and 4 KiB
    /// more for each table frame, and no call takes more.
    ///
    /// The table frames are host frames 0 to `frames` - 1; no map takes them. A domain needs one for its root, and a 48-bit domain one more
    /// for each 512 GiB of addresses in use. Each domain needs one for each 1 GiB of them, and one for each 2 MiB of them that is not
    /// mapped by a leaf of 2 MiB.
    ///
    /// # Errors
    ///
    /// [`Refused::BadFrames`], [`Refused::NoMemory`].
    ///
    /// ```
    /// use vtdm::{Manager, Refused};
    ///
    /// assert_eq!(Manager::new(64)?.totals()?.free, 64);
    /// assert_eq!(Manager::new(15).unwrap_err(), Refused::BadFrames);
    /// # Ok::<(), Refused>(())
    /// ```
    pub fn new(frames: u64) -> Result<Manager, Refused> {
        made(|handle| ffi::vtdm_create(handle, frames))
    }

    /// Makes a manager whose unit has Caching Mode, as the emulated unit of a hypervisor may: it may remember that a page is absent. A map
    /// has it forget that of its pages before it returns. What waits in the queue is done before.
    ///
    /// # Errors
    ///
    /// As [`Manager::new`].
    ///
    /// ```
    /// use vtdm::{Access, Device, Frame, Manager, Mode, Order, Pages, Refused, Rights, Whim, Width};
    ///
    /// let mut manager = Manager::with_caching_mode(64)?;
    /// let domain = manager.domain(Mode::Strict, Width::W39)?;
    /// manager.attach(Device::new(3), domain)?;
    /// let page = 0x1000.into();
    /// assert_eq!(manager.dma(Device::new(3), page, Access::Read, Whim::CACHED), Err(Refused::FaultRead));
    /// let at = manager.map(domain, Frame::new(0x100), Pages::new(1), Order::PAGE, Rights::READ)?;
    /// assert_eq!(at, page);
    /// assert!(manager.dma(Device::new(3), page, Access::Read, Whim::CACHED).is_ok());
    /// # Ok::<(), Refused>(())
    /// ```
    pub fn with_caching_mode(frames: u64) -> Result<Manager, Refused> {
        made(|handle| ffi::vtdm_create_caching(handle, frames))
    }

    /// Makes a manager for a unit of your own, with Caching Mode or without it: [`Manager::effects`] tells after each call what it asks.
    /// Where a method says that no device reaches something, that is so of your unit's once what the call asks is done.
    ///
    /// The table frames are host frames from `base` on, a multiple of 512, all below 2^24: table frame F is host frame base + F. `status` is
    /// the host address of 4 bytes of yours, in no table frame, which hold 0 at first: the unit writes the status of each wait there, and
    /// nothing of this crate reads or writes them. No map takes a table frame of this manager; it is yours to map none of another's, and
    /// nothing of the unit's. Otherwise as [`Manager::new`].
    ///
    /// # Errors
    ///
    /// [`Refused::BadFrames`], [`Refused::BadAddress`], [`Refused::BadBase`], [`Refused::NoMemory`].
    ///
    /// ```
    /// use vtdm::{Frame, HostAddress, Manager, Mode, Order, Pages, Refused, Rights, Width};
    ///
    /// let mut manager = Manager::driven(64, Frame::new(0x4200), false, HostAddress::new(0x8000))?;
    /// let domain = manager.domain(Mode::Strict, Width::W39)?;
    /// manager.map(domain, Frame::new(0x100), Pages::new(1), Order::PAGE, Rights::READ)?;
    /// assert!(!manager.effects()?.is_empty());
    /// let below = manager.table_word(manager.root_of(domain)?, 0)? >> 12; // the host frame of the table below the root
    /// assert!((0x4200..0x4240).contains(&below));
    /// let status = HostAddress::new(0x8002);
    /// assert_eq!(Manager::driven(64, Frame::new(0), false, status).unwrap_err(), Refused::BadAddress);
    /// # Ok::<(), Refused>(())
    /// ```
    pub fn driven(
        frames: u64,
        base: Frame,
        caching: bool,
        status: HostAddress,
    ) -> Result<Manager, Refused> {
        made(|handle| ffi::vtdm_create_driven(handle, frames, base.get(), caching, status.get()))
    }
}
