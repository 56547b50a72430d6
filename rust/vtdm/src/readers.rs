//! What is read of a manager, and what its calls ask.

use crate::choices::{Context, Descriptor, DomainTotals, Mode, Totals, Width};
use crate::effects::{Effects, PLACES};
use crate::ffi;
use crate::manager::{Manager, check};
use crate::numbers::{Device, Devices, Domain, TableFrame};
use crate::refused::Refused;

/// Readers. They change nothing and are not counted as calls.
impl Manager {
    /// How many table frames are free, used and held, tickets open, and descriptors waiting.
    ///
    /// # Errors
    ///
    /// None of its own.
    ///
    /// ```
    /// let manager = vtdm::Manager::new(64)?;
    /// let totals = manager.totals()?;
    /// assert_eq!((totals.free, totals.used, totals.held), (64, 0, 0));
    /// # Ok::<(), vtdm::Refused>(())
    /// ```
    pub fn totals(&self) -> Result<Totals, Refused> {
        let answer = self.read(|handle| ffi::vtdm_totals(handle));
        check(answer.status)?;
        Ok(Totals {
            free: answer.free,
            used: answer.used,
            held: answer.held,
            tickets: answer.tickets,
            pending: answer.pending,
        })
    }

    /// Of a domain: its mode, its mapped pages, its retired ranges, and the pieces of its address space.
    ///
    /// # Errors
    ///
    /// [`Refused::NoDomain`].
    ///
    /// ```
    /// # use vtdm::{Manager, Mode, Refused, Width};
    /// # let mut manager = Manager::new(64)?;
    /// let domain = manager.domain(Mode::Lazy, Width::W39)?;
    /// let totals = manager.domain_totals(domain)?;
    /// assert_eq!((totals.mode, totals.live, totals.retired), (Mode::Lazy, 0, 0));
    /// # Ok::<(), Refused>(())
    /// ```
    pub fn domain_totals(&self, domain: Domain) -> Result<DomainTotals, Refused> {
        let answer = self.read(|handle| ffi::vtdm_domain_totals(handle, domain.get()));
        check(answer.status)?;
        Ok(DomainTotals {
            mode: Mode::of(answer.mode)?,
            live: answer.live,
            retired: answer.retired,
            pieces: answer.pieces,
        })
    }

    /// The domain that a device is attached to.
    ///
    /// # Errors
    ///
    /// [`Refused::NoDevice`], [`Refused::NotAttached`].
    ///
    /// ```
    /// # use vtdm::{Device, Manager, Mode, Refused, Width};
    /// # let mut manager = Manager::new(64)?;
    /// let domain = manager.domain(Mode::Strict, Width::W39)?;
    /// manager.attach(Device::new(3), domain)?;
    /// assert_eq!(manager.domain_of(Device::new(3))?, domain);
    /// assert!(manager.devices_of(domain)?.contains(Device::new(3)));
    /// # Ok::<(), Refused>(())
    /// ```
    pub fn domain_of(&self, device: Device) -> Result<Domain, Refused> {
        self.read(|handle| ffi::vtdm_domain_of(handle, device.get())).value().map(Domain::new)
    }

    /// The devices that are attached to a domain. [`Manager::domain_of`] shows it.
    ///
    /// # Errors
    ///
    /// [`Refused::NoDomain`].
    pub fn devices_of(&self, domain: Domain) -> Result<Devices, Refused> {
        self.read(|handle| ffi::vtdm_devices_of(handle, domain.get()))
            .value()
            .map(Devices::from_bits)
    }

    /// The mode of a domain.
    ///
    /// # Errors
    ///
    /// [`Refused::NoDomain`].
    ///
    /// ```
    /// # use vtdm::{Manager, Mode, Refused, Width};
    /// # let mut manager = Manager::new(64)?;
    /// let domain = manager.domain(Mode::Lazy, Width::W48)?;
    /// assert_eq!(manager.mode_of(domain)?, Mode::Lazy);
    /// assert_eq!(manager.width_of(domain)?, Width::W48);
    /// # Ok::<(), Refused>(())
    /// ```
    pub fn mode_of(&self, domain: Domain) -> Result<Mode, Refused> {
        self.read(|handle| ffi::vtdm_mode_of(handle, domain.get())).value().and_then(Mode::of)
    }

    /// The width of a domain's device addresses. [`Manager::mode_of`] shows it.
    ///
    /// # Errors
    ///
    /// [`Refused::NoDomain`].
    pub fn width_of(&self, domain: Domain) -> Result<Width, Refused> {
        self.read(|handle| ffi::vtdm_width_of(handle, domain.get())).value().and_then(Width::of)
    }
}

/// For a unit of your own, emulated or real, which a manager of [`Manager::driven`] is in charge of. It reads the tables, word I of table
/// frame F at host address (base + F) × 4096 + 8 × I; the context entries; and the descriptors in its queue. Clear the memory of the
/// table frames before the unit is on. Around each call:
///
/// 1. Take your lock.
/// 2. Make the call.
/// 3. Take its effects ([`Manager::effects`]), and do what each asks, one after the other.
/// 4. Release the lock. Now what the call set free may be used for something else, and not before.
///
/// Some calls need more:
///
/// - [`Manager::begin`] asks for no wait. Before [`Manager::reap`] let the library's unit do what yours has done, and no more: call
///   [`Manager::done_up_to`] with the number of the last wait that yours has done. Where w is what [`Manager::waits`] answers and s the
///   status that yours wrote last, that number is w - ((w - s) mod 2^32).
/// - [`Manager::detach`] sends the descriptor of the context alone. Where your unit finds cached translations by the device too, use
///   [`Manager::detach_all`].
/// - An attach sends nothing, and a unit with Caching Mode may remember that the device had no context entry. So after its effects give it
///   a context-cache invalidate descriptor of the device and domain 0, and then an IOTLB invalidate descriptor of the domain. After them
///   put a wait of your own, with another status address, and wait for it before 4.
///
/// The header `c/vtdm.h` says the same of C, and besides what the unit has to have, how it begins, how it walks the library's own words,
/// and what is proved of it.
impl Manager {
    /// Takes what the last call asks, in order. It is told once: after that nothing is asked until the next call. The next call that is
    /// counted forgets what nobody took, also where it is refused, and then asks nothing; so does [`Manager::done_up_to`] that did no
    /// descriptor. This itself is not counted as a call.
    ///
    /// # Errors
    ///
    /// [`Refused::NotDriven`].
    ///
    /// ```
    /// use vtdm::{Device, Effect, Frame, HostAddress, Manager, Mode, Order, Refused, Rights, TableFrame, Width};
    ///
    /// let mut manager = Manager::driven(64, Frame::new(0), false, HostAddress::new(0x8000))?;
    /// // What the unit reads. Here it is memory of Rust's own.
    /// let mut memory = vec![0; 64 * 512];
    /// let mut contexts = [(0, 0); 16];
    /// let mut queue = Vec::new();
    ///
    /// let domain = manager.domain(Mode::Strict, Width::W39)?;
    /// let at = manager.map(domain, 0x100.into(), 1.into(), Order::PAGE, Rights::READ)?;
    /// for effect in manager.effects()? {
    ///     match effect {
    ///         Effect::Words { frame, first, count } => {
    ///             let from = 512 * frame.get() + first;
    ///             for place in from..from + count {
    ///                 memory[place as usize] = manager.table_word((place / 512).into(), place % 512)?;
    ///             }
    ///         }
    ///         Effect::Barrier => (), // one thread sees its own stores in order
    ///         Effect::Context { device, .. } => { // which half goes first no other thread sees
    ///             let entry = manager.context(device)?;
    ///             contexts[device.get() as usize] = (entry.low, entry.high);
    ///         }
    ///         Effect::Send(descriptor) => queue.push(descriptor),
    ///         Effect::Await(number) => (), // let the unit do its queue, up to the wait of this number
    ///     }
    /// }
    /// let root = manager.root_of(domain)?;
    /// assert_eq!(memory[512 * root.get() as usize], manager.table_word(root, 0)?);
    /// assert!(manager.effects()?.is_empty());
    /// assert_eq!(Manager::new(64)?.effects(), Err(Refused::NotDriven));
    /// # Ok::<(), Refused>(())
    /// ```
    pub fn effects(&mut self) -> Result<Effects, Refused> {
        let mut told = [ffi::Effect::NONE; PLACES];
        let count = ffi::effects(self.handle(), &mut told).value()?;
        Effects::of(&told, count)
    }

    /// Has the library's unit do its queue up to the wait of this number ([`Manager::waits`]), and answers how many descriptors it did.
    /// Each counts as a call; there is none where the wait is done already, or for 0. After it nothing is asked.
    ///
    /// # Errors
    ///
    /// [`Refused::Spent`], exactly where fewer calls are left than descriptors wait in its queue; [`Refused::NoWait`].
    ///
    /// ```
    /// # use vtdm::{Manager, Mode, Reaped, Refused, Width};
    /// # let mut manager = Manager::new(64)?;
    /// # let domain = manager.domain(Mode::Lazy, Width::W39)?;
    /// let ticket = manager.begin(domain)?;
    /// let wait = manager.waits()?;
    /// assert_eq!(manager.done_up_to(wait)?, 2);
    /// assert_eq!(manager.reap(ticket)?, Reaped::Released(0));
    /// assert_eq!(manager.done_up_to(wait + 1), Err(Refused::NoWait));
    /// # Ok::<(), Refused>(())
    /// ```
    pub fn done_up_to(&mut self, wait: u64) -> Result<u64, Refused> {
        ffi::vtdm_done_up_to(self.handle(), wait).value()
    }

    /// The table frame that is the root of a domain.
    ///
    /// # Errors
    ///
    /// [`Refused::NoDomain`].
    ///
    /// ```
    /// # use vtdm::{Device, Manager, Mode, Refused, Width};
    /// # let mut manager = Manager::new(64)?;
    /// let domain = manager.domain(Mode::Strict, Width::W39)?;
    /// manager.attach(Device::new(3), domain)?;
    /// let root = manager.root_of(domain)?;
    /// assert_eq!(manager.table_word(root, 0)?, 0); // nothing is mapped
    /// assert_eq!(manager.context(Device::new(3))?.low, root.get() << 12 | 1); // the base is 0
    /// # Ok::<(), Refused>(())
    /// ```
    pub fn root_of(&self, domain: Domain) -> Result<TableFrame, Refused> {
        self.read(|handle| ffi::vtdm_root_of(handle, domain.get())).value().map(TableFrame::new)
    }

    /// The word of a table frame at an index, 0 to 511. In a table it is a second-stage entry, 0 where nothing is present. Else bit 0 is
    /// the right to read, bit 1 the right to write, and bit 7 says that it is a leaf of 2 MiB. Bits 12 and up are the host frame of the
    /// next table or of the first page. The words of a frame that no table uses mean nothing. [`Manager::root_of`] shows it.
    ///
    /// # Errors
    ///
    /// [`Refused::NoWord`].
    pub fn table_word(&self, frame: TableFrame, index: u64) -> Result<u64, Refused> {
        self.read(|handle| ffi::vtdm_table_word(handle, frame.get(), index)).value()
    }

    /// Copies words of a table frame from an index on, as many as `to` has room for: up to all 512. Each is what
    /// [`Manager::table_word`] answers. Where they aren't all of the frame nothing is copied.
    ///
    /// # Errors
    ///
    /// [`Refused::NoWord`].
    ///
    /// ```
    /// # use vtdm::{Manager, Mode, Order, Refused, Rights, Width};
    /// # let mut manager = Manager::new(64)?;
    /// let domain = manager.domain(Mode::Strict, Width::W39)?;
    /// manager.map(domain, 0x100.into(), 1.into(), Order::PAGE, Rights::READ)?;
    /// let root = manager.root_of(domain)?;
    /// let mut words = [0; 512];
    /// manager.words(root, 0, &mut words)?;
    /// assert_eq!(words.first().copied(), Some(manager.table_word(root, 0)?));
    /// # Ok::<(), Refused>(())
    /// ```
    pub fn words(&self, frame: TableFrame, first: u64, to: &mut [u64]) -> Result<(), Refused> {
        check(self.read(|handle| ffi::words(handle, frame.get(), first, to)))
    }

    /// The two words of the context entry of a device. [`Manager::root_of`] shows it.
    ///
    /// # Errors
    ///
    /// [`Refused::NoDevice`].
    pub fn context(&self, device: Device) -> Result<Context, Refused> {
        let answer = self.read(|handle| ffi::vtdm_context(handle, device.get()));
        check(answer.status)?;
        Ok(Context { low: answer.low, high: answer.high })
    }

    /// A descriptor that was sent: the last one where `back` is 0, the one before it where it is 1, and so on. The queue holds the last
    /// 256.
    ///
    /// # Errors
    ///
    /// [`Refused::NoDescriptor`].
    ///
    /// ```
    /// # use vtdm::{Manager, Mode, Refused, Width};
    /// # let mut manager = Manager::new(64)?;
    /// let domain = manager.domain(Mode::Strict, Width::W39)?;
    /// let before = manager.waits()?;
    /// manager.flush(domain)?;
    /// let count = 2 * (manager.waits()? - before);
    /// for back in (0..count).rev() {
    ///     let descriptor = manager.sent(back)?; // oldest first
    ///     assert_eq!(descriptor.low & 15, if back == 0 { 5 } else { 2 }); // a wait after an IOTLB invalidate descriptor
    /// }
    /// # Ok::<(), Refused>(())
    /// ```
    pub fn sent(&self, back: u64) -> Result<Descriptor, Refused> {
        let answer = self.read(|handle| ffi::vtdm_sent(handle, back));
        check(answer.status)?;
        Ok(Descriptor { low: answer.low, high: answer.high })
    }

    /// How many waits were sent: the number of the last one, 0 before the first. The status that a wait writes is the low 32 bits of
    /// its number. Each wait follows one other descriptor, so a call before which this was A, and is B after it, has sent 2 × (B - A)
    /// descriptors. [`Manager::sent`] shows it.
    ///
    /// # Errors
    ///
    /// None of its own.
    pub fn waits(&self) -> Result<u64, Refused> {
        self.read(|handle| ffi::vtdm_waits(handle)).value()
    }
}
