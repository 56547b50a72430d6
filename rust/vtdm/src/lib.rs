//! `vtdm`: a proved manager of DMA addresses, for Rust, over its C library.
//!
//! A [`Manager`] keeps up to 15 domains (address spaces of devices), attaches up to 16 devices to them, and maps and unmaps pages. It
//! follows the Intel VT-d specification in legacy mode: context entries for devices, second-stage tables of three or four levels for
//! domains, and a queue of invalidation descriptors. The unit that works off the queue is simulated. What is proved of the library:
//! whatever calls are made, no page and no table frame is free while an entry in one of the unit's caches can still reach it. This
//! crate itself is tested, and not proved.
//!
//! ```
//! use vtdm::{Access, Address, Device, Frame, Manager, Mode, Order, Pages, Refused, Rights, Unmapped, Whim, Width};
//!
//! # fn main() -> Result<(), Refused> {
//! let mut manager = Manager::new(64)?; // 64 table frames
//! let domain = manager.domain(Mode::Strict, Width::W39)?;
//! let device = Device::new(3);
//! manager.attach(device, domain)?;
//!
//! // The device may use 4 pages from `at` on, which reach the host frames 0x1000 to 0x1003.
//! let at = manager.map(domain, Frame::new(0x1000), Pages::new(4), Order::PAGE, Rights::READ | Rights::WRITE)?;
//! let host = manager.dma(device, at, Access::Read, Whim::CACHED)?;
//! assert_eq!(host.frame(), Frame::new(0x1000));
//!
//! // The device reaches none of them any more: the IOTLB, which had the first page, was invalidated.
//! assert_eq!(manager.unmap(domain, at, Pages::new(4))?, Unmapped::Free);
//! assert_eq!(manager.dma(device, at, Access::Read, Whim::CACHED), Err(Refused::FaultRead));
//! # Ok(())
//! # }
//! ```
//!
//! # When memory may be used again
//!
//! Two things can still reach the memory of a page after its unmap, and whoever owns that memory waits for both.
//!
//! 1. **The device, by the unit's caches**: only in a lazy domain. [`Manager::unmap`] tells it: at [`Unmapped::Free`] no device reaches
//!    the pages; at [`Unmapped::Retired`] devices may reach them until [`Manager::flush`] returns, or until [`Manager::reap`] has
//!    ended a flush that was begun after the unmap.
//! 2. **Your own code, by a host address that [`Manager::dma`] answered before the unmap**: in either mode. The address holds as long
//!    as the lock around the manager is held. So the thread that plays the device uses the memory under that lock; or it tells when it
//!    has done, and whoever unmapped waits for that before the memory is used again. `examples/vmm.rs` does the latter.
//!
//! # Threads
//!
//! A [`Manager`] is `Send` and not `Sync`: one call at a time, from any thread. To share one, put it into a `Mutex`.
//!
//! ```
//! use std::sync::Mutex;
//! use vtdm::{Manager, Mode, Refused, Width};
//!
//! let manager = Mutex::new(Manager::new(64)?);
//! std::thread::scope(|threads| {
//!     for _ in 0..2 {
//!         threads.spawn(|| manager.lock().unwrap().domain(Mode::Lazy, Width::W48));
//!     }
//! });
//! assert_eq!(manager.lock().unwrap().totals()?.used, 2);
//! # Ok::<(), Refused>(())
//! ```
//!
//! # A unit of your own
//!
//! A manager of [`Manager::driven`] is in charge of a unit that isn't the library's own, emulated or real. [`Manager::effects`] tells after
//! each call what it asks ([`Effect`]), and you do that before you release your lock. Until then devices may reach what the call set free,
//! in a strict domain too. How that goes stands at the methods of [`Manager`] for such a unit.
//!
//! # Numbers
//!
//! Every number may be any number: a call refuses one outside its limits ([`limits`]) by a [`Refused`]. Nothing here panics.
//!
//! # The library
//!
//! `bin/vtdm-c out`, at the top of the repository, proves and builds the C library into the folder `out` there, where the build script
//! of this crate looks for it. For another folder, the environment variable `VTDM_DIR` is its absolute path. The library takes memory
//! by the C library's `malloc`, and not by Rust's allocator: at a creation, and never else.

#![deny(unsafe_code)]
#![warn(missing_docs, missing_debug_implementations, unreachable_pub)]
#![cfg_attr(
    not(test),
    deny(
        clippy::arithmetic_side_effects,
        clippy::expect_used,
        clippy::indexing_slicing,
        clippy::panic,
        clippy::undocumented_unsafe_blocks,
        clippy::unreachable,
        clippy::unwrap_used
    )
)]

mod choices;
mod creation;
mod effects;
#[allow(unsafe_code, reason = "the only module that calls C")]
mod ffi;
pub mod limits;
mod manager;
mod numbers;
mod readers;
mod refused;
mod rights;

pub use choices::{
    Access, Cache, Context, Descriptor, DomainTotals, Mode, Progress, Reaped, Totals, Unmapped,
    Whim, Width,
};
pub use effects::{Effect, Effects, Half};
pub use manager::Manager;
pub use numbers::{
    Address, Device, Devices, Domain, Frame, HostAddress, Order, Page, Pages, Segment, TableFrame,
    Ticket,
};
pub use refused::Refused;
pub use rights::Rights;
