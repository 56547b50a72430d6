//! The functions of the C library, as its header `vtdm.h` declares them. This is the only module with `unsafe`.
//!
//! Types stand for what the header has C owe, so that all functions but three are safe to call.

use crate::numbers::Segment;
use std::ffi::c_void;
use std::ptr;

/// `struct vtdm`: a manager, or none. It is neither `Copy` nor `Clone`, and nothing but the library writes its members.
#[repr(C)]
#[allow(dead_code, reason = "the library alone reads and writes them")]
pub(crate) struct Handle {
    at: *mut c_void,
    live: bool,
}

impl Handle {
    /// No manager: `VTDM_INIT`.
    pub(crate) const fn none() -> Handle {
        Handle { at: ptr::null_mut(), live: false }
    }
}

// SAFETY: the header says that any thread may call, as long as there is one call at a time on one manager. A call takes a
// `&mut Handle`, which one thread has at a time. The memory behind the address is the manager's alone, and it is taken and given back
// by malloc, realloc and free, which any thread may call.
unsafe impl Send for Handle {}

/// `struct vtdm_answer`.
#[repr(C)]
pub(crate) struct Answer {
    pub(crate) status: u64,
    pub(crate) value: u64,
}

/// `struct vtdm_totals_answer`.
#[repr(C)]
pub(crate) struct TotalsAnswer {
    pub(crate) status: u64,
    pub(crate) free: u64,
    pub(crate) used: u64,
    pub(crate) held: u64,
    pub(crate) tickets: u64,
    pub(crate) pending: u64,
}

/// `struct vtdm_domain_totals_answer`.
#[repr(C)]
pub(crate) struct DomainTotalsAnswer {
    pub(crate) status: u64,
    pub(crate) mode: u64,
    pub(crate) live: u64,
    pub(crate) retired: u64,
    pub(crate) pieces: u64,
}

/// `struct vtdm_context_answer`.
#[repr(C)]
pub(crate) struct ContextAnswer {
    pub(crate) status: u64,
    pub(crate) low: u64,
    pub(crate) high: u64,
}

/// `struct vtdm_sent_answer`.
#[repr(C)]
pub(crate) struct SentAnswer {
    pub(crate) status: u64,
    pub(crate) low: u64,
    pub(crate) high: u64,
}

/// `struct vtdm_effect`.
#[derive(Clone, Copy)]
#[repr(C)]
pub(crate) struct Effect {
    pub(crate) kind: u64,
    pub(crate) number: u64,
    pub(crate) first: u64,
    pub(crate) count: u64,
    pub(crate) low: u64,
    pub(crate) high: u64,
}

impl Effect {
    /// A place where nothing is told yet.
    pub(crate) const NONE: Effect =
        Effect { kind: 0, number: 0, first: 0, count: 0, low: 0, high: 0 };
}

/// `enum vtdm_effect_kind`.
pub(crate) mod kinds {
    pub(crate) const EFFECT_WORDS: u64 = 1;
    pub(crate) const EFFECT_BARRIER: u64 = 2;
    pub(crate) const EFFECT_CONTEXT: u64 = 3;
    pub(crate) const EFFECT_SEND: u64 = 4;
    pub(crate) const EFFECT_AWAIT: u64 = 5;
}

// SAFETY: the functions have these names in libvtdm.a, and the header's types; the gate compares both texts. Those that are `safe` may
// be called with any arguments of their types. What the header has C owe holds.
//  - A `Handle` is `Handle::none()` before its creation, since there is no other way to make one, and nothing else writes it.
//  - It is not copied, but moved, and not between the begin and the end of a call, since the call borrows it.
//  - There is one call at a time on it, by a `&mut Handle`, which is not null and is aligned.
//  - malloc, realloc and free are those of the C library that the program is linked with.
//  - A signal handler, or the child of a fork, gets to a `Handle` that another call has only by other `unsafe` code.
// A `Handle` that goes away without `vtdm_destroy` is lost memory, and nothing worse. Every number may be any number. No function calls
// back into Rust, and none unwinds.
unsafe extern "C" {
    pub(crate) safe fn vtdm_create(manager: &mut Handle, frames: u64) -> u64;
    pub(crate) safe fn vtdm_create_caching(manager: &mut Handle, frames: u64) -> u64;
    pub(crate) safe fn vtdm_create_driven(
        manager: &mut Handle,
        frames: u64,
        base: u64,
        caching: bool,
        status: u64,
    ) -> u64;
    pub(crate) safe fn vtdm_destroy(manager: &mut Handle);
    pub(crate) safe fn vtdm_domain(manager: &mut Handle, lazy: bool) -> Answer;
    pub(crate) safe fn vtdm_domain_wide(manager: &mut Handle, lazy: bool) -> Answer;
    pub(crate) safe fn vtdm_drop(manager: &mut Handle, domain: u64) -> Answer;
    pub(crate) safe fn vtdm_attach(manager: &mut Handle, device: u64, domain: u64) -> Answer;
    pub(crate) safe fn vtdm_detach(manager: &mut Handle, device: u64) -> Answer;
    pub(crate) safe fn vtdm_detach_all(manager: &mut Handle, device: u64) -> Answer;
    pub(crate) safe fn vtdm_map(
        manager: &mut Handle,
        domain: u64,
        frame: u64,
        pages: u64,
        order: u64,
        rights: u64,
    ) -> Answer;
    fn vtdm_map_list(
        manager: &mut Handle,
        domain: u64,
        order: u64,
        rights: u64,
        segments: *const Segment,
        count: usize,
    ) -> Answer;
    pub(crate) safe fn vtdm_unmap(
        manager: &mut Handle,
        domain: u64,
        address: u64,
        pages: u64,
    ) -> Answer;
    pub(crate) safe fn vtdm_flush(manager: &mut Handle, domain: u64) -> Answer;
    pub(crate) safe fn vtdm_begin(manager: &mut Handle, domain: u64) -> Answer;
    pub(crate) safe fn vtdm_unit(manager: &mut Handle) -> Answer;
    pub(crate) safe fn vtdm_done_up_to(manager: &mut Handle, wait: u64) -> Answer;
    pub(crate) safe fn vtdm_reap(manager: &mut Handle, domain: u64, number: u64) -> Answer;
    pub(crate) safe fn vtdm_dma(
        manager: &mut Handle,
        device: u64,
        address: u64,
        write: bool,
        look: bool,
        fill: bool,
    ) -> Answer;
    pub(crate) safe fn vtdm_evict(manager: &mut Handle, cache: u64, place: u64) -> Answer;
    pub(crate) safe fn vtdm_totals(manager: &mut Handle) -> TotalsAnswer;
    pub(crate) safe fn vtdm_domain_totals(manager: &mut Handle, domain: u64) -> DomainTotalsAnswer;
    pub(crate) safe fn vtdm_domain_of(manager: &mut Handle, device: u64) -> Answer;
    pub(crate) safe fn vtdm_devices_of(manager: &mut Handle, domain: u64) -> Answer;
    pub(crate) safe fn vtdm_mode_of(manager: &mut Handle, domain: u64) -> Answer;
    pub(crate) safe fn vtdm_width_of(manager: &mut Handle, domain: u64) -> Answer;
    fn vtdm_effects(manager: &mut Handle, to: *mut Effect, count: usize) -> Answer;
    pub(crate) safe fn vtdm_root_of(manager: &mut Handle, domain: u64) -> Answer;
    pub(crate) safe fn vtdm_table_word(manager: &mut Handle, frame: u64, index: u64) -> Answer;
    fn vtdm_words(manager: &mut Handle, frame: u64, first: u64, to: *mut u64, count: usize) -> u64;
    pub(crate) safe fn vtdm_context(manager: &mut Handle, device: u64) -> ContextAnswer;
    pub(crate) safe fn vtdm_sent(manager: &mut Handle, back: u64) -> SentAnswer;
    pub(crate) safe fn vtdm_waits(manager: &mut Handle) -> Answer;
}

/// `vtdm_map_list` of a slice.
pub(crate) fn map_list(
    manager: &mut Handle,
    domain: u64,
    order: u64,
    rights: u64,
    segments: &[Segment],
) -> Answer {
    // SAFETY: the address of a slice is not null and is aligned, also where the slice is empty, and as many segments as it has can be
    // read there. `Segment` is laid out as `struct vtdm_segment`. The call writes none, and keeps no pointer.
    unsafe { vtdm_map_list(manager, domain, order, rights, segments.as_ptr(), segments.len()) }
}

/// `vtdm_effects` into a slice.
pub(crate) fn effects(manager: &mut Handle, to: &mut [Effect]) -> Answer {
    // SAFETY: the address of a slice is not null and is aligned, also where the slice is empty, and as many effects as it has places can
    // be written there. `Effect` is laid out as `struct vtdm_effect`, and any numbers make one. It is borrowed alone, so the handle is
    // none of them. The call keeps no pointer.
    unsafe { vtdm_effects(manager, to.as_mut_ptr(), to.len()) }
}

/// `vtdm_words` into a slice.
pub(crate) fn words(manager: &mut Handle, frame: u64, first: u64, to: &mut [u64]) -> u64 {
    // SAFETY: the address of a slice is not null and is aligned, also where the slice is empty, and as many words as it has can be
    // written there. It is borrowed alone, so the handle is none of them. The call keeps no pointer.
    unsafe { vtdm_words(manager, frame, first, to.as_mut_ptr(), to.len()) }
}
