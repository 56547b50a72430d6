//! What a call asks of a unit that isn't the library's own.

use crate::choices::Descriptor;
use crate::ffi::{self, kinds};
use crate::limits::MOST_EFFECTS;
use crate::numbers::{Device, TableFrame};
use crate::refused::Refused;
use std::array;
use std::fmt;
use std::iter::Take;
use std::ops::Deref;
use std::slice;

/// The places of a list, which no call needs more of.
pub(crate) const PLACES: usize = MOST_EFFECTS as usize;

/// One thing that a call asks.
#[derive(Clone, Copy, Debug, PartialEq, Eq, Hash)]
pub enum Effect {
    /// Bring words of table frames to the unit's memory. [`Manager::words`](crate::Manager::words) has them. Store each word of 64 bits
    /// at once.
    Words {
        /// The table frame where they begin.
        frame: TableFrame,
        /// The index of the first word there.
        first: u64,
        /// How many. They go on over the frames behind it where they are more than are left of it.
        count: u64,
    },
    /// What was brought before is in memory before what follows. That is a fence. Where the unit doesn't snoop the processor's caches,
    /// write back what was brought before it; where it asks for its write buffer to be flushed (RWBF), do that.
    Barrier,
    /// Bring the context entry of this device, which [`Manager::context`](crate::Manager::context) has: this word of it, and then the
    /// other.
    Context {
        /// The device.
        device: Device,
        /// The word that goes first.
        first: Half,
    },
    /// Put this descriptor into the unit's queue, and tell it the new tail.
    Send(Descriptor),
    /// Go on when the unit has written the status of the wait of this number, the low 32 bits of it, to the status address.
    Await(u64),
}

/// A word of a context entry.
#[derive(Clone, Copy, Debug, PartialEq, Eq, Hash)]
pub enum Half {
    /// Bits 0 to 63. The lowest says whether the entry is present.
    Low,
    /// Bits 64 to 127.
    High,
}

impl Half {
    fn of(number: u64) -> Result<Half, Refused> {
        match number {
            0 => Ok(Half::Low),
            1 => Ok(Half::High),
            _ => Err(Refused::Unknown),
        }
    }
}

impl Effect {
    fn of(told: ffi::Effect) -> Result<Effect, Refused> {
        let ffi::Effect { kind, number, first, count, low, high } = told;
        match kind {
            kinds::EFFECT_WORDS => {
                Ok(Effect::Words { frame: TableFrame::new(number), first, count })
            }
            kinds::EFFECT_BARRIER => Ok(Effect::Barrier),
            kinds::EFFECT_CONTEXT => {
                Ok(Effect::Context { device: Device::new(number), first: Half::of(first)? })
            }
            kinds::EFFECT_SEND => Ok(Effect::Send(Descriptor { low, high })),
            kinds::EFFECT_AWAIT => Ok(Effect::Await(number)),
            _ => Err(Refused::Unknown),
        }
    }
}

/// What a call asks, in the order in which it is to be done: at most 32 effects. It is a slice of them, and takes no memory.
///
/// ```
/// use vtdm::{Effect, Frame, Half, HostAddress, Manager, Mode, Width};
///
/// let mut manager = Manager::driven(64, Frame::new(0), false, HostAddress::new(0x8000))?;
/// let domain = manager.domain(Mode::Strict, Width::W39)?;
/// assert!(manager.effects()?.is_empty());
/// manager.attach(3.into(), domain)?;
/// assert_eq!(*manager.effects()?, [Effect::Context { device: 3.into(), first: Half::High }, Effect::Barrier]);
/// # Ok::<(), vtdm::Refused>(())
/// ```
#[derive(Clone)]
#[must_use = "they are told once, and what the call set free can be reached until they are done"]
pub struct Effects {
    /// Behind `count` of them stands what asks nothing more.
    places: [Effect; PLACES],
    count: usize,
}

impl Effects {
    /// The first `count` of what was told.
    pub(crate) fn of(told: &[ffi::Effect; PLACES], count: u64) -> Result<Effects, Refused> {
        let count = usize::try_from(count).unwrap_or(PLACES).min(PLACES);
        let mut effects = Effects { places: [Effect::Barrier; PLACES], count };
        for (place, one) in effects.places.iter_mut().zip(told).take(count) {
            *place = Effect::of(*one)?;
        }
        Ok(effects)
    }
}

impl Deref for Effects {
    type Target = [Effect];

    fn deref(&self) -> &[Effect] {
        self.places.get(..self.count).unwrap_or(&self.places)
    }
}

impl IntoIterator for Effects {
    type Item = Effect;
    type IntoIter = Take<array::IntoIter<Effect, PLACES>>;

    fn into_iter(self) -> Self::IntoIter {
        self.places.into_iter().take(self.count)
    }
}

impl<'a> IntoIterator for &'a Effects {
    type Item = &'a Effect;
    type IntoIter = slice::Iter<'a, Effect>;

    fn into_iter(self) -> Self::IntoIter {
        self.iter()
    }
}

impl PartialEq for Effects {
    fn eq(&self, other: &Effects) -> bool {
        **self == **other
    }
}

impl Eq for Effects {}

impl fmt::Debug for Effects {
    fn fmt(&self, f: &mut fmt::Formatter<'_>) -> fmt::Result {
        f.debug_list().entries(self).finish()
    }
}

#[cfg(test)]
mod tests {
    use super::*;

    const TOLD: ffi::Effect =
        ffi::Effect { kind: 0, number: 3, first: 1, count: 7, low: 11, high: 13 };

    /// What is told by numbers of these kinds.
    fn told(given: &[u64]) -> [ffi::Effect; PLACES] {
        let mut places = [ffi::Effect::NONE; PLACES];
        for (place, kind) in places.iter_mut().zip(given) {
            *place = ffi::Effect { kind: *kind, ..TOLD };
        }
        places
    }

    #[test]
    fn each_kind_has_its_members() {
        let kinds = [
            kinds::EFFECT_WORDS,
            kinds::EFFECT_BARRIER,
            kinds::EFFECT_CONTEXT,
            kinds::EFFECT_SEND,
            kinds::EFFECT_AWAIT,
        ];
        let wanted = [
            Effect::Words { frame: TableFrame::new(3), first: 1, count: 7 },
            Effect::Barrier,
            Effect::Context { device: Device::new(3), first: Half::High },
            Effect::Send(Descriptor { low: 11, high: 13 }),
            Effect::Await(3),
        ];
        let effects = Effects::of(&told(&kinds), 5).unwrap();
        assert_eq!(*effects, wanted);
        assert!(effects.clone().into_iter().eq(wanted));
        assert_eq!(format!("{effects:?}"), format!("{wanted:?}"));
    }

    #[test]
    fn a_kind_without_a_name_is_told() {
        for kind in [0, 6, u64::MAX] {
            assert_eq!(Effects::of(&told(&[kind]), 1), Err(Refused::Unknown));
        }
    }

    #[test]
    fn a_context_entry_has_two_words() {
        let mut places = told(&[kinds::EFFECT_CONTEXT]);
        for (first, half) in [(0, Ok(Half::Low)), (1, Ok(Half::High)), (2, Err(Refused::Unknown))] {
            places[0].first = first;
            let effects = Effects::of(&places, 1);
            let wanted = half.map(|first| Effect::Context { device: Device::new(3), first });
            assert_eq!(effects.map(|effects| effects[0]), wanted);
        }
    }

    #[test]
    fn a_list_has_as_many_as_were_told() {
        let barriers = told(&[kinds::EFFECT_BARRIER; PLACES]);
        for count in [0, 1, 31, 32] {
            let effects = Effects::of(&barriers, count).unwrap();
            assert_eq!(effects.len() as u64, count);
            assert_eq!((&effects).into_iter().count(), effects.into_iter().count());
        }
        assert_eq!(Effects::of(&barriers, u64::MAX).unwrap().len(), PLACES);
        assert_ne!(Effects::of(&barriers, 1), Effects::of(&barriers, 2));
    }
}
