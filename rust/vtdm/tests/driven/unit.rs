//! A unit of the tests' own.

use std::collections::VecDeque;
use vtdm::limits::DEVICES;
use vtdm::{Context, Descriptor, Device, Effect, Half, HostAddress, Manager, TableFrame};

/// Where its waits write their status.
pub(crate) const STATUS: HostAddress = HostAddress::new(0x8004);
/// Table frames of a manager that is in charge of it, and the words of each.
pub(crate) const TABLE_FRAMES: u64 = 64;
pub(crate) const TABLE_WORDS: u64 = 512;

/// Whether it is a wait, and the status that it writes.
fn status_of(descriptor: Descriptor) -> Option<u64> {
    (descriptor.low & 15 == 5).then_some(descriptor.low >> 32)
}

/// A descriptor that the manager has sent, as the unit is to get it.
pub(crate) fn sent(manager: &Manager, back: u64) -> Descriptor {
    let descriptor = manager.sent(back).unwrap();
    let high = if status_of(descriptor).is_some() { STATUS.get() } else { descriptor.high };
    Descriptor { high, ..descriptor }
}

/// A unit that has no more than it was told: words of table frames, context entries, and its queue.
pub(crate) struct Unit {
    words: Vec<u64>,
    contexts: Vec<Context>,
    queue: VecDeque<Descriptor>,
    /// The number of the last wait that it has done, and the status that this one wrote.
    pub(crate) done: u64,
    status: u64,
}

impl Unit {
    pub(crate) fn new() -> Unit {
        Unit {
            words: vec![0; (TABLE_FRAMES * TABLE_WORDS) as usize],
            contexts: vec![Context { low: 0, high: 0 }; DEVICES as usize],
            queue: VecDeque::new(),
            done: 0,
            status: 0,
        }
    }

    /// Does the first descriptor of its queue, if there is one.
    pub(crate) fn step(&mut self) {
        if let Some(status) = self.queue.pop_front().and_then(status_of) {
            self.done += 1;
            self.status = status;
        }
    }

    pub(crate) fn follow(&mut self, manager: &Manager, effect: Effect) {
        match effect {
            Effect::Words { frame, first, count } => {
                let from = frame.get() * TABLE_WORDS + first;
                for place in from..from + count {
                    let (frame, index) =
                        (TableFrame::new(place / TABLE_WORDS), place % TABLE_WORDS);
                    self.words[place as usize] = manager.table_word(frame, index).unwrap();
                }
            }
            Effect::Barrier => (),
            Effect::Context { device, first } => {
                let entry = manager.context(device).unwrap();
                // What is brought last makes the entry present; a unit looks at no more where it isn't.
                assert_eq!(first, if entry.low & 1 == 1 { Half::High } else { Half::Low });
                self.contexts[device.get() as usize] = entry;
            }
            Effect::Send(descriptor) => self.queue.push_back(descriptor),
            Effect::Await(number) => {
                while !self.queue.is_empty() && self.done < number {
                    self.step();
                }
                assert_eq!((self.done, self.status), (number, number & 0xffff_ffff));
            }
        }
    }

    /// Its memory is what the manager's readers say, word for word.
    pub(crate) fn agrees(&self, manager: &Manager) {
        let mut words = [0; TABLE_WORDS as usize];
        for (frame, own) in (0..).zip(self.words.chunks(words.len())) {
            manager.words(TableFrame::new(frame), 0, &mut words).unwrap();
            assert!(words == own, "table frame {frame}");
        }
        for (device, own) in (0..).zip(&self.contexts) {
            assert_eq!(manager.context(Device::new(device)), Ok(*own));
        }
    }
}
