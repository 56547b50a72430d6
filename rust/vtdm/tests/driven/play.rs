//! Random calls.

use crate::unit::{STATUS, TABLE_FRAMES, Unit, sent};
use vtdm::limits::{DEVICES, MOST_EFFECTS};
use vtdm::{
    Access, Address, Cache, Device, Domain, Effect, Frame, Manager, Mode, Order, Reaped, Refused,
    Rights, Segment, Ticket, Whim, Width,
};

struct Random(u64);

impl Random {
    fn below(&mut self, end: u64) -> u64 {
        let Random(seed) = self;
        *seed = seed.wrapping_mul(0x5851_F42D_4C95_7F2D).wrapping_add(0x1405_7B7E_F767_814F);
        (*seed >> 33) % end
    }
}

/// Random calls on a driven manager, each followed by a unit.
pub(crate) struct Play {
    manager: Manager,
    unit: Unit,
    random: Random,
    mapped: Vec<(Domain, Address, u64)>,
    tickets: Vec<Ticket>,
    pub(crate) refused: usize,
    pub(crate) reaped: usize,
    /// How many effects of each kind there were.
    pub(crate) asked: [usize; 5],
}

impl Play {
    pub(crate) const CALLS: usize = 2000;
    /// Domains to which devices are attached, and of which flushes are begun. The others are dropped now and then.
    const LASTING: u64 = 4;

    pub(crate) fn new(caching: bool, base: Frame) -> Play {
        let mut manager = Manager::driven(TABLE_FRAMES, base, caching, STATUS).unwrap();
        for (mode, width) in [
            (Mode::Strict, Width::W39),
            (Mode::Lazy, Width::W39),
            (Mode::Strict, Width::W48),
            (Mode::Lazy, Width::W48),
        ] {
            manager.domain(mode, width).unwrap();
        }
        Play {
            manager,
            unit: Unit::new(),
            random: Random(20),
            mapped: Vec::new(),
            tickets: Vec::new(),
            refused: 0,
            reaped: 0,
            asked: [0; 5],
        }
    }

    /// Makes a call, does what it asks, and compares what the unit has then with what the manager has.
    fn call<A>(&mut self, call: impl FnOnce(&mut Manager) -> Result<A, Refused>) -> Option<A> {
        let before = self.manager.waits().unwrap();
        let answer = call(&mut self.manager).ok();
        let effects = self.manager.effects().unwrap();
        assert!(effects.len() as u64 <= MOST_EFFECTS);
        assert!(answer.is_some() || effects.is_empty());
        self.refused += usize::from(answer.is_none());
        let mut told = Vec::new();
        for effect in effects {
            if let Effect::Send(descriptor) = effect {
                told.push(descriptor);
            }
            self.count(effect);
            self.unit.follow(&self.manager, effect);
        }
        let count = 2 * (self.manager.waits().unwrap() - before);
        let sent: Vec<_> = (0..count).rev().map(|back| sent(&self.manager, back)).collect();
        assert_eq!(told, sent);
        self.unit.agrees(&self.manager);
        answer
    }

    fn count(&mut self, effect: Effect) {
        let kind = match effect {
            Effect::Words { .. } => 0,
            Effect::Barrier => 1,
            Effect::Context { .. } => 2,
            Effect::Send(_) => 3,
            Effect::Await(_) => 4,
        };
        self.asked[kind] += 1;
    }

    fn lasting(&mut self) -> Domain {
        Domain::new(1 + self.random.below(Self::LASTING))
    }

    fn other(&mut self) -> Domain {
        Domain::new(1 + Self::LASTING + self.random.below(4))
    }

    fn device(&mut self) -> Device {
        Device::new(self.random.below(DEVICES))
    }

    fn make(&mut self) {
        let mode = [Mode::Strict, Mode::Lazy][self.random.below(2) as usize];
        let width = [Width::W39, Width::W48][self.random.below(2) as usize];
        if self.manager.mode_of(Domain::new(8)).is_err() {
            self.call(|it| it.domain(mode, width));
        }
    }

    fn end(&mut self) {
        let domain = self.other();
        if self.call(|it| it.drop_domain(domain)).is_some() {
            self.mapped.retain(|it| it.0 != domain);
        }
    }

    fn map(&mut self, list: bool) {
        let domain = if self.random.below(2) == 0 { self.lasting() } else { self.other() };
        let most = [4, 1200][self.random.below(2) as usize];
        let pages = 1 + self.random.below(most);
        let order = Order::new(self.random.below(10));
        let frame = 0x1000 + [1, 512][self.random.below(2) as usize] * self.random.below(64);
        let parts = [(frame, pages), (0x8000, 1)];
        let segments = parts.map(|(frame, pages)| Segment::new(frame.into(), pages.into()));
        let at = self.call(|it| match list {
            true => it.map_list(domain, order, Rights::BOTH, &segments),
            false => it.map(domain, frame.into(), pages.into(), order, Rights::READ),
        });
        self.mapped.extend(at.map(|it| (domain, it, pages + u64::from(list))));
    }

    /// Ends the first pages of a map, or all of them.
    fn unmap(&mut self) {
        if self.mapped.is_empty() {
            return;
        }
        let one = self.random.below(self.mapped.len() as u64) as usize;
        let (domain, at, pages) = self.mapped.swap_remove(one);
        let ended = if self.random.below(2) == 0 { pages } else { 1 + self.random.below(pages) };
        let (rest, left) = match self.call(|it| it.unmap(domain, at, ended.into())) {
            Some(_) => (at.checked_add(ended.into()).unwrap(), pages - ended),
            None => (at, pages),
        };
        if left > 0 {
            self.mapped.push((domain, rest, left));
        }
    }

    fn begin(&mut self) {
        let domain = self.lasting();
        let ticket = self.call(|it| it.begin(domain));
        self.tickets.extend(ticket);
    }

    /// Ends a begun flush, after the library's unit has done what this one has, and no more.
    fn reap(&mut self) {
        if self.tickets.is_empty() {
            return;
        }
        let done = self.unit.done;
        self.call(|it| it.done_up_to(done));
        let one = self.random.below(self.tickets.len() as u64) as usize;
        let ticket = self.tickets[one];
        if let Some(Reaped::Released(_)) = self.call(|it| it.reap(ticket)) {
            let _ = self.tickets.swap_remove(one);
            self.reaped += 1;
        }
    }

    pub(crate) fn step(&mut self) {
        let (domain, device) = (self.lasting(), self.device());
        match self.random.below(24) {
            0 => self.make(),
            1 => self.end(),
            2 | 3 => drop(self.call(|it| it.attach(device, domain))),
            4 => drop(self.call(|it| it.detach(device))),
            5 => drop(self.call(|it| it.detach_all(device))),
            6..=10 => self.map(false),
            11 => self.map(true),
            12..=17 => self.unmap(),
            18 => drop(self.call(|it| it.flush(domain))),
            19 => self.begin(),
            20 => self.reap(),
            21 => self.unit.step(),
            22 => drop(self.call(|it| it.dma(device, 0x1000.into(), Access::Read, Whim::CACHED))),
            _ => drop(self.call(|it| it.evict(Cache::Leaf, 0))),
        }
    }
}
