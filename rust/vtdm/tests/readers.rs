//! Readers: by a shared reference, and what they say of the tables, walked by their words as a unit with empty caches does.

use vtdm::limits::PAGE_BYTES;
use vtdm::{
    Access, Address, Descriptor, Device, Devices, Domain, HostAddress, Manager, Mode, Order, Pages,
    Refused, Rights, TableFrame, Whim, Width,
};

/// The bit of a leaf of 2 MiB.
const LARGE: u64 = 0x80;
/// The bits of the address width in a context entry's high word, and how many levels a walk has more than their number.
const AGAW: u64 = 7;
const LEVELS_OVER_AGAW: u64 = 2;

/// The lowest bit of an address that a level translates.
fn lowest(level: u64) -> u64 {
    12 + 9 * (level - 1)
}

/// What a unit that remembers nothing reads for a request to read.
fn walk(manager: &Manager, device: Device, address: Address) -> Result<HostAddress, Refused> {
    let context = manager.context(device)?;
    if context.low & 1 == 0 {
        return Err(Refused::FaultNotAttached);
    }
    let levels = (context.high & AGAW) + LEVELS_OVER_AGAW;
    let address = address.get();
    if address >> lowest(levels + 1) != 0 {
        return Err(Refused::FaultBeyondWidth);
    }
    let mut table = TableFrame::new(context.low >> 12);
    for level in (1..=levels).rev() {
        let word = manager.table_word(table, address >> lowest(level) & 511)?;
        if word & Rights::READ.bits() == 0 {
            return Err(Refused::FaultRead);
        }
        if level == 1 || word & LARGE != 0 {
            let offset = address & ((1 << lowest(level)) - 1);
            return Ok(HostAddress::new((word >> 12 << 12) + offset));
        }
        table = TableFrame::new(word >> 12);
    }
    Err(Refused::FaultRead)
}

#[test]
fn walks_by_words_agree_with_requests() {
    let device = Device::new(3);
    for width in [Width::W39, Width::W48] {
        let mut manager = Manager::new(64).unwrap();
        assert_eq!(walk(&manager, device, Address::new(0)), Err(Refused::FaultNotAttached));
        let domain = manager.domain(Mode::Strict, width).unwrap();
        manager.attach(device, domain).unwrap();
        let small = manager.map(domain, 0x101.into(), 3.into(), Order::PAGE, Rights::BOTH).unwrap();
        let large =
            manager.map(domain, 0x400.into(), 512.into(), Order::MIB_2, Rights::READ).unwrap();
        let behind = large.checked_add(Pages::new(1)).unwrap();
        let _ = manager.unmap(domain, behind, Pages::new(1)).unwrap();
        let starts = [0, small.get(), large.get(), 1 << 38, 1 << 39, 1 << 47, 1 << 48];
        for address in
            starts.into_iter().flat_map(|it| (0..4).map(move |n| it + n * PAGE_BYTES + n))
        {
            let address = Address::new(address);
            let read = walk(&manager, device, address);
            assert_eq!(read, manager.dma(device, address, Access::Read, Whim::WALKED));
        }
        assert_eq!(walk(&manager, device, large), Ok(HostAddress::new(0x40_0000)));
        assert_eq!(walk(&manager, device, behind), Err(Refused::FaultRead));
    }
}

#[test]
fn they_take_a_shared_reference() {
    let mut manager = Manager::new(64).unwrap();
    let domain = manager.domain(Mode::Lazy, Width::W39).unwrap();
    let (one, other): (&Manager, &Manager) = (&manager, &manager);
    assert_eq!(one.mode_of(domain), Ok(Mode::Lazy));
    assert_eq!(other.totals(), one.totals());
    assert!(one.root_of(domain).unwrap() < TableFrame::new(64));
}

#[test]
fn they_tell_what_is_attached() {
    let mut manager = Manager::new(64).unwrap();
    let one = manager.domain(Mode::Strict, Width::W39).unwrap();
    let two = manager.domain(Mode::Lazy, Width::W48).unwrap();
    for device in [2, 15] {
        manager.attach(Device::new(device), two).unwrap();
    }
    assert_eq!(manager.domain_of(Device::new(15)), Ok(two));
    assert_eq!(manager.domain_of(Device::new(3)), Err(Refused::NotAttached));
    assert_eq!(manager.domain_of(Device::new(16)), Err(Refused::NoDevice));
    assert_eq!(manager.devices_of(two), Ok(Devices::from_bits(0x8004)));
    assert_eq!(manager.devices_of(one), Ok(Devices::default()));
    assert_eq!(manager.devices_of(Domain::new(0)), Err(Refused::NoDomain));
    let context = manager.context(Device::new(15)).unwrap();
    let root = manager.root_of(two).unwrap();
    assert_eq!((context.low, context.high), (root.get() << 12 | 1, two.get() << 8 | 2));
    let empty = manager.context(Device::new(3)).unwrap();
    assert_eq!((empty.low, empty.high), (0, 0));
}

#[test]
fn they_tell_sizes() {
    let mut manager = Manager::new(64).unwrap();
    let domain = manager.domain(Mode::Lazy, Width::W39).unwrap();
    let at = manager.map(domain, 0x101.into(), 512.into(), Order::MIB_2, Rights::READ).unwrap();
    let _ = manager.unmap(domain, at, Pages::new(512)).unwrap();
    let _ticket = manager.begin(domain).unwrap();
    let all = manager.totals().unwrap();
    assert_eq!((all.free, all.used, all.held, all.tickets, all.pending), (61, 2, 1, 1, 2));
    let one = manager.domain_totals(domain).unwrap();
    assert_eq!((one.mode, one.live, one.retired), (Mode::Lazy, 0, 1));
    assert_eq!(manager.width_of(domain), Ok(Width::W39));
}

#[test]
fn a_domain_that_there_is_not_has_nothing() {
    let manager = Manager::new(64).unwrap();
    let domain = Domain::new(1);
    assert_eq!(manager.mode_of(domain), Err(Refused::NoDomain));
    assert_eq!(manager.width_of(domain), Err(Refused::NoDomain));
    assert_eq!(manager.root_of(domain), Err(Refused::NoDomain));
    assert_eq!(manager.domain_totals(domain), Err(Refused::NoDomain));
    assert_eq!(manager.table_word(TableFrame::new(0), 512), Err(Refused::NoWord));
    assert!(manager.table_word(TableFrame::new(63), 511).is_ok());
}

#[test]
fn words_at_once_are_those_read_alone() {
    let mut manager = Manager::new(64).unwrap();
    let domain = manager.domain(Mode::Strict, Width::W48).unwrap();
    manager.map(domain, 0x101.into(), 3.into(), Order::PAGE, Rights::BOTH).unwrap();
    let root = manager.root_of(domain).unwrap();
    let mut words = [0; 512];
    manager.words(root, 0, &mut words).unwrap();
    assert!(words.iter().any(|it| *it != 0));
    assert!((0..512).map(|it| manager.table_word(root, it)).eq(words.map(Ok)));
    let mut few = [7; 2];
    manager.words(root, 510, &mut few).unwrap();
    assert_eq!(few, words[510..]);
    few = [7; 2];
    assert_eq!(manager.words(root, 511, &mut few), Err(Refused::NoWord));
    assert_eq!(manager.words(TableFrame::new(64), 0, &mut few), Err(Refused::NoWord));
    assert_eq!(few, [7; 2]);
    assert_eq!(manager.words(root, 512, &mut []), Ok(()));
}

#[test]
fn what_was_sent_is_told_from_the_last_one_back() {
    let mut manager = Manager::new(64).unwrap();
    assert_eq!((manager.waits(), manager.sent(0)), (Ok(0), Err(Refused::NoDescriptor)));
    let domain = manager.domain(Mode::Strict, Width::W39).unwrap();
    let at = manager.map(domain, 0x100.into(), 1.into(), Order::PAGE, Rights::READ).unwrap();
    let _ = manager.unmap(domain, at, Pages::new(1)).unwrap();
    let _ticket = manager.begin(domain).unwrap();
    assert_eq!(manager.waits(), Ok(2));
    let wait = |number: u64| Descriptor { low: number << 32 | 0x25, high: 1 << 36 };
    let of_pages = Descriptor { low: 0x100f2, high: at.get() | 1 << 6 };
    let sent = [wait(2), Descriptor { low: 0x100e2, high: 0 }, wait(1), of_pages];
    assert!((0..4).map(|it| manager.sent(it)).eq(sent.map(Ok)));
    assert_eq!(manager.sent(4), Err(Refused::NoDescriptor));
}
