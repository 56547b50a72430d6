//! Each refusal and each fault, and what lies at the edge of each limit.

use std::collections::HashSet;
use vtdm::limits::*;
use vtdm::{
    Access, Address, Cache, Device, Domain, Frame, HostAddress, Manager, Mode, Order, Pages,
    Reaped, Refused, Rights, Segment, TableFrame, Ticket, Unmapped, Whim, Width,
};

const ONE: Domain = Domain::new(1);
const MOST: u64 = u64::MAX;

/// A manager with one strict domain of 39 bits, to which device 3 is attached.
fn begun(frames: u64) -> Manager {
    let mut manager = Manager::new(frames).unwrap();
    assert_eq!(manager.domain(Mode::Strict, Width::W39), Ok(ONE));
    manager.attach(Device::new(3), ONE).unwrap();
    manager
}

fn map(manager: &mut Manager, frame: u64, pages: u64, order: u64) -> Result<Address, Refused> {
    manager.map(ONE, Frame::new(frame), Pages::new(pages), Order::new(order), Rights::READ)
}

fn unmap(manager: &mut Manager, address: u64, pages: u64) -> Result<Unmapped, Refused> {
    manager.unmap(ONE, Address::new(address), Pages::new(pages))
}

fn read(manager: &mut Manager, device: u64, address: u64) -> Result<HostAddress, Refused> {
    manager.dma(Device::new(device), Address::new(address), Access::Read, Whim::CACHED)
}

fn write(manager: &mut Manager, device: u64, address: u64) -> Result<HostAddress, Refused> {
    manager.dma(Device::new(device), Address::new(address), Access::Write, Whim::CACHED)
}

/// What creations, domains and devices are refused.
fn of_domains() -> Vec<Refused> {
    let mut manager = begun(17);
    let mut all = vec![Manager::new(15).unwrap_err()];
    all.extend(manager.flush(Domain::new(2)).err());
    all.extend(manager.detach(Device::new(16)).err());
    all.extend(manager.detach(Device::new(15)).err());
    all.extend(manager.drop_domain(ONE).err());
    for _ in 2..=MOST_DOMAINS {
        manager.domain(Mode::Lazy, Width::W48).unwrap();
    }
    all.extend(manager.domain(Mode::Lazy, Width::W39).err());
    assert_eq!(map(&mut manager, 17, 1, 0), Ok(Address::new(0x1000)));
    let elsewhere =
        manager.map(Domain::new(2), Frame::new(17), Pages::new(1), Order::PAGE, Rights::READ);
    all.extend(elsewhere.err());
    all
}

/// What maps, unmaps and readers are refused.
fn of_pages() -> Vec<Refused> {
    let mut manager = begun(64);
    let segments = [Segment::new(Frame::new(0x100), Pages::new(1)); 17];
    let list = manager.map_list(ONE, Order::PAGE, Rights::READ, &segments);
    let mut all = vec![list.unwrap_err()];
    all.extend(map(&mut manager, 0x100, 0, 0).err());
    all.extend(map(&mut manager, 63, 1, 0).err());
    all.extend(unmap(&mut manager, 0x1000, 1).err());
    all.extend(manager.table_word(TableFrame::new(64), 0).err());
    all.extend(manager.sent(0).err());
    all.extend((0..MOST_PIECES).find_map(|_| map(&mut manager, 0x100, 2, 1).err()));
    all
}

/// What tickets and requests are refused.
fn of_tickets_and_requests() -> Vec<Refused> {
    let mut manager = begun(64);
    for number in 1..=MOST_TICKETS {
        assert_eq!(manager.begin(ONE), Ok(Ticket { domain: ONE, number }));
    }
    let other = Ticket { domain: ONE, number: MOST_TICKETS + 1 };
    let mut all = vec![manager.begin(ONE).unwrap_err()];
    all.extend(manager.reap(other).err());
    assert_eq!(manager.reap(Ticket { domain: ONE, number: 1 }), Ok(Reaped::Pending));
    all.extend(read(&mut manager, 3, 0xfee0_0000).err());
    all.extend(read(&mut manager, 0, 0x1000).err());
    all.extend(read(&mut manager, 3, ADDRESSES_END).err());
    all.extend(read(&mut manager, 3, 0x1000).err());
    all.extend(write(&mut manager, 3, 0x1000).err());
    all
}

/// What is refused of a unit of one's own.
fn of_driven_managers() -> Vec<Refused> {
    let driven = |base, status| Manager::driven(64, base, true, status).unwrap_err();
    let (base, status) = (Frame::new(0), HostAddress::new(0x8001));
    let mut all = vec![driven(base, status), driven(Frame::new(1), HostAddress::new(0x8000))];
    all.extend(begun(64).effects().err());
    all.extend(begun(64).done_up_to(1).err());
    all
}

#[test]
fn each_refusal_comes_where_it_can() {
    let told = [of_domains(), of_pages(), of_tickets_and_requests(), of_driven_managers()].concat();
    let told: HashSet<_> = told.into_iter().collect();
    // The limit on pieces keeps a range from ever lacking; 2^56 calls are too many; memory is refused in a test of its own.
    let elsewhere = [Refused::NoRange, Refused::Spent, Refused::NoMemory];
    // What the types rule out, and what a reap answers in another way. Places for effects are as many as a call can ask.
    let never = [
        Refused::Absent,
        Refused::Present,
        Refused::BadCache,
        Refused::Pending,
        Refused::FewPlaces,
    ];
    let wanted =
        Refused::ALL.into_iter().filter(|it| !elsewhere.contains(it) && !never.contains(it));
    assert_eq!(told, wanted.collect());
}

#[test]
fn any_number_is_answered() {
    let mut manager = begun(64);
    let (domain, device) = (Domain::new(MOST), Device::new(MOST));
    assert_eq!(manager.drop_domain(domain), Err(Refused::NoDomain));
    assert_eq!(manager.attach(device, ONE), Err(Refused::NoDevice));
    assert_eq!(manager.detach_all(device), Err(Refused::NoDevice));
    assert_eq!(manager.attach(Device::new(4), domain), Err(Refused::NoDomain));
    assert_eq!(map(&mut manager, MOST, MOST, MOST), Err(Refused::BadRange));
    assert_eq!(unmap(&mut manager, MOST, MOST), Err(Refused::BadRange));
    assert_eq!(manager.unmap(domain, Address::new(0), Pages::new(0)), Err(Refused::NoDomain));
    assert_eq!(manager.begin(domain), Err(Refused::NoDomain));
    assert_eq!(manager.reap(Ticket { domain, number: MOST }), Err(Refused::BadTicket));
    assert_eq!(write(&mut manager, 3, MOST), Err(Refused::FaultBeyondWidth));
    assert_eq!(write(&mut manager, MOST, MOST), Err(Refused::NoDevice));
    for cache in [Cache::Leaf, Cache::NonLeaf, Cache::Context, Cache::Fault] {
        assert_eq!(manager.evict(cache, MOST), Ok(()));
    }
    assert_eq!(manager.domain_totals(domain), Err(Refused::NoDomain));
    assert_eq!(manager.table_word(TableFrame::new(MOST), MOST), Err(Refused::NoWord));
    assert_eq!(manager.words(TableFrame::new(MOST), MOST, &mut [0]), Err(Refused::NoWord));
    assert_eq!(manager.context(device), Err(Refused::NoDevice));
    assert_eq!(manager.sent(MOST), Err(Refused::NoDescriptor));
    assert_eq!(Manager::with_caching_mode(MOST).unwrap_err(), Refused::BadFrames);
    let driven = Manager::driven(MOST, Frame::new(MOST), true, HostAddress::new(MOST));
    assert_eq!(driven.unwrap_err(), Refused::BadFrames);
    assert_eq!(manager.domain_totals(ONE).unwrap().live, 0);
}

#[test]
fn the_last_number_within_a_limit_is_taken() {
    assert_eq!(Manager::new(MOST_TABLE_FRAMES + 1).unwrap_err(), Refused::BadFrames);
    assert_eq!(
        Manager::new(LEAST_TABLE_FRAMES).unwrap().totals().unwrap().free,
        LEAST_TABLE_FRAMES
    );
    let mut manager = begun(MOST_TABLE_FRAMES);
    let first = MOST_TABLE_FRAMES;
    assert_eq!(manager.attach(Device::new(DEVICES - 1), ONE), Ok(()));
    assert_eq!(manager.attach(Device::new(DEVICES), ONE), Err(Refused::NoDevice));
    assert_eq!(map(&mut manager, first - 1, 1, 0), Err(Refused::FrameOwned));
    assert_eq!(map(&mut manager, first, MOST_PAGES, MOST_ORDER), Ok(Address::new(0x20_0000)));
    assert_eq!(map(&mut manager, FRAMES_END - 1, 1, 0), Ok(Address::new(0x1000)));
    assert_eq!(map(&mut manager, FRAMES_END - 1, 2, 0), Err(Refused::BadRange));
    assert_eq!(map(&mut manager, first, MOST_PAGES + 1, 0), Err(Refused::BadRange));
    assert_eq!(map(&mut manager, first, 1, MOST_ORDER + 1), Err(Refused::BadRange));
    assert_eq!(unmap(&mut manager, 0x1001, 1), Err(Refused::BadRange));
    assert_eq!(unmap(&mut manager, 0, 1), Err(Refused::BadRange));
    assert_eq!(unmap(&mut manager, WINDOW_FIRST * PAGE_BYTES, 1), Err(Refused::BadRange));
    assert_eq!(unmap(&mut manager, (WINDOW_LAST + 1) * PAGE_BYTES, 1), Err(Refused::NotLive));
    assert_eq!(unmap(&mut manager, 0x20_0000, MOST_PAGES), Ok(Unmapped::Free));
    let none = manager.map(ONE, Frame::new(first), Pages::new(1), Order::PAGE, Rights::NONE);
    assert_eq!(none, Err(Refused::BadRange));
}

#[test]
fn a_list_has_1_to_16_segments() {
    let mut manager = begun(64);
    let segments: Vec<_> =
        (0..17).map(|n| Segment::new((0x100 + 2 * n).into(), 1.into())).collect();
    let mut map =
        |count: usize| manager.map_list(ONE, Order::PAGE, Rights::BOTH, &segments[..count]);
    assert_eq!(map(0), Err(Refused::BadRange));
    assert_eq!(map(17), Err(Refused::ManySegments));
    assert_eq!(map(16), Ok(Address::new(0x1000)));
    for n in 0..16 {
        let host = HostAddress::new((0x100 + 2 * n) * PAGE_BYTES + 8);
        assert_eq!(write(&mut manager, 3, 0x1008 + n * PAGE_BYTES), Ok(host));
    }
}

#[test]
fn widths_differ_in_where_addresses_end_and_begin() {
    let mut manager = Manager::new(64).unwrap();
    let ends =
        [(Width::W39, ADDRESSES_END, 0x1000), (Width::W48, WIDE_ADDRESSES_END, ADDRESSES_END)];
    for (device, (width, end, first)) in (0..).zip(ends) {
        let domain = manager.domain(Mode::Strict, width).unwrap();
        manager.attach(Device::new(device), domain).unwrap();
        assert_eq!(read(&mut manager, device, end - 1), Err(Refused::FaultRead));
        assert_eq!(read(&mut manager, device, end), Err(Refused::FaultBeyondWidth));
        let at = manager.map(domain, Frame::new(0x100), Pages::new(1), Order::PAGE, Rights::READ);
        assert_eq!(at, Ok(Address::new(first)));
    }
}

#[test]
fn a_lazy_unmap_leaves_the_page_until_its_flush() {
    let mut manager = Manager::new(64).unwrap();
    assert_eq!(manager.domain(Mode::Lazy, Width::W39), Ok(ONE));
    manager.attach(Device::new(3), ONE).unwrap();
    let at = map(&mut manager, 0x100, 1, 0).unwrap().get();
    assert!(read(&mut manager, 3, at).is_ok());
    assert_eq!(unmap(&mut manager, at, 1), Ok(Unmapped::Retired { released: 0 }));
    assert!(read(&mut manager, 3, at).is_ok());
    let ticket = manager.begin(ONE).unwrap();
    assert_eq!(manager.reap(ticket), Ok(Reaped::Pending));
    assert_eq!(manager.totals().unwrap().pending, 2);
    while manager.unit().unwrap() == vtdm::Progress::Did {}
    assert_eq!(manager.reap(ticket), Ok(Reaped::Released(1)));
    assert_eq!(read(&mut manager, 3, at), Err(Refused::FaultRead));
}
