//! Driven managers: what each call asks, and a unit that has no more than it was told, which has after each call what the manager has.
//! That there are too few places for effects can't happen here: a list has as many as a call can ask.

#[path = "driven/play.rs"]
mod play;
#[path = "driven/unit.rs"]
mod unit;

use play::Play;
use unit::{STATUS, TABLE_FRAMES, TABLE_WORDS, sent};
use vtdm::limits::{DEVICES, FRAMES_END, MOST_RECORDS};
use vtdm::{
    Access, Address, Descriptor, Device, Domain, Effect, Frame, Half, HostAddress, Manager, Mode,
    Order, Pages, Progress, Reaped, Refused, Rights, Segment, TableFrame, Unmapped, Whim, Width,
};

const DEVICE: Device = Device::new(3);
/// Where the table frames of these tests begin, but for those of random calls.
const BASE: Frame = Frame::new(0);
/// The bit of a leaf of 2 MiB.
const LARGE: u64 = 0x80;

/// A driven manager without Caching Mode, and a domain of it.
fn begun(mode: Mode, width: Width) -> (Manager, Domain) {
    let mut manager = Manager::driven(TABLE_FRAMES, BASE, false, STATUS).unwrap();
    let domain = manager.domain(mode, width).unwrap();
    (manager, domain)
}

fn map(manager: &mut Manager, domain: Domain, frame: u64, pages: u64, order: Order) -> Address {
    manager.map(domain, frame.into(), pages.into(), order, Rights::BOTH).unwrap()
}

fn asked(manager: &mut Manager) -> Vec<Effect> {
    manager.effects().unwrap().to_vec()
}

/// The words on the way of a page, down to a leaf of 2 MiB where there is one: the tables, the root first, and the index in each.
fn way_of(manager: &Manager, domain: Domain, address: Address) -> Vec<(TableFrame, u64)> {
    let levels = if manager.width_of(domain) == Ok(Width::W39) { 3 } else { 4 };
    let mut table = manager.root_of(domain).unwrap();
    let mut way = Vec::new();
    for level in (0..levels).rev() {
        let index = address.page().get() >> (9 * level) & (TABLE_WORDS - 1);
        way.push((table, index));
        let word = manager.table_word(table, index).unwrap();
        if word & LARGE != 0 {
            break;
        }
        table = TableFrame::new(word >> 12);
    }
    way
}

fn words(frame: TableFrame, first: u64, count: u64) -> Effect {
    Effect::Words { frame, first, count }
}

/// So many words in the lowest table of a way, and then one in each table above it, between two barriers.
fn brought(way: &[(TableFrame, u64)], count: u64) -> Vec<Effect> {
    let (lowest, upper) = way.split_last().unwrap();
    let mut effects = vec![words(lowest.0, lowest.1, count), Effect::Barrier];
    effects.extend(upper.iter().rev().map(|(frame, index)| words(*frame, *index, 1)));
    effects.push(Effect::Barrier);
    effects
}

/// So many words in the lowest table of a way, which stays: then no table above it is another.
fn kept(way: &[(TableFrame, u64)], count: u64) -> Vec<Effect> {
    let (lowest, _) = way.split_last().unwrap();
    vec![words(lowest.0, lowest.1, count), Effect::Barrier]
}

/// The last two that were sent, and that the second, a wait, is waited for.
fn sent_last(manager: &Manager) -> [Effect; 3] {
    let number = manager.waits().unwrap();
    [Effect::Send(sent(manager, 1)), Effect::Send(sent(manager, 0)), Effect::Await(number)]
}

#[test]
fn tables_that_come_are_asked_with_all_levels_and_those_that_stay_alone() {
    for width in [Width::W39, Width::W48] {
        let (mut manager, domain) = begun(Mode::Strict, width);
        assert_eq!(asked(&mut manager), []);
        let at = map(&mut manager, domain, 0x100, 4, Order::PAGE);
        let way = way_of(&manager, domain, at);
        assert!(way.iter().all(|(frame, _)| frame.get() < TABLE_FRAMES));
        assert_eq!(asked(&mut manager), brought(&way, 4));
        assert_eq!(manager.unmap(domain, at, 4.into()), Ok(Unmapped::Free));
        let wanted = [kept(&way, 4), sent_last(&manager).to_vec()].concat();
        assert_eq!(asked(&mut manager), wanted);
        assert_eq!(map(&mut manager, domain, 0x200, 2, Order::PAGE), at);
        assert_eq!(asked(&mut manager), kept(&way, 2));
    }
}

#[test]
fn a_wait_has_the_address_of_the_status() {
    let (mut manager, domain) = begun(Mode::Strict, Width::W39);
    let at = map(&mut manager, domain, 0x100, 1, Order::PAGE);
    assert_eq!((domain.get(), at.get()), (1, 0x1000));
    let _ = manager.unmap(domain, at, 1.into()).unwrap();
    let effects = asked(&mut manager);
    let of_page = Effect::Send(Descriptor { low: 0x1_00f2, high: 0x1040 });
    let wait = Effect::Send(Descriptor { low: 0x1_0000_0025, high: 0x8004 });
    assert_eq!(effects[effects.len() - 3..], [of_page, wait, Effect::Await(1)]);
    assert_eq!(manager.sent(0).unwrap().high, 1 << 36); // that of the library's unit
}

#[test]
fn a_map_over_two_tables_asks_words_of_both() {
    let (mut manager, domain) = begun(Mode::Strict, Width::W39);
    map(&mut manager, domain, 0x100, 510, Order::PAGE);
    let at = map(&mut manager, domain, 0x801, 3, Order::PAGE);
    assert_eq!(at.page().get(), 511);
    let first = way_of(&manager, domain, at);
    let second = way_of(&manager, domain, at.checked_add(Pages::new(1)).unwrap());
    let wanted = [
        words(first[2].0, 511, 1),
        words(second[2].0, 0, 2),
        Effect::Barrier,
        words(first[1].0, 0, 2),
        words(first[0].0, 0, 1),
        Effect::Barrier,
    ];
    assert_eq!(asked(&mut manager), wanted);
}

#[test]
fn with_caching_mode_a_map_asks_for_a_wait() {
    let mut manager = Manager::driven(TABLE_FRAMES, BASE, true, STATUS).unwrap();
    let domain = manager.domain(Mode::Lazy, Width::W39).unwrap();
    let segments = [1, 2].map(|pages| Segment::new(Frame::new(0x100), Pages::new(pages)));
    let at = manager.map_list(domain, Order::PAGE, Rights::READ, &segments).unwrap();
    let wanted = brought(&way_of(&manager, domain, at), 3);
    assert_eq!(asked(&mut manager), [wanted, sent_last(&manager).to_vec()].concat());
}

#[test]
fn a_lazy_unmap_asks_for_no_wait() {
    let (mut manager, domain) = begun(Mode::Lazy, Width::W39);
    let at = map(&mut manager, domain, 0x101, TABLE_WORDS, Order::MIB_2);
    let way = way_of(&manager, domain, at);
    assert_eq!(manager.unmap(domain, at, 1.into()), Ok(Unmapped::Retired { released: 0 }));
    assert_eq!(asked(&mut manager), kept(&way, 1));
    // The rest of the table goes, so that it is emptied and no entry names it any more.
    let rest = at.checked_add(Pages::new(1)).unwrap();
    let _ = manager.unmap(domain, rest, Pages::new(TABLE_WORDS - 1)).unwrap();
    assert_eq!(asked(&mut manager), kept(&way_of(&manager, domain, rest), TABLE_WORDS - 1));
    assert_eq!(manager.flush(domain), Ok(2));
    assert_eq!(asked(&mut manager), sent_last(&manager));
}

#[test]
fn a_table_that_goes_or_comes_is_asked_whole() {
    let (mut manager, domain) = begun(Mode::Lazy, Width::W39);
    let small = map(&mut manager, domain, 0x101, TABLE_WORDS, Order::MIB_2);
    let mut way = way_of(&manager, domain, small);
    way[2].1 = 0;
    let _ = manager.unmap(domain, small, Pages::new(TABLE_WORDS)).unwrap();
    assert_eq!(asked(&mut manager), brought(&way, TABLE_WORDS));
    let large = map(&mut manager, domain, 0x400, TABLE_WORDS, Order::MIB_2);
    let leaf = way_of(&manager, domain, large);
    let last = large.checked_add(Pages::new(TABLE_WORDS - 1)).unwrap();
    let _ = manager.unmap(domain, last, 1.into()).unwrap();
    let mut way = way_of(&manager, domain, last);
    assert_eq!((&way[..2], way[2].1), (&leaf[..], TABLE_WORDS - 1));
    way[2].1 = 0;
    assert_eq!(asked(&mut manager), brought(&way, TABLE_WORDS));
}

#[test]
fn a_full_list_is_flushed_before_words_are_brought() {
    let (mut manager, domain) = begun(Mode::Lazy, Width::W39);
    for _ in 0..MOST_RECORDS {
        let at = map(&mut manager, domain, 0x100, 1, Order::PAGE);
        assert_eq!(manager.unmap(domain, at, 1.into()), Ok(Unmapped::Retired { released: 0 }));
    }
    let at = map(&mut manager, domain, 0x100, 1, Order::PAGE);
    let mut way = way_of(&manager, domain, at);
    let released = manager.unmap(domain, at, 1.into()).unwrap().released();
    assert_eq!(released, MOST_RECORDS);
    // Whether a table came isn't known by the free frames where a flush gives some back: the table is brought whole.
    way[2].1 = 0;
    assert_eq!(
        asked(&mut manager),
        [sent_last(&manager).to_vec(), brought(&way, TABLE_WORDS)].concat()
    );
}

#[test]
fn devices_ask_for_their_context_entries() {
    let (mut manager, domain) = begun(Mode::Lazy, Width::W48);
    let entry = |first| [Effect::Context { device: DEVICE, first }, Effect::Barrier];
    manager.attach(DEVICE, domain).unwrap();
    assert_eq!(asked(&mut manager), entry(Half::High));
    manager.detach(DEVICE).unwrap();
    let detached = [&entry(Half::Low)[..], &sent_last(&manager)].concat();
    assert_eq!(asked(&mut manager), detached);
    assert_eq!(sent(&manager, 1).low, 0x1_0031 | DEVICE.get() << 35);
}

#[test]
fn detach_all_asks_what_a_detach_and_a_flush_do() {
    let (mut manager, domain) = begun(Mode::Lazy, Width::W48);
    manager.attach(DEVICE, domain).unwrap();
    let at = map(&mut manager, domain, 0x100, 2, Order::PAGE);
    for pages in [0, 1] {
        let page = at.checked_add(Pages::new(pages)).unwrap();
        assert_eq!(manager.unmap(domain, page, 1.into()), Ok(Unmapped::Retired { released: 0 }));
    }
    assert_eq!(manager.detach_all(DEVICE), Ok(2));
    let wanted = [
        Effect::Context { device: DEVICE, first: Half::Low },
        Effect::Barrier,
        Effect::Send(sent(&manager, 3)),
        Effect::Send(sent(&manager, 2)),
        Effect::Await(1),
        Effect::Send(Descriptor { low: 0x1_00e2, high: 0 }),
        Effect::Send(sent(&manager, 0)),
        Effect::Await(2),
    ];
    assert_eq!(asked(&mut manager), wanted);
    assert_eq!(manager.domain_of(DEVICE), Err(Refused::NotAttached));
    assert_eq!(manager.domain_totals(domain).unwrap().retired, 0);
    assert_eq!(manager.detach_all(DEVICE), Err(Refused::NotAttached));
    assert_eq!(asked(&mut manager), []);
    assert_eq!(manager.detach_all(Device::new(DEVICES)), Err(Refused::NoDevice));
}

#[test]
fn detach_all_needs_no_unit_of_your_own() {
    let mut manager = Manager::new(TABLE_FRAMES).unwrap();
    let domain = manager.domain(Mode::Strict, Width::W39).unwrap();
    manager.attach(DEVICE, domain).unwrap();
    let at = map(&mut manager, domain, 0x100, 1, Order::PAGE);
    assert!(manager.dma(DEVICE, at, Access::Read, Whim::CACHED).is_ok());
    assert_eq!(manager.detach_all(DEVICE), Ok(0));
    assert_eq!(manager.waits(), Ok(2));
    let request = manager.dma(DEVICE, at, Access::Read, Whim::CACHED);
    assert_eq!(request, Err(Refused::FaultNotAttached));
}

#[test]
fn a_begun_flush_is_not_waited_for() {
    let (mut manager, domain) = begun(Mode::Lazy, Width::W39);
    let ticket = manager.begin(domain).unwrap();
    assert_eq!(asked(&mut manager), sent_last(&manager)[..2]);
    assert_eq!(manager.reap(ticket), Ok(Reaped::Pending));
    while manager.unit() == Ok(Progress::Did) {
        assert_eq!(asked(&mut manager), []);
    }
    assert_eq!(manager.reap(ticket), Ok(Reaped::Released(0)));
    assert_eq!(asked(&mut manager), []);
}

#[test]
fn what_waits_is_done_up_to_a_wait() {
    let (mut manager, domain) = begun(Mode::Lazy, Width::W39);
    assert_eq!(manager.done_up_to(0), Ok(0));
    let tickets: Vec<_> = (0..3).map(|_| manager.begin(domain).unwrap()).collect();
    for never_sent in [4, u64::MAX] {
        assert_eq!(manager.done_up_to(never_sent), Err(Refused::NoWait));
    }
    assert_eq!(asked(&mut manager), sent_last(&manager)[..2]);
    assert_eq!(manager.done_up_to(0), Ok(0));
    assert_eq!(manager.done_up_to(1), Ok(2));
    assert_eq!(manager.reap(tickets[1]), Ok(Reaped::Pending));
    assert_eq!(manager.reap(tickets[0]), Ok(Reaped::Released(0)));
    assert_eq!(manager.unit(), Ok(Progress::Did));
    for (wait, done) in [(1, 0), (2, 1), (3, 2), (3, 0)] {
        assert_eq!(manager.done_up_to(wait), Ok(done));
    }
    assert_eq!(manager.reap(tickets[2]), Ok(Reaped::Released(0)));
    assert_eq!(manager.totals().unwrap().pending, 0);
}

#[test]
fn a_drop_brings_all_words_once_its_wait_is_done() {
    let (mut manager, domain) = begun(Mode::Lazy, Width::W39);
    map(&mut manager, domain, 0x100, 1, Order::PAGE);
    manager.drop_domain(domain).unwrap();
    let all = [words(TableFrame::new(0), 0, TABLE_FRAMES * TABLE_WORDS), Effect::Barrier];
    assert_eq!(asked(&mut manager), [&sent_last(&manager)[..], &all].concat());
}

#[test]
fn effects_are_told_once() {
    let (mut manager, domain) = begun(Mode::Strict, Width::W39);
    map(&mut manager, domain, 0x100, 1, Order::PAGE);
    let totals = manager.totals().unwrap(); // readers forget none
    assert_eq!(asked(&mut manager).len(), 5);
    assert_eq!(asked(&mut manager), []);
    assert_eq!(manager.totals(), Ok(totals));
}

#[test]
fn the_next_call_forgets_what_was_not_taken() {
    let (mut manager, domain) = begun(Mode::Strict, Width::W39);
    map(&mut manager, domain, 0x100, 1, Order::PAGE);
    manager.attach(DEVICE, domain).unwrap();
    let entry = Effect::Context { device: DEVICE, first: Half::High };
    assert_eq!(asked(&mut manager), [entry, Effect::Barrier]);
    let at = map(&mut manager, domain, 0x100, 1, Order::PAGE);
    assert!(manager.dma(DEVICE, at, Access::Read, Whim::CACHED).is_ok());
    assert_eq!(asked(&mut manager), []);
}

#[test]
fn a_refused_call_asks_nothing() {
    let (mut manager, domain) = begun(Mode::Strict, Width::W39);
    let at = map(&mut manager, domain, 0x100, 1, Order::PAGE);
    assert_eq!(manager.attach(DEVICE, Domain::new(2)), Err(Refused::NoDomain));
    assert_eq!(asked(&mut manager), []);
    let refused = [
        manager.map(domain, Frame::new(0), 1.into(), Order::PAGE, Rights::READ).err(),
        manager.unmap(domain, at, 2.into()).err(),
        manager.flush(Domain::new(2)).err(),
        manager.detach(DEVICE).err(),
        manager.drop_domain(Domain::new(0)).err(),
    ];
    assert!(refused.iter().all(Option::is_some));
    assert_eq!(asked(&mut manager), []);
}

#[test]
fn a_manager_with_the_unit_of_the_library_tells_none() {
    let mut plain = Manager::new(TABLE_FRAMES).unwrap();
    let mut caching = Manager::with_caching_mode(TABLE_FRAMES).unwrap();
    for manager in [&mut plain, &mut caching] {
        assert_eq!(manager.effects(), Err(Refused::NotDriven));
        manager.domain(Mode::Strict, Width::W39).unwrap();
        assert_eq!(manager.effects(), Err(Refused::NotDriven));
    }
}

#[test]
fn the_address_of_a_status_is_a_multiple_of_4() {
    let driven =
        |frames, status| Manager::driven(frames, BASE, false, HostAddress::new(status)).err();
    for status in [0, 4, 1 << 40, u64::MAX - 3] {
        assert_eq!(driven(TABLE_FRAMES, status), None);
    }
    for status in [1, 2, 3, u64::MAX] {
        assert_eq!(driven(TABLE_FRAMES, status), Some(Refused::BadAddress));
        assert_eq!(driven(15, status), Some(Refused::BadFrames));
    }
}

#[test]
fn the_table_frames_begin_at_a_base() {
    let driven = |frames, base| Manager::driven(frames, Frame::new(base), false, STATUS).err();
    for base in [0, 512, 0x4200, FRAMES_END - 512] {
        assert_eq!(driven(512, base), None);
    }
    for base in [1, 511, 0x4100, FRAMES_END - 511, FRAMES_END, u64::MAX] {
        assert_eq!(driven(TABLE_FRAMES, base), Some(Refused::BadBase));
        assert_eq!(driven(15, base), Some(Refused::BadFrames));
    }
    assert_eq!(driven(513, FRAMES_END - 512), Some(Refused::BadBase));
}

/// Words and answers name host frames, and a map has no table frame.
#[test]
fn host_frames_are_those_of_the_machine_at_each_base() {
    const AT: u64 = 0x4200;
    let mut manager = Manager::driven(TABLE_FRAMES, Frame::new(AT), false, STATUS).unwrap();
    let domain = manager.domain(Mode::Strict, Width::W39).unwrap();
    manager.attach(DEVICE, domain).unwrap();
    let root = manager.root_of(domain).unwrap().get();
    assert_eq!(manager.context(DEVICE).unwrap().low, (AT + root) << 12 | 1);
    let own = [(AT, 1), (AT + TABLE_FRAMES - 1, 1), (AT - 1, 2)];
    for (frame, pages) in own {
        let segment = Segment::new(Frame::new(frame), Pages::new(pages));
        let mapped = manager.map_list(domain, Order::PAGE, Rights::READ, &[segment]);
        assert_eq!(mapped, Err(Refused::FrameOwned));
    }
    for frame in [0, AT - 1, AT + TABLE_FRAMES, FRAMES_END - 1] {
        let at = map(&mut manager, domain, frame, 1, Order::PAGE);
        let host = manager.dma(DEVICE, at, Access::Read, Whim::CACHED).unwrap();
        assert_eq!(host.frame(), Frame::new(frame));
        let mut table = root;
        for level in (0..3).rev() {
            let index = at.page().get() >> (9 * level) & (TABLE_WORDS - 1);
            let word = manager.table_word(TableFrame::new(table), index).unwrap();
            assert_eq!(word & 0xfff, 3);
            if level == 0 {
                assert_eq!(word >> 12, frame);
            } else {
                table = (word >> 12) - AT;
                assert!(table < TABLE_FRAMES);
            }
        }
    }
}

#[test]
fn a_unit_that_does_what_is_asked_has_what_the_manager_has() {
    for caching in [false, true] {
        let base = Frame::new(if caching { 0x400 } else { 0 });
        let mut play = Play::new(caching, base);
        for _ in 0..Play::CALLS {
            play.step();
        }
        assert!(play.asked.iter().all(|it| *it > 50), "{:?}", play.asked);
        assert!(play.refused > 50 && play.reaped > 10, "{} {}", play.refused, play.reaped);
    }
}
