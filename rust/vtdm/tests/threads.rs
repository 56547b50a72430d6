//! Threads: several on one manager, in a mutex, and managers that go from one thread to another.

use std::sync::Mutex;
use std::thread;
use vtdm::{
    Access, Device, Domain, Frame, Manager, Mode, Order, Pages, Rights, Unmapped, Whim, Width,
};

const PAIRS: usize = 5000;
const DOMAIN: Domain = Domain::new(1);

/// A manager with a strict domain, to which devices 3 and 4 are attached.
fn begun() -> Manager {
    let mut manager = Manager::new(64).unwrap();
    assert_eq!(manager.domain(Mode::Strict, Width::W39), Ok(DOMAIN));
    manager.attach(Device::new(3), DOMAIN).unwrap();
    manager.attach(Device::new(4), DOMAIN).unwrap();
    manager
}

/// One page after the other is mapped, reached and unmapped, with each call under the lock by itself.
fn work(manager: &Mutex<Manager>, device: Device, frame: Frame) {
    let pages = Pages::new(1);
    for _ in 0..PAIRS {
        let at =
            manager.lock().unwrap().map(DOMAIN, frame, pages, Order::PAGE, Rights::READ).unwrap();
        let host = manager.lock().unwrap().dma(device, at, Access::Read, Whim::CACHED).unwrap();
        assert_eq!((host.frame(), host.offset()), (frame, 0));
        assert_eq!(manager.lock().unwrap().unmap(DOMAIN, at, pages), Ok(Unmapped::Free));
        assert_eq!(manager.lock().unwrap().totals().unwrap().pending, 0);
    }
}

#[test]
fn threads_share_one_in_a_mutex() {
    let manager = Mutex::new(begun());
    thread::scope(|threads| {
        threads.spawn(|| work(&manager, Device::new(3), Frame::new(0x1001)));
        threads.spawn(|| work(&manager, Device::new(4), Frame::new(0x2002)));
    });
    assert_eq!(manager.lock().unwrap().domain_totals(DOMAIN).unwrap().live, 0);
}

#[test]
fn each_thread_has_one_and_no_lock() {
    let managers = [Mutex::new(begun()), Mutex::new(begun())];
    thread::scope(|threads| {
        for manager in &managers {
            threads.spawn(|| work(manager, Device::new(3), Frame::new(0x1001)));
        }
    });
}

#[test]
fn a_manager_goes_to_another_thread_and_back_and_ends_there() {
    let mut manager = begun();
    for frame in (0x100..0x110).map(Frame::new) {
        let worker = thread::spawn(move || {
            manager.map(DOMAIN, frame, Pages::new(1), Order::PAGE, Rights::READ).unwrap();
            manager
        });
        manager = worker.join().unwrap();
    }
    assert_eq!(manager.domain_totals(DOMAIN).unwrap().live, 16);
    thread::spawn(move || drop(manager)).join().unwrap();
}

#[test]
fn one_that_a_thread_left_by_a_panic_is_whole() {
    let manager = Mutex::new(begun());
    let ended = thread::scope(|threads| {
        let panics = || {
            let _guard = manager.lock().unwrap();
            panic!("while it has the lock");
        };
        threads.spawn(panics).join()
    });
    assert!(ended.is_err());
    let manager = manager.into_inner().unwrap_err().into_inner();
    assert_eq!(manager.devices_of(DOMAIN).unwrap().iter().count(), 2);
}
