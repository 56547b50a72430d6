//! How a virtual machine monitor gives a guest's memory to a device. Requests to map and to unmap come from the guest's processors, in
//! batches, as by the queue of a virtio-iommu, and the monitor answers them under a lock of its own. (A virtio-iommu's guest chooses
//! the address. Here the manager does, and the reply has it.)
//!
//! The guest uses memory again once its unmap is answered. So the monitor answers when nobody reaches the memory any more:
//!
//! 1. The device doesn't, by the unit's caches: at once in a strict domain, and in a lazy one after a flush, one for the whole batch.
//! 2. The device's own threads don't, by a host address that they got before the unmap. They use memory without the lock, so each use
//!    has a number, from its translation to its end, and an unmap waits for the uses that began before it.
//!
//! One thread of the device does as it is told, another reads wherever it can, all the time. Neither may see what the guest writes into
//! memory after an unmap.

use std::collections::BTreeSet;
use std::sync::atomic::{AtomicBool, AtomicU8, Ordering};
use std::sync::{Condvar, Mutex, MutexGuard, PoisonError, mpsc};
use std::thread;
use vtdm::limits::PAGE_BYTES;
use vtdm::{
    Access, Address, Device, Domain, Frame, HostAddress, Manager, Mode, Order, Page, Pages,
    Refused, Rights, Unmapped, Whim, Width,
};

const TABLE_FRAMES: u64 = 256;
const DEVICE: Device = Device::new(4);
/// The guest's memory: its pages, and the host frame where it begins.
const GUEST_PAGES: u64 = 64;
const GUEST_MEMORY: u64 = 0x10000;
const PROCESSORS: u64 = 2;
const ROUNDS: u64 = 200;
/// The buffers of a batch, and the pages of each.
const BUFFERS: u64 = 4;
const BUFFER_PAGES: u64 = 2;
/// What the guest writes into memory that it uses again, and at no time into memory that is mapped.
const USED_AGAIN: u8 = 0xEE;

/// A request of the guest.
enum Request {
    Map { page: u64, pages: u64, rights: Rights },
    Unmap { address: Address, pages: u64 },
}

/// The answer to one.
#[derive(Clone, Copy, Debug, PartialEq)]
enum Reply {
    Mapped(Address),
    Unmapped,
    Failed(Status),
}

/// Statuses of virtio-iommu requests.
#[derive(Clone, Copy, Debug, PartialEq)]
enum Status {
    DeviceError = 3,
    Invalid = 4,
    Range = 5,
    NoEntry = 6,
    NoMemory = 8,
}

impl From<Refused> for Status {
    fn from(refused: Refused) -> Status {
        match refused {
            Refused::NoDomain => Status::NoEntry,
            Refused::BadRange | Refused::FrameOwned => Status::Invalid,
            Refused::NotLive => Status::Range,
            Refused::NoRange | Refused::NoFrames | Refused::TooManyPieces => Status::NoMemory,
            _ => Status::DeviceError,
        }
    }
}

/// What the lock guards: the manager, and the uses of memory that the device's threads have begun and not ended.
struct Book {
    manager: Manager,
    next: u64,
    uses: BTreeSet<u64>,
}

/// The monitor of a guest.
struct Monitor {
    book: Mutex<Book>,
    /// It is told where a use ends.
    ended: Condvar,
    domain: Domain,
    memory: Vec<AtomicU8>,
}

impl Monitor {
    fn new(mode: Mode) -> Result<Monitor, Refused> {
        let mut manager = Manager::new(TABLE_FRAMES)?;
        let domain = manager.domain(mode, Width::W39)?;
        manager.attach(DEVICE, domain)?;
        let bytes = 0..GUEST_PAGES * PAGE_BYTES;
        Ok(Monitor {
            book: Mutex::new(Book { manager, next: 0, uses: BTreeSet::new() }),
            ended: Condvar::new(),
            domain,
            memory: bytes.map(|_| AtomicU8::new(0)).collect(),
        })
    }

    fn lock(&self) -> MutexGuard<'_, Book> {
        self.book.lock().unwrap_or_else(PoisonError::into_inner)
    }

    /// Answers a batch of requests. When it returns, the guest may use the memory of what it unmapped.
    fn serve(&self, requests: &[Request]) -> Result<Vec<Reply>, Refused> {
        let mut book = self.lock();
        let mut is_retired = false;
        let mut replies = Vec::with_capacity(requests.len());
        for request in requests {
            replies.push(match request {
                Request::Map { page, pages, rights } => {
                    self.map(&mut book.manager, *page, *pages, *rights)
                }
                Request::Unmap { address, pages } => {
                    let unmapped = book.manager.unmap(self.domain, *address, Pages::new(*pages));
                    is_retired |= matches!(unmapped, Ok(Unmapped::Retired { .. }));
                    unmapped.map_or_else(|it| Reply::Failed(it.into()), |_| Reply::Unmapped)
                }
            });
        }
        if is_retired {
            book.manager.flush(self.domain)?;
        }
        if replies.contains(&Reply::Unmapped) {
            self.wait_for_uses(book);
        }
        Ok(replies)
    }

    /// Maps guest memory, and none beside it: the guest's numbers are not to be trusted.
    fn map(&self, manager: &mut Manager, page: u64, pages: u64, rights: Rights) -> Reply {
        if page.checked_add(pages).is_none_or(|end| end > GUEST_PAGES) {
            return Reply::Failed(Status::Range);
        }
        let frame = Frame::new(GUEST_MEMORY + page);
        let mapped = manager.map(self.domain, frame, Pages::new(pages), Order::PAGE, rights);
        mapped.map_or_else(|it| Reply::Failed(it.into()), Reply::Mapped)
    }

    /// Waits until each use has ended that began before, of whatever memory. Later ones don't get to what is unmapped.
    fn wait_for_uses(&self, book: MutexGuard<'_, Book>) {
        let end = book.next;
        let is_used = |book: &mut Book| book.uses.first().is_some_and(|it| *it < end);
        drop(self.ended.wait_while(book, is_used).unwrap_or_else(PoisonError::into_inner));
    }

    /// Begins a use of the memory that a device address reaches.
    fn begin_use(&self, address: Address, access: Access) -> Result<Use<'_>, Refused> {
        let mut book = self.lock();
        let host = book.manager.dma(DEVICE, address, access, Whim::CACHED)?;
        let number = book.next;
        book.next += 1;
        book.uses.insert(number);
        Ok(Use { monitor: self, number, host })
    }

    fn bytes(&self, page: u64, pages: u64) -> &[AtomicU8] {
        &self.memory[(page * PAGE_BYTES) as usize..((page + pages) * PAGE_BYTES) as usize]
    }
}

/// A use of memory by a thread of the device, without the lock. Where it is dropped, the thread has done with the host address.
struct Use<'a> {
    monitor: &'a Monitor,
    number: u64,
    host: HostAddress,
}

impl Use<'_> {
    /// The memory from the address to the end of its page.
    fn bytes(&self) -> &[AtomicU8] {
        let page = self.monitor.bytes(self.host.frame().get() - GUEST_MEMORY, 1);
        &page[self.host.offset() as usize..]
    }
}

impl Drop for Use<'_> {
    fn drop(&mut self) {
        self.monitor.lock().uses.remove(&self.number);
        self.monitor.ended.notify_all();
    }
}

/// What the guest tells the device: to read so many pages, and where the sum of their bytes goes.
struct Task {
    address: Address,
    pages: u64,
    sum: mpsc::Sender<u64>,
}

/// A thread of the device that does what it is told.
fn work(monitor: &Monitor, tasks: mpsc::Receiver<Task>) -> Result<(), Refused> {
    for Task { address, pages, sum } in tasks {
        let first = address.page().get();
        let mut total = 0;
        for at in (first..first + pages).filter_map(|it| Page::new(it).address()) {
            let using = monitor.begin_use(at, Access::Read)?;
            total +=
                using.bytes().iter().map(|it| u64::from(it.load(Ordering::Relaxed))).sum::<u64>();
        }
        // The guest waits for it, or has gone.
        let _ = sum.send(total);
    }
    Ok(())
}

/// A thread of the device that reads wherever it can, until it is told to stop; how many bytes it saw that were used again.
fn pry(monitor: &Monitor, stop: &AtomicBool) -> usize {
    let pages = PROCESSORS * BUFFERS * BUFFER_PAGES;
    let mut seen = 0;
    while !stop.load(Ordering::Relaxed) {
        for at in (1..=pages).filter_map(|it| Page::new(it).address()) {
            if let Ok(using) = monitor.begin_use(at, Access::Read) {
                let is_used_again = |it: &&AtomicU8| it.load(Ordering::Relaxed) == USED_AGAIN;
                seen += using.bytes().iter().filter(is_used_again).count();
            }
        }
    }
    seen
}

fn fill(bytes: &[AtomicU8], value: u8) {
    bytes.iter().for_each(|it| it.store(value, Ordering::Relaxed));
}

/// A processor of the guest: it fills buffers, maps them in one batch, has the device read them, unmaps them, and uses their memory
/// again. How many buffers the device read as they were.
fn process(monitor: &Monitor, number: u64, device: mpsc::Sender<Task>) -> Result<u64, Refused> {
    let pages: Vec<_> = (0..BUFFERS).map(|it| (number * BUFFERS + it) * BUFFER_PAGES).collect();
    let mut good = 0;
    for round in 0..ROUNDS {
        let value = (round % 100) as u8;
        pages.iter().for_each(|page| fill(monitor.bytes(*page, BUFFER_PAGES), value));
        let rights = Rights::READ | Rights::WRITE;
        let map = |page: &u64| Request::Map { page: *page, pages: BUFFER_PAGES, rights };
        let mapped = monitor.serve(&pages.iter().map(map).collect::<Vec<_>>())?;
        let mut unmaps = Vec::new();
        for reply in mapped {
            let Reply::Mapped(address) = reply else {
                continue;
            };
            let (sum, told) = mpsc::channel();
            let task = Task { address, pages: BUFFER_PAGES, sum };
            let told = device.send(task).ok().and_then(|()| told.recv().ok());
            good += u64::from(told == Some(BUFFER_PAGES * PAGE_BYTES * u64::from(value)));
            unmaps.push(Request::Unmap { address, pages: BUFFER_PAGES });
        }
        monitor.serve(&unmaps)?;
        pages.iter().for_each(|page| fill(monitor.bytes(*page, BUFFER_PAGES), USED_AGAIN));
    }
    Ok(good)
}

/// A guest with its processors, and both threads of its device; what they did, in a line.
fn run(mode: Mode) -> Result<String, Refused> {
    let monitor = Monitor::new(mode)?;
    let stop = AtomicBool::new(false);
    let (good, seen) = thread::scope(|threads| {
        let (device, tasks) = mpsc::channel();
        threads.spawn(|| work(&monitor, tasks));
        let prying = threads.spawn(|| pry(&monitor, &stop));
        let processor = |number| {
            let (monitor, device) = (&monitor, device.clone());
            threads.spawn(move || process(monitor, number, device))
        };
        let processors: Vec<_> = (0..PROCESSORS).map(processor).collect();
        let good = processors.into_iter().filter_map(|it| it.join().ok());
        let good = good.sum::<Result<u64, Refused>>();
        stop.store(true, Ordering::Relaxed);
        (good, prying.join().unwrap_or(usize::MAX))
    });
    let live = monitor.lock().manager.domain_totals(monitor.domain)?.live;
    let good = good?;
    Ok(format!(
        "{mode:?}: the device read {good} buffers, and {seen} bytes that were used again; {live} pages are left"
    ))
}

/// Requests of a guest that asks for what it may not have.
fn refused() -> Result<Vec<Reply>, Refused> {
    let monitor = Monitor::new(Mode::Strict)?;
    let rights = Rights::READ;
    monitor.serve(&[
        Request::Map { page: GUEST_PAGES - 1, pages: 2, rights },
        Request::Map { page: u64::MAX, pages: 1, rights },
        Request::Map { page: 0, pages: 1, rights: Rights::NONE },
        Request::Unmap { address: Address::new(0x1000), pages: 1 },
        Request::Unmap { address: Address::new(0x1001), pages: 1 },
    ])
}

fn main() -> Result<(), Refused> {
    for mode in [Mode::Strict, Mode::Lazy] {
        println!("{}", run(mode)?);
    }
    for reply in refused()? {
        println!("{reply:?}");
    }
    Ok(())
}
