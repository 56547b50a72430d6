//! Limits, as the header of the C library has them. The README of the repository, *Limits*, tells which this project chose, and neither
//! VT-d nor Linux says: it marks them as *own*.

/// Bytes of a page, and of a frame.
pub const PAGE_BYTES: u64 = 4096;
/// Device addresses of a 39-bit domain are below it.
pub const ADDRESSES_END: u64 = 1 << 39;
/// Device addresses of a 48-bit domain are below it.
pub const WIDE_ADDRESSES_END: u64 = 1 << 48;
/// Numbers of host frames are below it.
pub const FRAMES_END: u64 = 1 << 24;
/// The first page of the interrupt address range, which is not translated.
pub const WINDOW_FIRST: u64 = 0xFEE00;
/// The last page of the interrupt address range.
pub const WINDOW_LAST: u64 = 0xFEEFF;
/// The fewest table frames of a manager.
pub const LEAST_TABLE_FRAMES: u64 = 16;
/// The most table frames of a manager.
pub const MOST_TABLE_FRAMES: u64 = 4096;
/// Ids of domains are 1 to it.
pub const MOST_DOMAINS: u64 = 15;
/// Numbers of devices are below it.
pub const DEVICES: u64 = 16;
/// The most pages of one map or unmap.
pub const MOST_PAGES: u64 = 4096;
/// The highest alignment of a map: 2^9 pages, 2 MiB.
pub const MOST_ORDER: u64 = 9;
/// The most segments of one map.
pub const MOST_SEGMENTS: u64 = 16;
/// The most pieces of a domain's address space: free, mapped or retired.
pub const MOST_PIECES: u64 = 1024;
/// The most retired ranges of a lazy domain.
pub const MOST_RECORDS: u64 = 256;
/// The most open tickets, over all domains.
pub const MOST_TICKETS: u64 = 64;
/// The most effects of one call.
pub const MOST_EFFECTS: u64 = 32;
/// A manager answers as many calls.
pub const CALLS_END: u64 = 1 << 56;
