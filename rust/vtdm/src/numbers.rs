//! Numbers of domains, devices, addresses, pages and frames, each of a type of its own.

use crate::limits::{DEVICES, PAGE_BYTES};
use std::fmt;

macro_rules! number {
    ($(#[$meta:meta])* $name:ident $form:literal) => {
        $(#[$meta])*
        #[derive(Clone, Copy, PartialEq, Eq, PartialOrd, Ord, Hash)]
        #[repr(transparent)]
        pub struct $name(u64);

        impl $name {
            /// The one of this number. It may be any number: a call refuses one outside its limits.
            #[must_use]
            pub const fn new(number: u64) -> $name {
                $name(number)
            }

            /// Its number.
            #[must_use]
            pub const fn get(self) -> u64 {
                self.0
            }
        }

        impl From<u64> for $name {
            fn from(number: u64) -> $name {
                $name(number)
            }
        }

        impl From<$name> for u64 {
            fn from(it: $name) -> u64 {
                it.0
            }
        }

        impl fmt::Display for $name {
            fn fmt(&self, f: &mut fmt::Formatter<'_>) -> fmt::Result {
                write!(f, $form, self.0)
            }
        }

        impl fmt::Debug for $name {
            fn fmt(&self, f: &mut fmt::Formatter<'_>) -> fmt::Result {
                write!(f, concat!(stringify!($name), "(", $form, ")"), self.0)
            }
        }
    };
}

number! {
    /// The id of a domain, from 1 on.
    Domain "{}"
}

number! {
    /// The number of a device, from 0 on.
    Device "{}"
}

number! {
    /// A device address, in bytes: what a device puts on the bus.
    ///
    /// ```
    /// use vtdm::{Address, Page, Pages};
    ///
    /// let address = Address::new(0x1234);
    /// assert_eq!(address.to_string(), "0x1234");
    /// assert_eq!(address.page(), Page::new(1));
    /// assert_eq!(address.offset(), 0x234);
    /// assert_eq!(address.checked_add(Pages::new(2)), Some(Address::new(0x3234)));
    /// ```
    Address "{:#x}"
}

number! {
    /// A host address, in bytes: what a device address reaches.
    HostAddress "{:#x}"
}

number! {
    /// The number of a page: 4 KiB of device addresses.
    Page "{:#x}"
}

number! {
    /// The number of a host frame: 4 KiB of host memory, from host address number × 4096 on.
    Frame "{:#x}"
}

number! {
    /// The number of a table frame, from 0 on. Its host frame is as far behind the base of the manager ([`TableFrame::host`]).
    TableFrame "{}"
}

number! {
    /// A length in pages, of addresses or of memory.
    Pages "{}"
}

number! {
    /// The order of a start: a map begins at a multiple of 2^order pages.
    #[derive(Default)]
    Order "{}"
}

impl Address {
    /// The page that it lies in.
    #[must_use]
    pub const fn page(self) -> Page {
        Page(self.0 / PAGE_BYTES)
    }

    /// Where it lies in its page.
    #[must_use]
    pub const fn offset(self) -> u64 {
        self.0 % PAGE_BYTES
    }

    /// The address so many pages behind it, where 64 bits hold it.
    #[must_use]
    pub const fn checked_add(self, pages: Pages) -> Option<Address> {
        match pages.bytes() {
            Some(bytes) => match self.0.checked_add(bytes) {
                Some(address) => Some(Address(address)),
                None => None,
            },
            None => None,
        }
    }
}

impl HostAddress {
    /// The frame that it lies in.
    #[must_use]
    pub const fn frame(self) -> Frame {
        Frame(self.0 / PAGE_BYTES)
    }

    /// Where it lies in its frame.
    #[must_use]
    pub const fn offset(self) -> u64 {
        self.0 % PAGE_BYTES
    }
}

impl Page {
    /// The address of its first byte, where 64 bits hold it.
    #[must_use]
    pub const fn address(self) -> Option<Address> {
        match self.0.checked_mul(PAGE_BYTES) {
            Some(address) => Some(Address(address)),
            None => None,
        }
    }
}

impl Frame {
    /// The host address of its first byte, where 64 bits hold it.
    #[must_use]
    pub const fn address(self) -> Option<HostAddress> {
        match self.0.checked_mul(PAGE_BYTES) {
            Some(address) => Some(HostAddress(address)),
            None => None,
        }
    }
}

impl TableFrame {
    /// Its host frame, where table frame 0 is that host frame, and 64 bits hold it.
    ///
    /// ```
    /// use vtdm::{Frame, TableFrame};
    ///
    /// assert_eq!(TableFrame::new(3).host(Frame::new(0x4200)), Some(Frame::new(0x4203)));
    /// ```
    #[must_use]
    pub const fn host(self, base: Frame) -> Option<Frame> {
        match base.0.checked_add(self.0) {
            Some(frame) => Some(Frame(frame)),
            None => None,
        }
    }
}

impl Pages {
    /// How many bytes they have, where 64 bits hold it.
    #[must_use]
    pub const fn bytes(self) -> Option<u64> {
        self.0.checked_mul(PAGE_BYTES)
    }
}

impl Order {
    /// At any page.
    pub const PAGE: Order = Order(0);
    /// At a multiple of 2 MiB, so that leaves of 2 MiB can be used.
    pub const MIB_2: Order = Order(9);
}

/// Host frames that follow one another: the first, and how many.
#[derive(Clone, Copy, Debug, PartialEq, Eq, Hash)]
#[repr(C)]
pub struct Segment {
    /// The first frame.
    pub frame: Frame,
    /// How many.
    pub pages: Pages,
}

impl Segment {
    /// So many frames from one on.
    #[must_use]
    pub const fn new(frame: Frame, pages: Pages) -> Segment {
        Segment { frame, pages }
    }
}

/// The ticket of a flush that was begun: its domain, and its number there, from 1 on.
#[derive(Clone, Copy, Debug, PartialEq, Eq, Hash)]
#[must_use = "a ticket is open until it is reaped, and its domain can't be dropped before"]
pub struct Ticket {
    /// The domain.
    pub domain: Domain,
    /// The number.
    pub number: u64,
}

/// A set of devices: bit V is device V.
///
/// ```
/// use vtdm::{Device, Devices};
///
/// let devices = Devices::from_bits(0x8004);
/// assert!(devices.contains(Device::new(2)));
/// assert!(devices.iter().eq([Device::new(2), Device::new(15)]));
/// ```
#[derive(Clone, Copy, Debug, Default, PartialEq, Eq, Hash)]
pub struct Devices(u64);

impl Devices {
    /// The set of these bits.
    #[must_use]
    pub const fn from_bits(bits: u64) -> Devices {
        Devices(bits)
    }

    /// Its bits.
    #[must_use]
    pub const fn bits(self) -> u64 {
        self.0
    }

    /// Whether a device is in it.
    #[must_use]
    pub fn contains(self, device: Device) -> bool {
        device.0 < DEVICES && self.0 >> device.0 & 1 == 1
    }

    /// Whether no device is in it.
    #[must_use]
    pub fn is_empty(self) -> bool {
        self.iter().next().is_none()
    }

    /// Its devices, the lowest first.
    pub fn iter(self) -> impl Iterator<Item = Device> {
        (0..DEVICES).map(Device).filter(move |it| self.contains(*it))
    }
}

#[cfg(test)]
mod tests {
    use super::*;

    #[test]
    fn numbers_are_kept() {
        for number in [0, 1, 4096, u64::MAX] {
            assert_eq!(Domain::from(number).get(), number);
            assert_eq!(u64::from(Address::new(number)), number);
        }
        assert!(Frame::new(1) < Frame::new(2));
        assert_eq!(Order::default(), Order::PAGE);
        assert_eq!(Order::MIB_2.get(), crate::limits::MOST_ORDER);
    }

    #[test]
    fn they_are_shown_as_the_scripts_have_them() {
        assert_eq!(Domain::new(12).to_string(), "12");
        assert_eq!(Pages::new(12).to_string(), "12");
        assert_eq!(Address::new(0x1000).to_string(), "0x1000");
        assert_eq!(format!("{:?}", HostAddress::new(0x10_0234)), "HostAddress(0x100234)");
        assert_eq!(format!("{:?}", Device::new(3)), "Device(3)");
        let ticket = Ticket { domain: Domain::new(1), number: 2 };
        assert_eq!(format!("{ticket:?}"), "Ticket { domain: Domain(1), number: 2 }");
    }

    #[test]
    fn pages_and_addresses_fit() {
        assert_eq!(Address::new(0x5fff).page(), Page::new(5));
        assert_eq!(Address::new(0x5fff).offset(), 0xfff);
        assert_eq!(Page::new(5).address(), Some(Address::new(0x5000)));
        assert_eq!(HostAddress::new(0x10_0234).frame(), Frame::new(0x100));
        assert_eq!(HostAddress::new(0x10_0234).offset(), 0x234);
        assert_eq!(Frame::new(0x100).address(), Some(HostAddress::new(0x10_0000)));
        assert_eq!(Pages::new(3).bytes(), Some(0x3000));
    }

    #[test]
    fn what_64_bits_do_not_hold_is_none() {
        let end = u64::MAX / PAGE_BYTES + 1;
        assert_eq!(TableFrame::new(u64::MAX).host(Frame::new(1)), None);
        assert_eq!(Page::new(end).address(), None);
        assert_eq!(Frame::new(end).address(), None);
        assert_eq!(Pages::new(end).bytes(), None);
        assert_eq!(Address::new(0).checked_add(Pages::new(end)), None);
        assert_eq!(Address::new(u64::MAX).checked_add(Pages::new(1)), None);
        assert!(Page::new(end - 1).address().is_some());
    }

    #[test]
    fn a_segment_is_laid_out_as_that_of_c() {
        assert_eq!(size_of::<Segment>(), 16);
        assert_eq!(align_of::<Segment>(), align_of::<u64>());
        let one = Segment::new(Frame::new(1), Pages::new(2));
        assert_eq!((one.frame, one.pages), (Frame::new(1), Pages::new(2)));
    }

    #[test]
    fn a_set_of_devices_has_its_bits() {
        let devices = Devices::from_bits(0x8004);
        assert_eq!(devices.bits(), 0x8004);
        assert!(!devices.contains(Device::new(3)) && !devices.contains(Device::new(u64::MAX)));
        assert!(devices.contains(Device::new(15)) && !devices.is_empty());
        assert!(Devices::default().is_empty() && Devices::from_bits(1 << 16).is_empty());
    }
}
