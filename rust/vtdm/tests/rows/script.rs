//! Lines of scripts, answered by a manager, and its report.

use vtdm::{
    Access, Address, Cache, Device, Domain, Frame, Manager, Mode, Order, Pages, Progress, Reaped,
    Refused, Rights, Segment, Ticket, Whim, Width, limits,
};

/// The words of a line. A number is decimal, or hexadecimal behind 0x.
struct Words<'a>(Vec<&'a str>);

impl Words<'_> {
    fn at(&self, place: usize) -> &str {
        self.0.get(place).copied().unwrap_or_default()
    }

    fn number(&self, place: usize) -> u64 {
        number(self.at(place))
    }

    fn has(&self, word: &str) -> bool {
        self.0.iter().skip(1).any(|it| *it == word)
    }

    fn rights(&self, place: usize) -> Rights {
        let right = |letter, right| {
            if self.at(place).contains(letter) { right } else { Rights::NONE }
        };
        right('r', Rights::READ) | right('w', Rights::WRITE)
    }

    fn segments(&self) -> Vec<Segment> {
        let pairs = self.0.iter().skip(4).map(|it| it.split_once(':').unwrap());
        pairs
            .map(|(frame, pages)| Segment::new(number(frame).into(), number(pages).into()))
            .collect()
    }
}

fn number(word: &str) -> u64 {
    match word.strip_prefix("0x") {
        Some(digits) => u64::from_str_radix(digits, 16).unwrap(),
        None => word.parse().unwrap(),
    }
}

/// Answers one good line as `vtdm run` does.
pub fn answer(manager: &mut Manager, line: &str) -> String {
    let words = Words(line.split(' ').collect());
    match call(manager, &words) {
        Ok(reply) => reply,
        Err(refused) => match refused.fault_reason() {
            Some(reason) => format!("fault {reason}"),
            None => format!("refused {}", refused.status()),
        },
    }
}

fn call(manager: &mut Manager, words: &Words) -> Result<String, Refused> {
    let domain = || Domain::new(words.number(1));
    let device = || Device::new(words.number(1));
    let done = || "ok".to_owned();
    match words.at(0) {
        "domain" => make_domain(manager, words),
        "drop" => manager.drop_domain(domain()).map(|()| done()),
        "attach" => manager.attach(device(), words.number(2).into()).map(|()| done()),
        "detach" => manager.detach(device()).map(|()| done()),
        "map" => map(manager, words),
        "maplist" => map_list(manager, words),
        "unmap" => unmap(manager, words),
        "flush" => manager.flush(domain()).map(|it| format!("flushed {it}")),
        "begin" => begin(manager, domain()),
        "unit" => step(manager),
        "reap" => reap(manager, words),
        "dma" => request(manager, words),
        "evict" => manager.evict(cache(words.at(1)), words.number(2)).map(|()| done()),
        other => panic!("no such call: {other}"),
    }
}

fn make_domain(manager: &mut Manager, words: &Words) -> Result<String, Refused> {
    let mode = if words.has("lazy") { Mode::Lazy } else { Mode::Strict };
    let width = if words.has("48") { Width::W48 } else { Width::W39 };
    Ok(format!("domain {}", manager.domain(mode, width)?))
}

fn map(manager: &mut Manager, words: &Words) -> Result<String, Refused> {
    let (frame, pages) = (Frame::new(words.number(2)), Pages::new(words.number(3)));
    let (order, rights) = (Order::new(words.number(4)), words.rights(5));
    Ok(format!("map {}", manager.map(words.number(1).into(), frame, pages, order, rights)?))
}

fn map_list(manager: &mut Manager, words: &Words) -> Result<String, Refused> {
    let (order, rights) = (Order::new(words.number(2)), words.rights(3));
    let at = manager.map_list(words.number(1).into(), order, rights, &words.segments())?;
    Ok(format!("map {at}"))
}

/// The answer's kind is that of the domain's mode.
fn unmap(manager: &mut Manager, words: &Words) -> Result<String, Refused> {
    let (domain, pages) = (Domain::new(words.number(1)), Pages::new(words.number(3)));
    let unmapped = manager.unmap(domain, Address::new(words.number(2)), pages)?;
    let is_free = unmapped == vtdm::Unmapped::Free;
    assert_eq!(is_free, manager.mode_of(domain)? == Mode::Strict);
    Ok(format!("unmapped {}", unmapped.released()))
}

fn begin(manager: &mut Manager, domain: Domain) -> Result<String, Refused> {
    let Ticket { domain, number } = manager.begin(domain)?;
    Ok(format!("ticket {domain} {number}"))
}

fn step(manager: &mut Manager) -> Result<String, Refused> {
    Ok(match manager.unit()? {
        Progress::Did => "unit did".to_owned(),
        Progress::Idle => "unit idle".to_owned(),
    })
}

fn reap(manager: &mut Manager, words: &Words) -> Result<String, Refused> {
    let ticket = Ticket { domain: words.number(1).into(), number: words.number(2) };
    Ok(match manager.reap(ticket)? {
        Reaped::Released(count) => format!("reaped {count}"),
        Reaped::Pending => "pending".to_owned(),
    })
}

fn request(manager: &mut Manager, words: &Words) -> Result<String, Refused> {
    let (device, address) = (Device::new(words.number(1)), Address::new(words.number(2)));
    let access = if words.has("w") { Access::Write } else { Access::Read };
    let whim = Whim { look: words.has("look"), fill: words.has("fill") };
    Ok(format!("host {}", manager.dma(device, address, access, whim)?))
}

fn cache(word: &str) -> Cache {
    match word {
        "leaf" => Cache::Leaf,
        "nonleaf" => Cache::NonLeaf,
        "context" => Cache::Context,
        "fault" => Cache::Fault,
        other => panic!("no such cache: {other}"),
    }
}

/// What `vtdm report` writes after so many calls.
pub fn report(manager: &Manager, events: usize) -> Result<String, Refused> {
    let all = manager.totals()?;
    let mut text = format!(
        "events {events}\nframes {} free {} used {} retired\n",
        all.free, all.used, all.held
    );
    text += &format!("tickets {} open\nring {} pending\n", all.tickets, all.pending);
    for domain in (1..=limits::MOST_DOMAINS).map(Domain::new) {
        if let Ok(one) = manager.domain_totals(domain) {
            let mode = if one.mode == Mode::Lazy { "lazy" } else { "strict" };
            let counts = format!("live {} retired {} pieces {}", one.live, one.retired, one.pieces);
            text += &format!("domain {domain} {mode} {counts}\n");
        }
    }
    for device in (0..limits::DEVICES).map(Device::new) {
        if let Ok(domain) = manager.domain_of(device) {
            text += &format!("device {device} domain {domain}\n");
        }
    }
    Ok(text)
}
