//! Memory: a creation that gets none is refused, and a manager that ends gives back what it took. Both are tried in a process of its own
//! whose address space is small.

use std::env;
use std::process::Command;
use vtdm::limits::MOST_TABLE_FRAMES;
use vtdm::{Frame, HostAddress, Manager, Mode, Refused, Width};

/// KiB of address space: a manager with the most table frames takes about 18,200.
const ADDRESS_SPACE: u64 = 400_000;
/// More managers than fit there at one time.
const MANAGERS: usize = 100;

/// Runs an ignored test of this file in a small address space.
fn passes_in_little_memory(test: &str) {
    let limited = format!(
        "ulimit -v {ADDRESS_SPACE} && exec \"$0\" --exact {test} --ignored --test-threads 1"
    );
    let own = env::current_exe().unwrap();
    let output = Command::new("sh").arg("-c").arg(limited).arg(own).output().unwrap();
    let said = String::from_utf8_lossy(&output.stdout);
    assert!(output.status.success() && said.contains("1 passed"), "{said}");
}

#[test]
fn a_creation_without_memory_is_refused() {
    passes_in_little_memory("creations_until_one_is_refused");
}

#[test]
fn an_end_gives_memory_back() {
    passes_in_little_memory("creations_and_ends");
}

#[test]
#[ignore = "it needs a small address space"]
fn creations_until_one_is_refused() {
    let mut managers = Vec::with_capacity(MANAGERS);
    let refused = loop {
        match Manager::new(MOST_TABLE_FRAMES) {
            Ok(manager) => managers.push(manager),
            Err(refused) => break refused,
        }
    };
    assert_eq!(refused, Refused::NoMemory);
    assert!(!managers.is_empty() && managers.len() < MANAGERS);
    for manager in &mut managers {
        manager.domain(Mode::Strict, Width::W39).unwrap();
    }
    managers.pop();
    assert!(Manager::with_caching_mode(MOST_TABLE_FRAMES).is_ok());
    assert!(Manager::driven(MOST_TABLE_FRAMES, Frame::new(512), true, HostAddress::new(0)).is_ok());
}

#[test]
#[ignore = "it needs a small address space"]
fn creations_and_ends() {
    for number in 0..MANAGERS {
        let mut manager = Manager::new(MOST_TABLE_FRAMES).unwrap();
        manager
            .domain(if number % 2 == 0 { Mode::Strict } else { Mode::Lazy }, Width::W48)
            .unwrap();
    }
}
