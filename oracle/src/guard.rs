//! Ends a resolution that would not end, or not in time. The original reports each step to the `log` crate, so a logger of our own
//! counts the steps and sees how deep the stack is, and unwinds out of the original where it is too much.

use std::cell::Cell;
use std::panic::panic_any;

/// Steps after which a table counts as too large (ORACLE_STEPS says otherwise): an entry that is shared is built again for each use.
const STEPS: u64 = 200_000;
/// Stack for each entry: more than one level of the resolution takes in a debug build.
const FRAME: usize = 24 * 1024;
/// The stack of the thread that asks (ORACLE_STACK says otherwise): enough for the longest chain that a payload holds.
const STACK: usize = 768 << 20;

/// What the logger unwinds with.
pub enum Stop {
    Depth,
    Steps,
}

thread_local! {
    static BASE: Cell<usize> = const { Cell::new(0) };
    static DEPTH: Cell<usize> = const { Cell::new(0) };
    static STEPS_ALLOWED: u64 = variable("ORACLE_STEPS").unwrap_or(STEPS);
    static LEFT: Cell<u64> = const { Cell::new(0) };
}

struct Guard;

fn variable(name: &str) -> Option<u64> {
    std::env::var(name).ok().and_then(|text| text.parse().ok())
}

pub fn stack() -> usize {
    variable("ORACLE_STACK").map_or(STACK, |bytes| bytes as usize)
}

fn here() -> usize {
    let mark = 0u8;
    std::hint::black_box(&mark) as *const u8 as usize
}

impl log::Log for Guard {
    fn enabled(&self, _: &log::Metadata) -> bool {
        true
    }

    fn log(&self, _: &log::Record) {
        let left = LEFT.get();
        if left == 0 {
            panic_any(Stop::Steps);
        }
        LEFT.set(left - 1);
        if BASE.get().saturating_sub(here()) > DEPTH.get() {
            panic_any(Stop::Depth);
        }
    }

    fn flush(&self) {}
}

pub fn install(active: bool) {
    std::panic::set_hook(Box::new(|_| {}));
    log::set_logger(&Guard).expect("no other logger");
    log::set_max_level(if active { log::LevelFilter::Debug } else { log::LevelFilter::Off });
}

/// Starts a count: a path through `entries` entries without a ring is not longer than that.
pub fn start(entries: usize) {
    BASE.set(here());
    DEPTH.set(((entries + 2) * FRAME + (256 << 10)).min(STACK - (64 << 20)));
    LEFT.set(STEPS_ALLOWED.with(|steps| *steps));
}
