//! Times the original and the library to link on the same inputs. See docs/BENCHMARKS.md.
#![cfg_attr(plain_start, no_main)]

mod inputs;
mod measure;
mod module;
mod original;
mod ours;
mod tables;

#[path = "../../oracle/src/block.rs"]
mod block;
#[path = "../../oracle/src/lay.rs"]
mod lay;

#[path = "../../oracle/target/mollusc/llvm-mapper/src/error.rs"]
mod error;
#[path = "../../oracle/target/mollusc/llvm-mapper/src/map.rs"]
mod map;
#[path = "../../oracle/target/mollusc/llvm-mapper/src/record/mod.rs"]
mod record;
#[path = "../../oracle/target/mollusc/llvm-mapper/src/unroll.rs"]
mod unroll;

/// C's start, for an emulator that cannot show a program its own memory map: Rust's start asks for it.
#[cfg(plain_start)]
#[no_mangle]
pub extern "C" fn main() -> i32 {
    tables::run();
    0
}

#[cfg(not(plain_start))]
fn main() {
    tables::run();
}
