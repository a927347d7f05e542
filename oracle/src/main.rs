//! Says what the original answers to the cases of a transcript. See README.md.

mod ask;
mod block;
mod guard;
mod isolate;
mod lay;
mod module;
mod words;

#[path = "../target/mollusc/llvm-mapper/src/error.rs"]
mod error;
#[path = "../target/mollusc/llvm-mapper/src/map.rs"]
mod map;
#[path = "../target/mollusc/llvm-mapper/src/record/mod.rs"]
mod record;
#[path = "../target/mollusc/llvm-mapper/src/unroll.rs"]
mod unroll;

fn main() {
    let has = |flag: &str| std::env::args().any(|a| a == flag);
    let by_record = has("--record");
    if has("--worker") {
        guard::install(!has("--unguarded"));
        isolate::work(move |op, payload| ask::answer(op, payload, by_record));
    } else {
        isolate::run();
    }
}
