//! Stands in for `llvm-bitstream`: a stream of entries that the oracle lays out itself, in place of one that is read from bits.

use std::marker::PhantomData;

use error::Error;
use parser::StreamEntry;

pub mod error {
    /// Nothing is read from bits here, so nothing goes wrong.
    #[derive(Debug, thiserror::Error)]
    pub enum Error {}
}

pub mod record {
    #[derive(Clone, Debug)]
    pub struct Record {
        pub code: u64,
        pub fields: Vec<u64>,
    }

    #[derive(Debug)]
    pub struct Block {
        pub block_id: u64,
    }
}

pub mod parser {
    use crate::record::{Block, Record};

    #[derive(Debug)]
    pub enum StreamEntry {
        SubBlock(Block),
        Record(Record),
        EndBlock,
    }

    impl StreamEntry {
        pub fn as_block(self) -> Option<Block> {
            match self {
                StreamEntry::SubBlock(block) => Some(block),
                _ => None,
            }
        }
    }
}

pub struct Bitstream<T: AsRef<[u8]>> {
    entries: std::vec::IntoIter<StreamEntry>,
    bytes: PhantomData<T>,
}

impl<T: AsRef<[u8]>> Bitstream<T> {
    pub fn of(entries: Vec<StreamEntry>) -> Self {
        Bitstream { entries: entries.into_iter(), bytes: PhantomData }
    }

    /// The original reads the bytes. Nothing calls this: unroll.rs names it, so it has to compile.
    pub fn from(_: T) -> Result<((), Self), Error> {
        Ok(((), Self::of(Vec::new())))
    }
}

impl<T: AsRef<[u8]>> Iterator for Bitstream<T> {
    type Item = Result<StreamEntry, Error>;

    fn next(&mut self) -> Option<Self::Item> {
        self.entries.next().map(Ok)
    }
}
