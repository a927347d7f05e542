//! Lays out a stream of words as the entries that the original starts from.

use std::convert::TryFrom;

use llvm_bitstream::parser::StreamEntry;
use llvm_bitstream::record::{Block, Record};
use llvm_bitstream::Bitstream;
use llvm_support::bitcodes::{IdentificationCode, IrBlockId, StrtabCode};

use crate::block::Module;
use crate::unroll::Bitcode;

/// The records of a stream, where it does not end inside one.
pub fn records(mut stream: &[u64]) -> Option<Vec<Record>> {
    let mut records = Vec::new();
    while let [code, rest @ ..] = stream {
        let (count, rest) = rest.split_first()?;
        let count = usize::try_from(*count).ok().filter(|n| *n <= rest.len())?;
        records.push(Record { code: *code, fields: rest[..count].to_vec() });
        stream = &rest[count..];
    }
    Some(records)
}

fn open(id: IrBlockId) -> StreamEntry {
    StreamEntry::SubBlock(Block { block_id: id.into() })
}

pub fn record(code: impl Into<u64>, fields: Vec<u64>) -> StreamEntry {
    StreamEntry::Record(Record { code: code.into(), fields })
}

/// The type block of these records.
pub fn type_block(records: Vec<Record>) -> Vec<StreamEntry> {
    let parts = [
        vec![open(IrBlockId::Type)],
        records.into_iter().map(StreamEntry::Record).collect(),
        vec![StreamEntry::EndBlock],
    ];
    parts.into_iter().flatten().collect()
}

/// A whole bitcode stream around the contents of its module block, read by the original's unroll.rs.
pub fn module(contents: Vec<StreamEntry>) -> Module {
    let parts = [
        vec![open(IrBlockId::Identification)],
        vec![record(IdentificationCode::ProducerString, vec![65, 65]), record(IdentificationCode::Epoch, vec![0])],
        vec![StreamEntry::EndBlock, open(IrBlockId::Module)],
        contents,
        vec![StreamEntry::EndBlock, open(IrBlockId::Strtab), record(StrtabCode::Blob, vec![0, 0]), StreamEntry::EndBlock],
    ];
    let stream: Bitstream<Vec<u8>> = Bitstream::of(parts.into_iter().flatten().collect());
    let bitcode = Bitcode::try_from(stream).expect("a whole stream");
    bitcode.modules.into_iter().next().expect("one module").module
}
