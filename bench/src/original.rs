//! The original: its own files, unchanged, from records that are laid out before.

use std::convert::TryFrom;

use crate::block::{TypeTable, TypeTableError};
use crate::lay::{module, records, type_block};
use crate::record::DataLayout;
use crate::unroll::Block;

pub fn laid_out(words: &[u64]) -> Block {
    module(type_block(records(words).expect("whole records"))).types.expect("a type block")
}

pub fn read_table(block: &Block) -> Result<TypeTable, TypeTableError> {
    TypeTable::try_from(block)
}

pub fn entries(types: &TypeTable) -> usize {
    (0usize..).map_while(|i| types.get(i)).count()
}

pub fn read_layout(value: &str) -> Option<DataLayout> {
    value.parse().ok()
}
