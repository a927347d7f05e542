//! Stands in for block/module.rs, which needs files that are not given.

use std::convert::TryFrom;

use llvm_support::bitcodes::{IrBlockId, ModuleCode};

use crate::block::{TypeTable, TypeTableError};
use crate::map::{MapError, PartialCtxMappable, PartialMapCtx};
use crate::record::{DataLayout, DataLayoutError};
use crate::unroll::Block;

/// A module that keeps its layout and its type table, and asks for both as module.rs does.
#[derive(Debug)]
pub struct Module {
    pub layout: Option<Result<DataLayout, DataLayoutError>>,
    pub types: Option<Result<TypeTable, TypeTableError>>,
}

impl TryFrom<(&'_ Block, &'_ mut PartialMapCtx)> for Module {
    type Error = MapError;

    fn try_from((block, ctx): (&'_ Block, &'_ mut PartialMapCtx)) -> Result<Self, MapError> {
        let layout = block.records.one_or_none(ModuleCode::DataLayout)?.map(|record| DataLayout::try_map(record, ctx));
        let types = block.blocks.one_or_none(IrBlockId::Type)?.map(TypeTable::try_from);
        Ok(Module { layout, types })
    }
}
