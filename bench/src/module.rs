//! Stands in for block/module.rs, which needs files that are not given. This one keeps the type block as it was laid out, so that
//! the original can be timed from there on.

use std::convert::TryFrom;

use llvm_support::bitcodes::IrBlockId;

use crate::map::{MapError, PartialMapCtx};
use crate::unroll::Block;

#[derive(Debug)]
pub struct Module {
    pub types: Option<Block>,
}

impl TryFrom<(&'_ Block, &'_ mut PartialMapCtx)> for Module {
    type Error = MapError;

    fn try_from((block, _): (&'_ Block, &'_ mut PartialMapCtx)) -> Result<Self, MapError> {
        Ok(Module { types: block.blocks.one_or_none(IrBlockId::Type)?.cloned() })
    }
}
