//! Stands in for block/mod.rs and block/attributes.rs, which need files that are not given. The module is in module.rs: bench/ uses
//! this file with a module of its own.
//! The four files named by `#[path]` are the original's, unchanged.

use std::convert::TryFrom;

use llvm_support::bitcodes::IrBlockId;
use thiserror::Error;

use crate::map::MapError;

#[path = "../target/mollusc/llvm-mapper/src/block/identification.rs"]
pub mod identification;
#[path = "../target/mollusc/llvm-mapper/src/block/strtab.rs"]
pub mod strtab;
#[path = "../target/mollusc/llvm-mapper/src/block/symtab.rs"]
pub mod symtab;
#[path = "../target/mollusc/llvm-mapper/src/block/type_table.rs"]
pub mod type_table;

pub use crate::module::Module;
pub use attributes::*;
pub use identification::*;
pub use strtab::*;
pub use symtab::*;
pub use type_table::*;

/// Attributes are left out: none are ever there.
pub mod attributes {
    #[derive(Debug)]
    pub struct AttributeEntry;

    #[derive(Debug, Default)]
    pub struct AttributeGroups;

    #[derive(Debug, Default)]
    pub struct Attributes;

    impl Attributes {
        pub fn get(&self, _: u64) -> Option<&AttributeEntry> {
            None
        }
    }
}

#[derive(Copy, Clone, Debug, Eq, Hash, PartialEq)]
pub enum BlockId {
    Ir(IrBlockId),
    Other(u64),
}

impl From<IrBlockId> for BlockId {
    fn from(id: IrBlockId) -> Self {
        BlockId::Ir(id)
    }
}

impl From<u64> for BlockId {
    fn from(id: u64) -> Self {
        IrBlockId::try_from(id).map_or(BlockId::Other(id), BlockId::Ir)
    }
}

#[derive(Debug, Error)]
pub enum BlockMapError {
    #[error("identification")]
    Identification(#[from] IdentificationError),
    #[error("module")]
    Module(#[from] MapError),
    #[error("string table")]
    Strtab(#[from] StrtabError),
    #[error("symbol table")]
    Symtab(#[from] SymtabError),
}
