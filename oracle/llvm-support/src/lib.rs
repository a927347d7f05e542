//! The root of `llvm-support`: align.rs and ty.rs are the original's, unchanged; the rest stands in for files that are not given.

#[path = "../../target/mollusc/llvm-support/src/align.rs"]
mod align;
#[path = "../../target/mollusc/llvm-support/src/ty.rs"]
mod ty;

pub use align::*;
pub use ty::*;

/// Code numbers, from LLVMBitCodes.h.
pub mod bitcodes {
    use num_enum::{IntoPrimitive, TryFromPrimitive};

    macro_rules! codes {
        ($($name:ident { $($case:ident = $number:literal),* })*) => {$(
            #[derive(Copy, Clone, Debug, Eq, Hash, PartialEq, IntoPrimitive, TryFromPrimitive)]
            #[repr(u64)]
            pub enum $name { $($case = $number),* }
        )*};
    }

    codes! {
        IrBlockId { Module = 8, Identification = 13, Type = 17, Strtab = 23, Symtab = 25 }
        IdentificationCode { ProducerString = 1, Epoch = 2 }
        ModuleCode { DataLayout = 3 }
        StrtabCode { Blob = 1 }
        SymtabCode { Blob = 1 }
        TypeCode {
            NumEntry = 1, Void = 2, Float = 3, Double = 4, Label = 5, Opaque = 6, Integer = 7, Pointer = 8,
            FunctionOld = 9, Half = 10, Array = 11, Vector = 12, X86Fp80 = 13, Fp128 = 14, PpcFp128 = 15,
            Metadata = 16, X86Mmx = 17, StructAnon = 18, StructName = 19, StructNamed = 20, Function = 21,
            Token = 22, BFloat = 23, X86Amx = 24, OpaquePointer = 25
        }
    }
}

/// The endianness of a layout string.
#[derive(Debug)]
pub enum Endian {
    Big,
    Little,
}

/// The mangling of a layout string.
#[derive(Debug)]
pub enum Mangling {
    Elf,
    Mips,
    Macho,
    WindowsX86Coff,
    WindowsCoff,
    XCoff,
}

/// A part of the string table.
#[derive(Debug)]
pub struct StrtabRef {
    pub offset: usize,
    pub size: usize,
}

impl From<(u64, u64)> for StrtabRef {
    fn from((offset, size): (u64, u64)) -> Self {
        StrtabRef { offset: offset as usize, size: size as usize }
    }
}

// What record/alias.rs and record/function.rs name. Nothing here asks them: they only have to compile.
macro_rules! fallible {
    ($($name:ident { $($case:ident),* })*) => {$(
        #[derive(Debug, num_enum::TryFromPrimitive)]
        #[repr(u64)]
        pub enum $name { $($case),* }
    )*};
}

macro_rules! infallible {
    ($($name:ident { $first:ident })*) => {$(
        #[derive(Debug)]
        pub enum $name { $first, Other(u64) }
        impl From<u64> for $name {
            fn from(value: u64) -> Self { $name::Other(value) }
        }
    )*};
}

fallible! {
    CallingConvention { C }
    DllStorageClass { Default }
    Visibility { Default }
}

infallible! {
    Linkage { External }
    RuntimePreemption { DsoPreemptable }
    ThreadLocalMode { NotThreadLocal }
    UnnamedAddr { None }
}
