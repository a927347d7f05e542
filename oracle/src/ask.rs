//! Asks the original one case, and puts its answer in words.

use std::convert::TryFrom;
use std::panic::{catch_unwind, AssertUnwindSafe};

use llvm_support::bitcodes::ModuleCode;
use llvm_support::{
    AddressSpace, Align, AlignSpecError, ArrayTypeError, Endian, FunctionPointerAlign, FunctionTypeError, Mangling,
    PointerTypeError, StructTypeError, Type, VectorTypeError,
};

use crate::block::{TypeTable, TypeTableError};
use crate::guard::{self, Stop};
use crate::lay::{module, record, records, type_block};
use crate::map::MapError;
use crate::record::{DataLayout, DataLayoutError, RecordStringError};
use crate::words;

const TAKEN: u64 = 0;
const REFUSED: u64 = 1;
const PANIC: u64 = 2;
const ENDLESS: u64 = 3;
const TOO_LARGE: u64 = 4;
const NOT_ASKED: u64 = 6;

pub fn answer(op: u64, payload: &[u64], by_record: bool) -> Vec<u64> {
    let asked = catch_unwind(AssertUnwindSafe(|| match op {
        1 => table(payload),
        4 => layout(payload, by_record),
        _ => Some(vec![]),
    }));
    match asked {
        Ok(words) => words.unwrap_or_else(|| vec![NOT_ASKED]),
        Err(thrown) => match thrown.downcast_ref::<Stop>() {
            Some(Stop::Depth) => vec![ENDLESS],
            Some(Stop::Steps) => vec![TOO_LARGE],
            None => vec![PANIC, panic_kind(&message(&*thrown))],
        },
    }
}

fn message(thrown: &(dyn std::any::Any + Send)) -> String {
    let text = thrown.downcast_ref::<&str>().map(|s| s.to_string());
    text.or_else(|| thrown.downcast_ref::<String>().cloned()).unwrap_or_default()
}

fn panic_kind(message: &str) -> u64 {
    let known = ["subtract with overflow", "multiply with overflow", "add with overflow", "capacity overflow"];
    known.iter().position(|k| message.contains(k)).map_or(9, |i| i as u64 + 1)
}

// ---- the type table

fn table(payload: &[u64]) -> Option<Vec<u64>> {
    let records = records(payload.get(4..)?)?;
    guard::start(records.len());
    Some(match module(type_block(records)).types? {
        Ok(types) => entries(&types),
        Err(error) => table_error(error),
    })
}

fn entries(types: &TypeTable) -> Vec<u64> {
    let each: Vec<_> = (0usize..).map_while(|i| types.get(i)).map(shown).collect();
    let mut answer = vec![TAKEN, each.len() as u64];
    answer.extend(each.into_iter().flatten());
    answer
}

/// How many words a type is, and their hash.
fn shown(ty: &Type) -> [u64; 2] {
    let words = words::of_type(ty);
    [words.len() as u64, words::hash(&words)]
}

fn table_error(error: TypeTableError) -> Vec<u64> {
    let bad = |number: u64, ty: &Type| {
        let [count, hash] = shown(ty);
        (number, count, hash)
    };
    let (number, first, second) = match error {
        TypeTableError::BadTable => (2, 0, 0),
        TypeTableError::UnknownTypeCode(e) => (3, e.number, 0),
        TypeTableError::Map(MapError::Unsupported(_)) => (4, 0, 0),
        TypeTableError::Map(MapError::RecordString(e)) => (5, string_error(&e), 0),
        TypeTableError::Map(MapError::Invalid(text)) => invalid(&text),
        TypeTableError::Map(_) => (99, 0, 0),
        TypeTableError::BadSize(stated, got) => (10, stated as u64, got as u64),
        TypeTableError::BadIndex(reference) => (11, reference as u64, 0),
        TypeTableError::InvalidIntegerType(_) => (12, 0, 0),
        TypeTableError::InvalidPointerType(PointerTypeError::BadPointee(ty)) => bad(13, &ty),
        TypeTableError::InvalidArrayType(ArrayTypeError::BadElement(ty)) => bad(14, &ty),
        TypeTableError::InvalidVectorType(VectorTypeError::BadElement(ty)) => bad(15, &ty),
        TypeTableError::InvalidStructType(StructTypeError::BadElement(ty)) => bad(16, &ty),
        TypeTableError::InvalidFunctionType(FunctionTypeError::BadReturn(ty)) => bad(17, &ty),
        TypeTableError::InvalidFunctionType(FunctionTypeError::BadParameter(ty)) => bad(18, &ty),
    };
    vec![REFUSED, number, first, second]
}

fn string_error(error: &RecordStringError) -> u64 {
    match error {
        RecordStringError::BadIndex(..) => 1,
        RecordStringError::BadCharacter(_) => 2,
        RecordStringError::BadEncoding(_) => 3,
    }
}

/// `MapError::Invalid` has only a text.
fn invalid(text: &str) -> (u64, u64, u64) {
    if text.starts_with("opaque type but no") {
        (6, 0, 0)
    } else if text.starts_with("forward-declared opaque") {
        (7, 1, 0)
    } else if text.starts_with("forward-declared struct") {
        (7, 2, 0)
    } else if let Some((_, number)) = text.split_once("TooBig(") {
        (8, number.trim_end_matches(')').parse().expect("a space"), 0)
    } else {
        (99, 0, 0)
    }
}

// ---- the layout string

fn layout(payload: &[u64], by_record: bool) -> Option<Vec<u64>> {
    let (count, rest) = payload.split_first()?;
    let bytes: Vec<u8> = rest.get(..usize::try_from(*count).ok()?)?.iter().map(|w| u8::try_from(*w).ok()).collect::<Option<_>>()?;
    let asked = match String::from_utf8(bytes.clone()) {
        Ok(text) if !by_record => text.parse::<DataLayout>(),
        _ => module(vec![record(ModuleCode::DataLayout, bytes.into_iter().map(u64::from).collect())]).layout?,
    };
    Some(match asked {
        Ok(layout) => layout_words(&layout),
        Err(error) => layout_error(&error),
    })
}

fn space(space: &AddressSpace) -> u64 {
    words::of_rows(space)[0]
}

fn bits(align: &Align) -> u64 {
    align.bit_align()
}

/// The form of a layout in a transcript. The rows are in the original's order.
fn layout_words(layout: &DataLayout) -> Vec<u64> {
    let mut answer = vec![
        TAKEN,
        matches!(layout.endianness, Endian::Little) as u64,
        layout.natural_stack_alignment.as_ref().map_or(0, bits),
        space(&layout.program_address_space),
        space(&layout.global_variable_address_space),
        space(&layout.alloca_address_space),
        bits(&layout.aggregate_alignment),
    ];
    answer.extend(match &layout.function_pointer_alignment {
        None => [0, 0],
        Some(FunctionPointerAlign::Independent { abi_alignment }) => [1, bits(abi_alignment)],
        Some(FunctionPointerAlign::MultipleOfFunctionAlign { abi_alignment }) => [2, bits(abi_alignment)],
    });
    answer.push(match layout.mangling {
        None => 0,
        Some(Mangling::Elf) => 1,
        Some(Mangling::Mips) => 2,
        Some(Mangling::Macho) => 3,
        Some(Mangling::WindowsX86Coff) => 4,
        Some(Mangling::WindowsCoff) => 5,
        Some(Mangling::XCoff) => 6,
    });
    answer.push(layout.native_integer_widths.len() as u64);
    answer.extend(layout.native_integer_widths.iter().map(|w| u64::from(*w)));
    answer.push(layout.non_integral_address_spaces.len() as u64);
    answer.extend(layout.non_integral_address_spaces.iter().map(space));
    answer.extend(type_rows(&words::of_rows(&layout.type_alignments)));
    answer.extend(pointer_rows(&words::of_rows(&layout.pointer_alignments)));
    answer
}

fn type_rows(mut words: &[u64]) -> Vec<u64> {
    let mut rows = vec![0];
    while let [kind, rest @ ..] = words {
        words = match (*kind, rest) {
            (words::END, _) => rest,
            (3, [abi, preferred, rest @ ..]) => {
                rows.extend([3, 0, abi * 8, preferred * 8]);
                rest
            }
            (_, [width, abi, preferred, rest @ ..]) => {
                rows.extend([*kind, *width, abi * 8, preferred * 8]);
                rest
            }
            _ => panic!("a row without an end"),
        };
    }
    rows[0] = rows.len() as u64 / 4;
    rows
}

fn pointer_rows(words: &[u64]) -> Vec<u64> {
    let rows = words.chunks_exact(5);
    let mut answer = vec![rows.len() as u64];
    answer.extend(rows.flat_map(|row| [row[0], row[3], row[1] * 8, row[2] * 8, row[4]]));
    answer
}

fn layout_error(error: &DataLayoutError) -> Vec<u64> {
    let number = match error {
        DataLayoutError::BadString(e) => return vec![REFUSED, 5, string_error(e)],
        DataLayoutError::BadEncoding => 21,
        DataLayoutError::EmptySpec => 22,
        DataLayoutError::UnknownSpec(_) => 23,
        DataLayoutError::BadInt(_) | DataLayoutError::BadAlignSpec(AlignSpecError::BadInt(_)) => 24,
        DataLayoutError::BadAlign(_) | DataLayoutError::BadAlignSpec(AlignSpecError::ParseAlign(_)) => 25,
        DataLayoutError::BadAddressSpace(_) | DataLayoutError::BadAlignSpec(AlignSpecError::BadAddressSpace(_)) => 26,
        DataLayoutError::BadSpecParse(_) | DataLayoutError::BadAlignSpec(AlignSpecError::Parse(_)) => 27,
        DataLayoutError::BadAlignSpec(AlignSpecError::BadTypeWidth(_)) => 28,
        DataLayoutError::BadAlignSpec(AlignSpecError::AbiAlignTooLarge(_)) => 29,
        DataLayoutError::BadAlignSpec(AlignSpecError::AlignPref(..)) => 30,
    };
    vec![REFUSED, number, 0]
}
