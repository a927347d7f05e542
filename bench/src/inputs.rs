//! The streams and strings that both sides read.

pub const SIZES: [usize; 5] = [16, 64, 256, 1024, 4096];

/// A series of generated tables, one of each size.
pub struct Series {
    pub name: &'static str,
    pub make: fn(usize) -> Vec<u64>,
}

pub const SERIES: [Series; 10] = [
    Series { name: "mixed, backward", make: backward },
    Series { name: "mixed, forward", make: forward },
    Series { name: "pairs, apart", make: |n| pairs(n, false) },
    Series { name: "pairs, shared", make: |n| pairs(n, true) },
    Series { name: "twice, apart", make: |n| twice(n, false) },
    Series { name: "twice, shared", make: |n| twice(n, true) },
    Series { name: "chain, backward", make: chain_backward },
    Series { name: "chain, forward", make: chain_forward },
    Series { name: "names of 16", make: |n| named(n, 16) },
    Series { name: "names of 256", make: |n| named(n, 256) },
];

/// `NAME/ENTRIES`: one table of a series.
pub fn by_name(what: &str) -> Option<Vec<u64>> {
    let (name, entries) = what.split_once('/')?;
    let series = SERIES.iter().find(|s| s.name == name)?;
    Some((series.make)(entries.parse().ok()?))
}

/// A stream of these records behind its count of entries.
fn stream(entries: usize, records: &[Vec<u64>]) -> Vec<u64> {
    let mut words = vec![1, 1, entries as u64];
    for record in records {
        words.extend([record[0], record.len() as u64 - 1]);
        words.extend(&record[1..]);
    }
    words
}

const INTEGER: u64 = 7;
const POINTER: u64 = 8;
const ARRAY: u64 = 11;
const DOUBLE: u64 = 4;
const STRUCT_ANON: u64 = 18;
const STRUCT_NAME: u64 = 19;
const STRUCT_NAMED: u64 = 20;
const FUNCTION: u64 = 21;

/// Groups of eight entries of mixed kinds, as a C compiler makes them. `at` says where an entry of the group stands.
fn group(at: impl Fn(u64) -> u64) -> [Vec<Vec<u64>>; 8] {
    let name = "struct.filter_state".bytes().map(u64::from);
    [
        vec![vec![INTEGER, 32]],
        vec![vec![DOUBLE]],
        vec![vec![POINTER, at(0), 0]],
        vec![vec![ARRAY, 16, at(1)]],
        vec![[STRUCT_NAME].into_iter().chain(name).collect(), vec![STRUCT_NAMED, 0, at(0), at(1), at(2), at(3)]],
        vec![vec![POINTER, at(4), 0]],
        vec![vec![FUNCTION, 0, at(0), at(5), at(2), at(1)]],
        vec![vec![STRUCT_ANON, 1, at(0), at(2), at(5)]],
    ]
}

/// Every reference is to an entry before.
fn backward(entries: usize) -> Vec<u64> {
    let groups = (0..entries as u64).step_by(8).flat_map(|base| group(move |i| base + i));
    stream(entries, &groups.flatten().collect::<Vec<_>>())
}

/// The same entries in the opposite order: every reference is to an entry behind.
fn forward(entries: usize) -> Vec<u64> {
    let groups = (0..entries as u64).step_by(8).flat_map(|base| group(move |i| base + 7 - i).into_iter().rev());
    stream(entries, &groups.flatten().collect::<Vec<_>>())
}

/// Pairs of a struct of eight doubles and a pointer to a struct: to its own, or all to the first.
fn pairs(entries: usize, shared: bool) -> Vec<u64> {
    let mut records = vec![vec![DOUBLE], vec![INTEGER, 32]];
    for e in (2..entries as u64).step_by(2) {
        records.push(vec![STRUCT_ANON, 0, 0, 0, 0, 0, 0, 0, 0, 0]);
        records.push(vec![POINTER, if shared { 2 } else { e }, 0]);
    }
    stream(entries, &records)
}

/// Each struct has the one before it twice, or an integer twice.
fn twice(entries: usize, shared: bool) -> Vec<u64> {
    let mut records = vec![vec![INTEGER, 8]];
    records.extend((1..entries as u64).map(|e| if shared { vec![STRUCT_ANON, 0, e - 1, e - 1] } else { vec![STRUCT_ANON, 0, 0, 0] }));
    stream(entries, &records)
}

/// Pointers, each to the one before it.
fn chain_backward(entries: usize) -> Vec<u64> {
    let mut records = vec![vec![INTEGER, 8]];
    records.extend((1..entries as u64).map(|e| vec![POINTER, e - 1, 0]));
    stream(entries, &records)
}

/// Pointers, each to the one behind it.
fn chain_forward(entries: usize) -> Vec<u64> {
    let mut records: Vec<_> = (1..entries as u64).map(|e| vec![POINTER, e, 0]).collect();
    records.push(vec![INTEGER, 8]);
    stream(entries, &records)
}

/// Structs with names of so many bytes; between two an integer, since a struct behind a struct fills that.
fn named(entries: usize, bytes: usize) -> Vec<u64> {
    let mut records = Vec::new();
    for e in (0..entries as u64).step_by(2) {
        records.push(vec![INTEGER, 8 + e]);
        records.push([STRUCT_NAME].into_iter().chain((0..bytes as u64).map(|i| 97 + (e + i) % 26)).collect());
        records.push(vec![STRUCT_NAMED, 0, e]);
    }
    stream(entries, &records)
}

/// A layout string that leaves 64 type rows: those that are there before are set again, and further ones follow.
pub fn many_rows() -> String {
    let before = ["i1:8", "i8:8", "i16:16", "i32:32", "i64:64", "f16:16", "f32:32", "f64:64", "f128:128", "v64:64", "v128:128", "a:8"];
    let further = (0..64 - before.len()).map(|i| format!("i{}:64", 256 + i));
    let rows: Vec<String> = before.iter().map(|s| s.to_string()).chain(further).collect();
    format!("e-{}", rows.join("-"))
}
