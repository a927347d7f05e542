//! table STREAM LAYOUT: reads the type table of STREAM (little-endian words of 64 bits) and the data layout string of LAYOUT with the
//! library to link, prints both, and shows a refusal of each. The text is that of ../c/table.c.
#![cfg_attr(plain_start, no_main)]

/// The library's functions, as include/reckonferry.h declares them. Below each is a function over slices, whose lengths are right by
/// their type, and whose exclusive borrows do not overlap: it asks nothing of its caller, as the proved one does not.
mod reckonferry {
    pub const ROW_WORDS: usize = 8;
    pub const LAYOUT_WORDS: usize = 461;

    mod raw {
        extern "C" {
            pub fn reckonferry_read_table(
                words: *const u64,
                words_len: usize,
                rows: *mut u64,
                rows_len: usize,
                refs: *mut u64,
                refs_len: usize,
                names: *mut u8,
                names_len: usize,
                witness: *mut u64,
                witness_len: usize,
                answer: *mut u64,
                answer_len: usize,
            );
            pub fn reckonferry_check_table(
                rows: *const u64,
                rows_len: usize,
                refs: *const u64,
                refs_len: usize,
                names: *const u8,
                names_len: usize,
                ranks: *const u64,
                ranks_len: usize,
                count: usize,
            ) -> bool;
            pub fn reckonferry_has_name(rows: *const u64, rows_len: usize, names: *const u8, names_len: usize, entry: u64) -> bool;
            pub fn reckonferry_name_start(rows: *const u64, rows_len: usize, names: *const u8, names_len: usize, entry: u64) -> usize;
            pub fn reckonferry_name_len(rows: *const u64, rows_len: usize, names: *const u8, names_len: usize, entry: u64) -> usize;
            pub fn reckonferry_read_layout(
                value: *const u8,
                value_len: usize,
                answer: *mut u64,
                answer_len: usize,
                layout: *mut u64,
                layout_len: usize,
            ) -> usize;
        }
    }

    /// Number (0: accepted), place (accepted: the entries), detail.
    pub fn read_table(words: &[u64], rows: &mut [u64], refs: &mut [u64], names: &mut [u8], witness: &mut [u64]) -> [u64; 3] {
        let mut answer = [0; 3];
        unsafe {
            raw::reckonferry_read_table(
                words.as_ptr(),
                words.len(),
                rows.as_mut_ptr(),
                rows.len(),
                refs.as_mut_ptr(),
                refs.len(),
                names.as_mut_ptr(),
                names.len(),
                witness.as_mut_ptr(),
                witness.len(),
                answer.as_mut_ptr(),
                answer.len(),
            );
        }
        answer
    }

    pub fn check_table(rows: &[u64], refs: &[u64], names: &[u8], ranks: &[u64], count: usize) -> bool {
        unsafe {
            raw::reckonferry_check_table(
                rows.as_ptr(),
                rows.len(),
                refs.as_ptr(),
                refs.len(),
                names.as_ptr(),
                names.len(),
                ranks.as_ptr(),
                ranks.len(),
                count,
            )
        }
    }

    /// The name of an entry as the very part of `names`, where it has one.
    pub fn name<'a>(rows: &[u64], names: &'a [u8], entry: u64) -> Option<&'a [u8]> {
        let (r, n, p, m) = (rows.as_ptr(), rows.len(), names.as_ptr(), names.len());
        unsafe {
            if !raw::reckonferry_has_name(r, n, p, m, entry) {
                return None;
            }
            let start = raw::reckonferry_name_start(r, n, p, m, entry);
            Some(&names[start..start + raw::reckonferry_name_len(r, n, p, m, entry)])
        }
    }

    /// The answer, and the words of the layout.
    pub fn read_layout(value: &[u8]) -> ([u64; 3], Vec<u64>) {
        let mut answer = [0; 3];
        let mut layout = vec![0; LAYOUT_WORDS];
        let count = unsafe {
            raw::reckonferry_read_layout(
                value.as_ptr(),
                value.len(),
                answer.as_mut_ptr(),
                answer.len(),
                layout.as_mut_ptr(),
                layout.len(),
            )
        };
        layout.truncate(count);
        (answer, layout)
    }
}

use reckonferry::ROW_WORDS;

const KINDS: [&str; 21] = [
    "half", "bfloat", "float", "double", "x86_fp80", "fp128", "ppc_fp128", "void", "label", "metadata", "x86_mmx", "x86_amx", "token",
    "integer", "function", "pointer", "struct", "array", "vector", "scalable vector", "opaque pointer",
];

/// Room for 1,024 entries: docs/BUFFERS.md says how to choose these.
struct Table {
    rows: Vec<u64>,
    refs: Vec<u64>,
    names: Vec<u8>,
    witness: Vec<u64>,
}

fn listed(words: &[u64]) -> String {
    words.iter().map(|w| format!(" {w}")).collect()
}

fn print_table(words: &[u64]) -> Table {
    let mut t = Table { rows: vec![0; 1024 * ROW_WORDS], refs: vec![0; 8192], names: vec![0; 8192], witness: vec![0; 1024] };
    let [number, place, detail] = reckonferry::read_table(words, &mut t.rows, &mut t.refs, &mut t.names, &mut t.witness);
    if number != 0 {
        println!("table refused {number} {place} {detail}");
        return t;
    }
    let checked = reckonferry::check_table(&t.rows, &t.refs, &t.names, &t.witness, place as usize);
    println!("table of {place} entries, checked: {}", if checked { "yes" } else { "no" });
    for (entry, row) in t.rows.chunks(ROW_WORDS).enumerate().take(place as usize) {
        let refs = &t.refs[row[3] as usize..(row[3] + row[4]) as usize];
        print!("{entry} {} {} flag {} references{}", KINDS[row[0] as usize], row[1], row[2], listed(refs));
        if let Some(name) = reckonferry::name(&t.rows, &t.names, entry as u64) {
            print!(" name {}", String::from_utf8_lossy(name));
        }
        println!(" rank {}", t.witness[entry]);
    }
    t
}

fn print_layout(value: &[u8]) {
    let ([number, place, detail], layout) = reckonferry::read_layout(value);
    if number != 0 {
        println!("layout refused {number} {place} {detail}");
        return;
    }
    let endian = if layout[0] == 0 { "big" } else { "little" };
    println!("layout of {} words: {endian} endian, stack alignment {} bits", layout.len(), layout[1]);
    let mut rest = &layout[9..];
    let mut part = |width: usize| {
        let (words, behind) = rest[1..].split_at(rest[0] as usize * width);
        rest = behind;
        words
    };
    println!("native widths{}", listed(part(1)));
    println!("non-integral spaces{}", listed(part(1)));
    for row in part(4).chunks(4) {
        println!("{}{} aligned to {}, preferred {}", ["i", "v", "f", "a"][row[0] as usize], row[1], row[2], row[3]);
    }
    for row in part(5).chunks(5) {
        println!("pointer of space {}: {} bits, aligned to {}, preferred {}, index {}", row[0], row[1], row[2], row[3], row[4]);
    }
}

/// C's start, for an emulator that cannot show a program its own memory map: Rust's start asks for it.
#[cfg(plain_start)]
#[no_mangle]
pub extern "C" fn main() -> i32 {
    run();
    0
}

#[cfg(not(plain_start))]
fn main() {
    run();
}

fn run() {
    let args: Vec<String> = std::env::args().collect();
    if args.len() != 3 {
        eprintln!("usage: table STREAM LAYOUT");
        std::process::exit(2);
    }

    let bytes = std::fs::read(&args[1]).unwrap_or_default();
    let words: Vec<u64> = bytes.chunks_exact(8).map(|b| u64::from_le_bytes(b.try_into().unwrap())).collect();
    print_table(&words);

    // A pointer to itself: refusal 19, whose ring stands at the front of the witness.
    let t = print_table(&[1, 1, 1, 8, 2, 0, 0]);
    println!("the ring starts with {}", t.witness[0]);

    // No words at all: refusal 2.
    print_table(&[]);

    print_layout(&std::fs::read(&args[2]).unwrap_or_default());

    // `q` is no spec: refusal 23 at its place.
    print_layout(b"e-q");
}
