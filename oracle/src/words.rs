//! Private fields are read from the `{:?}` text that the original derives for them.

/// Closes a list.
pub const END: u64 = u64::MAX;

const KINDS: [&str; 21] = [
    "Half", "BFloat", "Float", "Double", "X86Fp80", "Fp128", "PpcFp128", "Void", "Label", "Metadata", "X86Mmx",
    "X86Amx", "Token", "Integer", "Function", "Pointer", "Struct", "Array", "FixedVector", "ScalableVector",
    "OpaquePointer",
];

const ROWS: [&str; 4] = ["Integer", "Vector", "Float", "Aggregate"];

/// A type: kinds, numbers and flags in the order of the text; a name as 1, its length and its bytes, or 0; `END` behind a list.
pub fn of_type(ty: &impl std::fmt::Debug) -> Vec<u64> {
    of(&format!("{ty:?}"), &KINDS)
}

/// Layout rows: the row's kind where it has one, and its numbers.
pub fn of_rows(rows: &impl std::fmt::Debug) -> Vec<u64> {
    of(&format!("{rows:?}"), &ROWS)
}

fn of(text: &str, names: &[&str]) -> Vec<u64> {
    let mut words = Vec::new();
    let mut rest = text;
    while let Some(first) = rest.chars().next() {
        let len = |ok: fn(char) -> bool| rest.find(|c| !ok(c)).unwrap_or(rest.len());
        let used = match first {
            '0'..='9' => {
                let n = len(|c| c.is_ascii_digit());
                words.push(rest[..n].parse().expect("a u64"));
                n
            }
            'a'..='z' | 'A'..='Z' => {
                let n = len(|c| c.is_ascii_alphanumeric() || c == '_');
                match &rest[..n] {
                    "None" | "false" => words.push(0),
                    "true" => words.push(1),
                    word => words.extend(names.iter().position(|name| *name == word).map(|i| i as u64)),
                }
                n
            }
            '"' => {
                let (name, n) = quoted(rest);
                words.extend([1, name.len() as u64]);
                words.extend(name.bytes().map(u64::from));
                n
            }
            _ => {
                if first == ']' {
                    words.push(END);
                }
                1
            }
        };
        rest = &rest[used..];
    }
    words
}

/// The string that a quoted text stands for, and the length of the text.
fn quoted(text: &str) -> (String, usize) {
    let mut name = String::new();
    let mut chars = text.char_indices().skip(1);
    while let Some((at, c)) = chars.next() {
        match c {
            '"' => return (name, at + 1),
            '\\' => match chars.next().expect("an escape").1 {
                'n' => name.push('\n'),
                'r' => name.push('\r'),
                't' => name.push('\t'),
                '0' => name.push('\0'),
                'u' => {
                    let digits: String = chars.by_ref().skip(1).map(|(_, c)| c).take_while(|c| *c != '}').collect();
                    name.push(u32::from_str_radix(&digits, 16).ok().and_then(char::from_u32).expect("a character"));
                }
                other => name.push(other),
            },
            other => name.push(other),
        }
    }
    panic!("a text without an end")
}

/// A polynomial over the 32-bit halves of the words, modulo 2^61 - 1: that of two lists joined follows from theirs.
pub fn hash(words: &[u64]) -> u64 {
    const PRIME: u128 = (1 << 61) - 1;
    const BASE: u128 = 0x1234_5678_9abc_def1;
    let halves = words.iter().flat_map(|w| [w >> 32, w & 0xffff_ffff]);
    halves.fold(0, |h, half| ((h as u128 * BASE + half as u128) % PRIME) as u64)
}
