//! Runs every input and prints the tables.

use std::hint::black_box;

use crate::inputs::{self, Series, SERIES, SIZES};
use crate::measure::least;
use crate::{original, ours};

/// More types than these the original is not asked to build.
const MOST_BUILT: u128 = 20_000_000;
const TABLES_GOAL: f64 = 1.0 / 3.0;
const LAYOUTS_GOAL: f64 = 1.0;

struct Row {
    entries: usize,
    words: usize,
    built: u128,
    original: Option<f64>,
    ours: f64,
}

impl Row {
    fn ratio(&self) -> Option<f64> {
        self.original.map(|original| self.ours / original)
    }
}

/// Both have to agree before anything is timed. The original gets no table that it would build too much for.
fn table(name: &str, words: &[u64]) -> Row {
    let mut lent = ours::Table::fitting(words);
    let entries = lent.read(words).unwrap_or_else(|| panic!("{name}: refused"));
    let built = lent.built(entries);
    let mut read = || drop(black_box(lent.read(black_box(words))));
    if built > MOST_BUILT {
        let [ours] = least([&mut read]);
        return Row { entries, words: words.len(), built, original: None, ours };
    }
    let block = original::laid_out(words);
    let counted = original::read_table(&block).ok().map(|types| original::entries(&types));
    assert_eq!(Some(entries), counted, "{name}: the answers differ");
    let mut build = || drop(black_box(original::read_table(black_box(&block))));
    let [original, ours] = least([&mut build, &mut read]);
    Row { entries, words: words.len(), built, original: Some(original), ours }
}

fn number(n: f64) -> String {
    let digits = format!("{n:.0}");
    let mut text = String::new();
    for (i, c) in digits.chars().enumerate() {
        if i > 0 && (digits.len() - i) % 3 == 0 {
            text.push(',');
        }
        text.push(c);
    }
    text
}

fn ratio(r: f64) -> String {
    if r < 0.01 {
        return format!("{r:.5}");
    }
    format!("{r:.2}")
}

fn built(n: u128) -> String {
    if n == u128::MAX {
        return "over 10^38".into();
    }
    if n > MOST_BUILT {
        return format!("some 10^{}", n.ilog10());
    }
    number(n as f64)
}

fn heading(title: &str) {
    println!("### {title}\n");
    println!("| Table | Entries | Words | Types that the original builds | Original, ns | Ours, ns | Ours / original | Ours, ns a word |");
    println!("|---|--:|--:|--:|--:|--:|--:|--:|");
}

fn line(name: &str, words: &[u64]) -> Row {
    let row = table(name, words);
    println!(
        "| {name} | {} | {} | {} | {} | {} | {} | {:.1} |",
        number(row.entries as f64),
        number(row.words as f64),
        built(row.built),
        row.original.map_or("-".into(), number),
        number(row.ours),
        row.ratio().map_or("-".into(), ratio),
        row.ours / row.words as f64,
    );
    row
}

fn words_of(path: &str) -> Vec<u64> {
    let bytes = std::fs::read(path).expect(path);
    bytes.chunks_exact(8).map(|b| u64::from_le_bytes(b.try_into().expect("eight bytes"))).collect()
}

fn stem(path: &str) -> &str {
    path.rsplit('/').next().unwrap_or(path).trim_end_matches(".words")
}

/// What the same table costs in more room than it needs: the rest of every lent buffer is cleared.
fn rooms() {
    println!("### Lent room\n");
    println!("| Room for | Words lent | Ours, ns |");
    println!("|---|--:|--:|");
    let words = inputs::by_name("mixed, backward/64").expect("a table");
    for entries in [64, 1024, 4096] {
        let mut lent = ours::Table::with(entries, 8 * entries);
        assert_eq!(lent.read(&words), Some(64));
        let [ours] = least([&mut || drop(black_box(lent.read(black_box(&words))))]);
        println!("| {} entries | {} | {} |", number(entries as f64), number(18.0 * entries as f64), number(ours));
    }
    println!();
}

struct Parsed {
    string: String,
    original: f64,
    ours: f64,
}

impl Parsed {
    fn ratio(&self) -> f64 {
        self.ours / self.original
    }
}

/// The times of a string that both take; nothing of one that both refuse.
fn layout(string: &str) -> Option<Parsed> {
    let mut lent = ours::Layout::new();
    let taken = lent.read(string);
    assert_eq!(taken, original::read_layout(string).is_some(), "{string}: the answers differ");
    if !taken {
        return None;
    }
    let mut parse = || drop(black_box(original::read_layout(black_box(string))));
    let mut read = || drop(black_box(lent.read(black_box(string))));
    let [original, ours] = least([&mut parse, &mut read]);
    Some(Parsed { string: string.to_string(), original, ours })
}

fn layout_line(name: &str, bytes: usize, original: f64, ours: f64) {
    println!("| {name} | {} | {} | {} | {} |", number(bytes as f64), number(original), number(ours), ratio(ours / original));
}

fn layouts(real: &[String]) -> Vec<Parsed> {
    println!("### Layout strings\n");
    println!("| String | Bytes | Original, ns | Ours, ns | Ours / original |");
    println!("|---|--:|--:|--:|--:|");
    let mut all = Vec::new();
    for (name, string) in [("`e`", "e".to_string()), ("64 type rows", inputs::many_rows())] {
        let row = layout(&string).expect("a string that both take");
        layout_line(name, string.len(), row.original, row.ours);
        all.push(row);
    }
    let mut rows: Vec<Parsed> = real.iter().filter_map(|s| layout(s)).collect();
    rows.sort_by(|a, b| a.ratio().total_cmp(&b.ratio()));
    if let (Some(lowest), Some(middle), Some(highest)) = (rows.first(), rows.get(rows.len() / 2), rows.last()) {
        for (what, row) in [("lowest", lowest), ("middle", middle), ("highest", highest)] {
            layout_line(&format!("real, {what} ratio: `{}`", row.string), row.string.len(), row.original, row.ours);
        }
        let sum = |of: &dyn Fn(&Parsed) -> f64| rows.iter().map(of).sum::<f64>();
        let bytes = rows.iter().map(|r| r.string.len()).sum();
        layout_line(&format!("all {} real ones together", rows.len()), bytes, sum(&|r| r.original), sum(&|r| r.ours));
    }
    println!();
    all.extend(rows);
    all
}

fn goal(what: &str, most: f64, ratios: &[f64]) {
    let above = ratios.iter().filter(|r| **r > most).count();
    let highest = ratios.iter().fold(0.0, |a: f64, b| a.max(*b));
    println!("- {what}, at most {}: {above} of {} are above; the highest is {}.", ratio(most), ratios.len(), ratio(highest));
}

/// Calls of one side on one input and nothing else, for a count of instructions: SIDE (`ours` or `original`), CALLS, then a file with
/// a stream, a layout string behind `layout=`, or NAME/ENTRIES of a generated table.
fn calls(args: &[String]) {
    let [side, count, what] = args else { panic!("--calls SIDE CALLS INPUT") };
    let count: u32 = count.parse().expect("a number of calls");
    if let Some(string) = what.strip_prefix("layout=") {
        let mut lent = ours::Layout::new();
        for _ in 0..count {
            match side.as_str() {
                "original" => drop(black_box(original::read_layout(black_box(string)))),
                _ => drop(black_box(lent.read(black_box(string)))),
            }
        }
        return;
    }
    let words = if what.ends_with(".words") { words_of(what) } else { inputs::by_name(what).expect(what) };
    let mut lent = ours::Table::fitting(&words);
    let block = original::laid_out(&words);
    for _ in 0..count {
        match side.as_str() {
            "original" => drop(black_box(original::read_table(black_box(&block)))),
            _ => drop(black_box(lent.read(black_box(&words)))),
        }
    }
}

/// Arguments: files with streams (`.words`), and lists of layout strings, one to a line.
pub fn run() {
    log::set_max_level(log::LevelFilter::Off);
    let files: Vec<String> = std::env::args().skip(1).collect();
    if files.first().map_or(false, |f| f == "--calls") {
        return calls(&files[1..]);
    }
    let (streams, lists): (Vec<_>, Vec<_>) = files.into_iter().partition(|f| f.ends_with(".words"));

    let mut tables = Vec::new();
    heading("Real tables");
    for path in &streams {
        tables.push(line(stem(path), &words_of(path)));
    }
    println!();

    let mut growth = Vec::new();
    heading("Generated tables");
    for Series { name, make } in SERIES {
        let rows: Vec<Row> = SIZES.iter().map(|entries| line(name, &make(*entries))).collect();
        growth.push((name, rows.iter().map(|r| format!("{:.1}", r.ours / r.words as f64)).collect::<Vec<_>>()));
        tables.extend(rows);
    }
    println!();

    println!("### Growth: ours, ns a word\n");
    println!("| Table | {} |", SIZES.map(|n| format!("{} entries", number(n as f64))).join(" | "));
    println!("|---|{}", "--:|".repeat(SIZES.len()));
    for (name, each) in &growth {
        println!("| {name} | {} |", each.join(" | "));
    }
    println!();

    rooms();
    let text: Vec<String> = lists.iter().map(|f| std::fs::read_to_string(f).expect(f)).collect();
    let real: Vec<String> = text.iter().flat_map(|t| t.lines()).map(String::from).collect();
    let strings = layouts(&real);

    println!("### Ratios against the goals\n");
    goal("Tables", TABLES_GOAL, &tables.iter().filter_map(Row::ratio).collect::<Vec<_>>());
    goal("Layout strings", LAYOUTS_GOAL, &strings.iter().map(Parsed::ratio).collect::<Vec<_>>());
}
