//! The page: docs/BENCHMARK.md.
use super::measure::{Cell, Gap, Opening, Placing, CONFIRM, LOOP, MOST_ASKED};
use super::rounds::{Part, Rounds};
use super::split::Split;
use super::summary::summary;
use super::system::counts_running_time;
use crate::referee::correctors::{Method, METHODS};
use std::fmt::Write;
use std::time::{SystemTime, UNIX_EPOCH};

pub const NONE: &str = "–";

pub struct Peak {
    pub keys: usize,
    pub k: u8,
    pub ours: Option<u64>,
    pub rust: Option<u64>,
}

#[derive(Default)]
pub struct Results {
    pub library: &'static str,
    /// The other build's file.
    pub against: Option<String>,
    /// Whether calls were timed with counts, too.
    pub counts: bool,
    /// Whether what a batch needs was timed, too.
    pub needs: bool,
    /// Whether the same reads were timed as FASTA, too.
    pub fasta: bool,
    pub cells: Vec<Cell>,
    pub huge: Vec<Cell>,
    pub placings: Vec<Placing>,
    pub splits: Vec<Split>,
    pub openings: Vec<Opening>,
    pub gaps: Vec<Gap>,
    pub peaks: Vec<Peak>,
}

/// 1000, 100 thousand, 4 million.
pub fn short(count: usize) -> String {
    let rounded = |unit: usize| (count + unit / 2) / unit;
    match count {
        950_000.. => format!("{}M", rounded(1_000_000)),
        950.. => format!("{}k", rounded(1_000)),
        _ => count.to_string(),
    }
}

pub fn write(results: &Results, chart: &str) -> String {
    let mut page = String::new();
    let _ = writeln!(page, "# Benchmark\n");
    let _ = writeln!(page, "Made by `compare/bench` on {}, {}; {}.", date(), machine(), std::env::var("BENCH_RUSTC").unwrap_or_default());
    let _ = writeln!(
        page,
        "Beside natir/br stands {}. Both sides in one process, release builds, the same reads; every byte of every result is compared.\n",
        results.library
    );
    let _ = writeln!(page, "![nanoseconds a base]({chart})\n");
    let clock = if counts_running_time() { "and only the time counts in which the thread runs" } else { "by the clock" };
    let _ = writeln!(
        page,
        "Reads of 10,000 bases from a random genome, a third each insertions, substitutions and deletions, confirm {CONFIRM}. *Ours* is one batch call, with opening the set (7 to 10 are \
         checked at each call) and clearing both buffers. *Rust* is natir/br's `correct` read by read over its `FxHashSet`, which was filled before. A batch has 100 reads, or fewer \
         where these make the Rust ask its table over {} million times. Each round runs the Rust, ours and the opening alone, every other round in the opposite order; times are medians of the rounds, {clock}. *Ratio* is Rust's time by ours \
         in the same round, so more than 1 is faster: the median, the lowest and the highest of the rounds. *Less opening* is the same with the round's time of opening taken off ours.\n",
        MOST_ASKED / 1_000_000
    );
    if let Some(against) = &results.against {
        let _ = writeln!(
            page,
            "*Before* is the build `{against}`, which runs in the same rounds, whose order then rotates too. *Before by after* is the median of its times by the median of ours, so more than 1 \
             is faster now; in brackets the lowest and the highest of the rounds.\n"
        );
    }
    if results.counts {
        let _ = writeln!(
            page,
            "*With counts* is the same call with a count for each key, in the same rounds, whose order then rotates too; *without by with counts* is the one median by the other.\n"
        );
    }
    if results.needs {
        let _ = writeln!(
            page,
            "*Needs* is `corrector_needs` of the same batch, in the same rounds, whose order then rotates too; *real by needs* is the median of the batch call's times by the median of its, so more than 1 says \
             that the needs are told sooner.\n"
        );
    }
    if results.fasta {
        let _ = writeln!(
            page,
            "*FASTA* is `corrector_fasta` on the same reads, as records with lines of 80 letters, in the same rounds, whose order then rotates too; *batch by FASTA* is the median of the batch call's times by the \
             median of its.\n"
        );
    }
    summary(&mut page, &results.cells, &results.huge);
    let _ = writeln!(
        page,
        "In the tables *Mb* are million bases. *Loop* is as many lookups as document 01 counts, one after the other in a plain loop, at the time that one takes in a loop over {} million k-mers \
         of other reads with as many errors; opening and preparing are taken off ours. It is there to compare with, and no bound.\n",
        LOOP / 1_000_000
    );
    page += &cell_tables(results);
    split_table(&mut page, &results.splits);
    opening_table(&mut page, &results.openings);
    gap_table(&mut page, &results.gaps);
    peak_table(&mut page, &results.peaks);
    page
}

/// The cells by method, and those on huge pages.
pub fn cell_tables(results: &Results) -> String {
    let mut page = String::new();
    for method in METHODS {
        method_table(&mut page, method, &results.cells);
    }
    huge_table(&mut page, results);
    page
}

/// Three digits or more.
pub fn figure(value: f64) -> String {
    let places = match value {
        10.0.. => 1,
        1.0.. => 2,
        0.1.. => 3,
        _ => 5,
    };
    format!("{value:.places$}")
}

/// What stands beside a cell of ours, each with the parts of which it is the one's time by the other's: more than 1 says that the second is faster.
pub const BESIDE: [(&str, Part, Part); 5] = [
    ("before by after", Part::Before, Part::Ours),
    ("without by with counts", Part::Ours, Part::Counted),
    ("before by with counts", Part::Before, Part::Counted),
    ("real by needs", Part::Ours, Part::Needs),
    ("batch by FASTA", Part::Ours, Part::Fasta),
];

/// The columns of a run beside another build or with counts, those that it has.
pub fn beside(rounds: &Rounds) -> String {
    BESIDE.iter().filter_map(|(_, part, by)| rounds.by_median(*part, *by)).map(|spread| format!(" | {spread}")).collect()
}

/// The heads of those columns, and the rules below them.
pub fn beside_head<'a>(mut rounds: impl Iterator<Item = &'a Rounds>) -> (String, String) {
    let Some(rounds) = rounds.next() else { return Default::default() };
    let names = BESIDE.iter().filter(|(_, part, by)| rounds.by_median(*part, *by).is_some());
    names.map(|(name, _, _)| (format!(" | {name}"), "--:|".to_string())).unzip()
}

/// Of each of those columns the slowest cell, by the medians and by the fastest rounds, and where it is.
pub fn slowest(cells: &[Cell]) -> String {
    let mut lines = String::new();
    for (name, part, by) in BESIDE {
        let median = |cell: &Cell| cell.rounds.by_median(part, by).map(|spread| spread.median);
        let fastest = |cell: &Cell| cell.rounds.by_fastest(part, by);
        lines += &lowest(&format!("{name}, medians"), cells, median);
        lines += &lowest(&format!("{name}, fastest rounds"), cells, fastest);
    }
    lines
}

fn lowest(name: &str, cells: &[Cell], of: impl Fn(&Cell) -> Option<f64>) -> String {
    let mut all: Vec<(f64, &Cell)> = cells.iter().filter_map(|cell| of(cell).map(|ratio| (ratio, cell))).collect();
    all.sort_by(|(one, _), (other, _)| one.total_cmp(other));
    let Some((ratio, cell)) = all.first() else { return String::new() };
    let middle = all[all.len() / 2].0;
    format!(
        "{name}: lowest {ratio:.3}, of {:?} at {} keys, k = {}, {} % errors; median cell {middle:.3}\n",
        cell.method,
        short(cell.keys),
        cell.k,
        cell.errors
    )
}

/// Reads and rounds; then speeds and ratios.
fn speeds(cell: &Cell) -> String {
    let (rounds, speed) = (&cell.rounds, |seconds: f64| figure(cell.bases as f64 / seconds / 1e6));
    let ratio = rounds.ratio();
    format!(
        "{} × {} | {} | {} | {:.2} | {:.2} | {:.2} | {:.2}{}",
        cell.reads,
        rounds.count(),
        speed(rounds.ours()),
        speed(rounds.rust()),
        ratio.median,
        ratio.lowest,
        ratio.highest,
        rounds.ratio_less_opening().median,
        beside(rounds)
    )
}

fn method_table(page: &mut String, method: Method, cells: &[Cell]) {
    let cells: Vec<&Cell> = cells.iter().filter(|cell| cell.method == method).collect();
    if cells.is_empty() {
        return;
    }
    let (beside, rule) = beside_head(cells.iter().map(|cell| &cell.rounds));
    let _ = writeln!(page, "## {method:?}\n");
    let _ = writeln!(
        page,
        "| keys | k | errors | reads × rounds | ours Mb/s | Rust Mb/s | ratio | from | to | less opening{beside} | lookups a base | ours M lookups/s | loop ns/base | Rust's loop ns/base |"
    );
    let _ = writeln!(page, "|--:|--:|--:|--:|--:|--:|--:|--:|--:|--:|--:|--:|--:|--:|{rule}");
    for cell in cells {
        let a_base = |a_lookup: f64| figure(a_lookup * 1e9 * cell.lookups_a_base());
        let _ = writeln!(
            page,
            "| {} | {} | {} % | {} | {} | {:.1} | {} | {} |",
            short(cell.keys),
            cell.k,
            cell.errors,
            speeds(cell),
            figure(cell.lookups_a_base()),
            cell.lookups as f64 / cell.rounds.less_opening() / 1e6,
            a_base(cell.a_lookup.ours),
            a_base(cell.a_lookup.rust),
        );
    }
    page.push('\n');
}

fn huge_table(page: &mut String, results: &Results) {
    if results.huge.is_empty() {
        return;
    }
    let _ = writeln!(
        page,
        "## On huge pages\n\nThe same reads; the set starts on a line of memory of 64 bytes, and it and the Rust's table lie in memory that was asked for on huge pages of 2 MB. Where each lies, as the \
         system tells it:\n"
    );
    placing_table(page, &results.placings);
    let (beside, rule) = beside_head(results.huge.iter().map(|cell| &cell.rounds));
    let _ = writeln!(
        page,
        "| keys | k | method | errors | reads × rounds | ours Mb/s | Rust Mb/s | ratio | from | to | less opening{beside} | plain ours Mb/s | plain Rust Mb/s | plain ratio | plain Rust's time by ours on huge pages |"
    );
    let _ = writeln!(page, "|--:|--:|---|--:|--:|--:|--:|--:|--:|--:|--:|--:|--:|--:|--:|{rule}");
    for cell in &results.huge {
        let same = |plain: &&Cell| (plain.keys, plain.k, plain.method, plain.errors) == (cell.keys, cell.k, cell.method, cell.errors);
        let plain = results.cells.iter().find(same).map(|plain| {
            let speed = |seconds: f64| figure(plain.bases as f64 / seconds / 1e6);
            let across = plain.rounds.rust() / cell.rounds.ours();
            format!("{} | {} | {:.2} | {across:.2}", speed(plain.rounds.ours()), speed(plain.rounds.rust()), plain.rounds.ratio().median)
        });
        let plain = plain.unwrap_or(format!("{NONE} | {NONE} | {NONE} | {NONE}"));
        let _ = writeln!(page, "| {} | {} | {:?} | {} % | {} | {plain} |", short(cell.keys), cell.k, cell.method, cell.errors, speeds(cell));
    }
    page.push('\n');
}

fn placing_table(page: &mut String, placings: &[Placing]) {
    let _ = writeln!(
        page,
        "| keys | asked for | set's address mod 64 | set's mapping MB | on huge pages | Rust's mapping MB | on huge pages |\n|--:|---|--:|--:|--:|--:|--:|"
    );
    let part = |memory: Option<(u64, u64)>| {
        let text = |(all, huge): (u64, u64)| format!("{:.1} | {:.0} %", all as f64 / 1e6, huge as f64 / all as f64 * 100.0);
        memory.map_or(format!("{NONE} | {NONE}"), text)
    };
    for placing in placings {
        let asked = if placing.huge { "huge pages" } else { "nothing" };
        let _ = writeln!(page, "| {} | {asked} | {} | {} | {} |", short(placing.keys), placing.offset, part(placing.ours), part(placing.rust));
    }
    page.push('\n');
    let missed =
        |placing: &&Placing| placing.huge && [placing.ours, placing.rust].iter().any(|memory| memory.is_none_or(|(all, huge)| huge * 10 < all * 9));
    if placings.iter().any(|placing| missed(&placing)) {
        page.push_str("**The system did not grant them for all of the memory, so the following shows less than huge pages can give.**\n\n");
    }
}

fn split_table(page: &mut String, splits: &[Split]) {
    if splits.is_empty() {
        return;
    }
    let _ = writeln!(
        page,
        "## Where a call's time goes\n\nOne batch call, in ms. *Opening* is `corrector_open` alone; *starts*, the table of starts, a batch call without a line less that. What is left is \
         split by where a timer finds the call, about 2,000 times a second: *lookups* in functions of the crates `set`, `keys`, `few_keys` and `cache_line`, *ahead* in `scan::read_ahead`, which reads the lines of the next k-mers before lookups need them, \
         *the rest* elsewhere; *ns a lookup* is of *lookups* and *ahead*. A function that the compiler wrote into its caller counts as the caller's: the second table shows which are there.\n"
    );
    let _ = writeln!(
        page,
        "| keys | k | method | errors | reads | call | opening | starts | lookups | ahead | the rest | M lookups | ns a lookup | samples |"
    );
    let _ = writeln!(page, "|--:|--:|---|--:|--:|--:|--:|--:|--:|--:|--:|--:|--:|--:|");
    for split in splits {
        let milliseconds = |seconds: f64| format!("{:.1}", seconds * 1e3);
        let (lookups, ahead, rest) = split.parts();
        let parts = format!("{} | {} | {}", lookups.map_or("with the rest".to_string(), milliseconds), milliseconds(ahead), milliseconds(rest));
        let a_lookup = |seconds: f64| seconds / split.lookups as f64 * 1e9;
        let _ = writeln!(
            page,
            "| {} | {} | {:?} | {} % | {} | {} | {} | {} | {parts} | {:.2} | {:.1} | {} |",
            short(split.keys),
            split.k,
            split.method,
            split.errors,
            split.reads,
            milliseconds(split.call),
            milliseconds(split.opening),
            milliseconds(split.starts),
            split.lookups as f64 / 1e6,
            a_lookup(lookups.unwrap_or(rest) + ahead),
            split.samples
        );
    }
    page.push('\n');
    function_table(page, splits);
}

/// The functions where the timer finds a call once in a hundred times or more.
fn function_table(page: &mut String, splits: &[Split]) {
    let mut names: Vec<&String> = splits.iter().flat_map(|split| &split.functions).filter(|(_, part)| **part >= 0.01).map(|(name, _)| name).collect();
    names.sort();
    names.dedup();
    if names.is_empty() {
        return;
    }
    let heads: Vec<String> = splits.iter().map(|split| format!("{} {:?} {} %", short(split.keys), split.method, split.errors)).collect();
    let _ = writeln!(page, "By function, in % of the samples:\n\n| function | {} |\n|---|{}", heads.join(" | "), "--:|".repeat(heads.len()));
    for name in names {
        let parts: Vec<String> = splits.iter().map(|split| format!("{:.1}", split.functions.get(name).unwrap_or(&0.0) * 100.0)).collect();
        let _ = writeln!(page, "| `{name}` | {} |", parts.join(" | "));
    }
    page.push('\n');
}

fn opening_table(page: &mut String, openings: &[Opening]) {
    if openings.is_empty() {
        return;
    }
    let _ = writeln!(page, "## Opening a set\n\nAgainst reading the same bytes as words and adding them.\n");
    let _ = writeln!(page, "| keys | k | MB | open GB/s | reading GB/s | open ms |\n|--:|--:|--:|--:|--:|--:|");
    for opening in openings {
        let speed = |seconds: f64| opening.bytes as f64 / seconds / 1e9;
        let megabytes = opening.bytes as f64 / 1e6;
        let _ = writeln!(
            page,
            "| {} | {} | {megabytes:.2} | {:.2} | {:.2} | {:.3} |",
            short(opening.keys),
            opening.k,
            speed(opening.open),
            speed(opening.reading),
            opening.open * 1e3
        );
    }
    page.push('\n');
}

fn gap_table(page: &mut String, gaps: &[Gap]) {
    let _ = writeln!(
        page,
        "## GapSize's moves\n\nEach line of a batch has one attempt of so many moves, the scan before it included; the opening is taken off, from the ratio too.\n"
    );
    let _ = writeln!(page, "| moves | lines × rounds | ours ns/move | Rust ns/move | ratio | from | to |\n|--:|--:|--:|--:|--:|--:|--:|");
    for gap in gaps {
        let (rounds, per_move) = (&gap.rounds, |seconds: f64| seconds * 1e9 / (gap.moves * gap.lines) as f64);
        let ratio = rounds.ratio_less_opening();
        let _ = writeln!(
            page,
            "| {} | {} × {} | {:.1} | {:.1} | {:.2} | {:.2} | {:.2} |",
            gap.moves,
            gap.lines,
            rounds.count(),
            per_move(rounds.less_opening()),
            per_move(rounds.rust()),
            ratio.median,
            ratio.lowest,
            ratio.highest
        );
    }
    page.push('\n');
}

fn peak_table(page: &mut String, peaks: &[Peak]) {
    let _ = writeln!(page, "## Peak memory\n\nA process of its own for each side, from the set file to a batch corrected by One; MB.\n");
    let _ = writeln!(page, "| keys | k | ours | Rust |\n|--:|--:|--:|--:|");
    let megabytes = |bytes: Option<u64>| bytes.map_or(NONE.to_string(), |bytes| format!("{:.1}", bytes as f64 / 1e6));
    for peak in peaks {
        let _ = writeln!(page, "| {} | {} | {} | {} |", short(peak.keys), peak.k, megabytes(peak.ours), megabytes(peak.rust));
    }
}

fn machine() -> String {
    let field = |file: &str, name: &str| {
        let text = std::fs::read_to_string(file).unwrap_or_default();
        text.lines().find(|line| line.starts_with(name)).and_then(|line| line.split(':').nth(1)).map(|value| value.trim().to_string())
    };
    let cores = std::thread::available_parallelism().map_or(1, |count| count.get());
    let processor = field("/proc/cpuinfo", "model name").unwrap_or_default();
    let memory = field("/proc/meminfo", "MemTotal").and_then(|value| value.strip_suffix(" kB")?.parse::<u64>().ok()).unwrap_or(0);
    format!("{cores} cores of {processor}, {} GB", (memory + 524_288) / 1_048_576)
}

/// The day, from the days since 1970.
fn date() -> String {
    let days = SystemTime::now().duration_since(UNIX_EPOCH).map_or(0, |time| time.as_secs() / 86_400);
    let (mut year, mut left) = (1970, days);
    let leap = |year: u64| year % 4 == 0 && (year % 100 != 0 || year % 400 == 0);
    while left >= 365 + leap(year) as u64 {
        left -= 365 + leap(year) as u64;
        year += 1;
    }
    let lengths = [31, 28 + leap(year) as u64, 31, 30, 31, 30, 31, 31, 30, 31, 30, 31];
    let mut month = 0;
    while left >= lengths[month] {
        left -= lengths[month];
        month += 1;
    }
    format!("{year}-{:02}-{:02}", month + 1, left + 1)
}
