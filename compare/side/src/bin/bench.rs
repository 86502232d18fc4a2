//! The benchmark: `compare/bench` (compare/README.md).
use side::bench::against::{Against, Offers};
use side::bench::inputs::World;
use side::bench::measure::{cell, gap, loops, opening, placing, Beside, Cell};
use side::bench::page::{Peak, Results};
use side::bench::rounds::ask_rounds;
use side::bench::split::{split, Split};
use side::bench::system::{count_running_time, Allocator};
use side::bench::{aligned, chart, index, make, memory, page};
use side::cases::batch_of;
use side::library::{library, Library};
use side::referee::correctors::{Method, METHODS};
use side::rng::Rng;
use std::path::Path;
use std::process::ExitCode;

#[global_allocator]
static ALLOCATOR: Allocator = Allocator;

const USAGE: &str =
    "compare/bench [--make] [--aligned] [--index] [--quick] [--stand-in] [--against LIBRARY [--against-offers nothing|index|counts]] [--counts] [--needs] [--fasta] [--out FOLDER] [--keys N,..] [--k K,..] [--method NAME,..] [--errors N,..] [--huge] [--split] [--running-time] [--rounds N]";
const KEYS: [usize; 4] = [1_000, 100_000, 4_000_000, 16_000_000];
/// How many of these --quick takes.
const QUICK: usize = 2;
const K: [u8; 3] = [15, 21, 31];
const ERRORS: [usize; 3] = [1, 5, 12];
/// The k of the chart, and of what is measured beside the plain cells.
const ONE_K: u8 = 21;
/// Sets from this size on are measured on huge pages too, and their calls looked into.
const MANY_KEYS: usize = 4_000_000;
const SPLIT_METHODS: [Method; 2] = [Method::One, Method::Graph];
const SPLIT_ERRORS: [usize; 2] = [1, 12];
const GAP_KEYS: usize = 400_000;
const GAP_MOVES: [usize; 3] = [1_000, 10_000, 100_000];

fn main() -> ExitCode {
    let arguments: Vec<String> = std::env::args().skip(1).collect();
    let outcome = match arguments.iter().map(String::as_str).collect::<Vec<_>>()[..] {
        ["--memory", side, set, batch] => memory::run(side, set, batch),
        _ => bench(&arguments),
    };
    match outcome {
        Ok(()) => ExitCode::SUCCESS,
        Err(message) => {
            eprintln!("bench: {message}");
            ExitCode::from(2)
        }
    }
}

/// What to measure, and the folder of the page; where only a part is measured, or another build too, no page is written unless a folder is named.
#[derive(Default)]
struct Options {
    keys: Vec<usize>,
    k: Vec<u8>,
    methods: Vec<Method>,
    errors: Vec<usize>,
    huge: bool,
    split: bool,
    make: bool,
    aligned: bool,
    index: bool,
    against: Option<String>,
    against_offers: Option<Offers>,
    counts: bool,
    needs: bool,
    fasta: bool,
    folder: Option<String>,
}

impl Options {
    /// What is not chosen is measured in full.
    fn complete(mut self, quick: bool) -> Self {
        fn or_all<T: Clone>(chosen: &mut Vec<T>, all: &[T]) -> bool {
            let whole = chosen.is_empty();
            if whole {
                *chosen = all.to_vec();
            }
            whole
        }
        let sizes: &[usize] = match (self.aligned, self.index, quick) {
            (true, _, _) => &aligned::KEYS,
            (_, true, _) => &index::KEYS,
            (_, _, true) => &KEYS[..QUICK],
            _ => &KEYS,
        };
        let whole = [
            or_all(&mut self.keys, sizes),
            or_all(&mut self.k, &K),
            or_all(&mut self.methods, &METHODS),
            or_all(&mut self.errors, &ERRORS),
            !self.huge,
            !self.split,
            self.against.is_none(),
            !self.counts,
            !self.needs,
            !self.fasta,
        ];
        if self.folder.is_none() && whole == [true; 10] {
            self.folder = Some(if cfg!(feature = "linked") { "docs" } else { "target/compare" }.to_string());
        }
        self
    }

    /// Whether a world is measured on huge pages and its calls are looked into: for the page, or because it is asked for.
    fn beside(&self, world: &World, asked: bool) -> bool {
        asked || self.folder.is_some() && world.k == ONE_K && world.keys >= MANY_KEYS * 9 / 10
    }
}

fn options(arguments: &[String]) -> Result<Options, String> {
    let (mut options, mut quick) = (Options::default(), false);
    let mut arguments = arguments.iter();
    while let Some(argument) = arguments.next() {
        let mut value = || arguments.next().ok_or(USAGE);
        match argument.as_str() {
            "--quick" => quick = true,
            "--keys" => options.keys.extend(list(value()?, number)?),
            "--k" => options.k.extend(list(value()?, |k| number(k).map(|k| k as u8))?),
            "--method" => options.methods.extend(list(value()?, method)?),
            "--errors" => options.errors.extend(list(value()?, number)?),
            "--huge" => options.huge = true,
            "--split" => options.split = true,
            "--make" => options.make = true,
            "--aligned" => options.aligned = true,
            "--index" => options.index = true,
            "--against" => options.against = Some(value()?.clone()),
            "--against-offers" => options.against_offers = Some(offers(value()?)?),
            "--counts" => options.counts = true,
            "--needs" => options.needs = true,
            "--fasta" => options.fasta = true,
            "--running-time" => count_running_time(),
            "--rounds" => ask_rounds(number(value()?)?),
            "--out" => options.folder = Some(value()?.clone()),
            // Chosen when this was built.
            "--stand-in" => {}
            _ => return Err(USAGE.to_string()),
        }
    }
    Ok(options.complete(quick))
}

/// Values with commas between them.
fn list<T>(text: &str, value: impl Fn(&str) -> Result<T, String>) -> Result<Vec<T>, String> {
    text.split(',').map(value).collect()
}

/// 1000, 100k, 4M.
fn number(text: &str) -> Result<usize, String> {
    let (digits, unit) = match text.as_bytes() {
        [.., b'k'] => (&text[..text.len() - 1], 1_000),
        [.., b'M'] => (&text[..text.len() - 1], 1_000_000),
        _ => (text, 1),
    };
    digits.parse::<usize>().ok().and_then(|count| count.checked_mul(unit)).ok_or(format!("no number: {text}"))
}

fn method(name: &str) -> Result<Method, String> {
    let named = |method: &Method| format!("{method:?}").eq_ignore_ascii_case(name);
    METHODS.into_iter().find(named).ok_or(format!("no method: {name}"))
}

fn offers(name: &str) -> Result<Offers, String> {
    let named = |offers: &Offers| format!("{offers:?}").eq_ignore_ascii_case(name);
    Offers::ALL.into_iter().find(named).ok_or(format!("{name}: a call takes nothing, index or counts"))
}

fn bench(arguments: &[String]) -> Result<(), String> {
    let options = options(arguments)?;
    if options.make {
        make::measure_all(library());
        return Ok(());
    }
    if options.index {
        print!("{}", index::section(&index::measure_all(library(), &options.keys)));
        return Ok(());
    }
    let offers = options.against_offers.unwrap_or(Offers::Counts);
    let against = options.against.as_deref().map(|library| Against::load(library, offers)).transpose()?;
    let against = against.as_ref();
    if options.aligned {
        print!("{}", aligned::section(&aligned::measure_all(library(), against, &options.keys)));
        return Ok(());
    }
    let results = measure_all(&options, Beside { against, counts: options.counts, needs: options.needs, fasta: options.fasta });
    let Some(folder) = &options.folder else {
        print!("{}{}", page::cell_tables(&results), page::slowest(&results.cells));
        return Ok(());
    };
    let (chart, folder) = ("benchmark.svg", Path::new(folder));
    let write = |file: &str, text: String| std::fs::write(folder.join(file), text).map_err(|error| format!("{file}: {error}"));
    let k = if options.k.contains(&ONE_K) { ONE_K } else { options.k[0] };
    write(chart, chart::draw(&results.cells, k, &options.keys, &options.errors))?;
    let made = make::section(&make::measure_all(library()));
    write("BENCHMARK.md", page::write(&results, chart) + &with_millions(&options, against) + &made)?;
    println!("{}", folder.join("BENCHMARK.md").display());
    Ok(())
}

/// The page's sections on aligned sets and on indexes, if it has sets of millions of keys.
fn with_millions(options: &Options, against: Option<&Against>) -> String {
    if options.keys.iter().all(|n| *n < MANY_KEYS) {
        return String::new();
    }
    let aligned = aligned::section(&aligned::measure_all(library(), against, &aligned::KEYS));
    aligned + &index::section(&index::measure_all(library(), &index::KEYS))
}

fn measure_all(options: &Options, beside: Beside) -> Results {
    let library = library();
    let (against, counts, needs, fasta) = (options.against.clone(), options.counts, options.needs, options.fasta);
    let mut results = Results { library: library.name(), against, counts, needs, fasta, ..Results::default() };
    for n in &options.keys {
        for k in &options.k {
            let rng = &mut Rng::of_unit(*k as u64, *n as u64);
            let world = World::new(rng, *k, *n);
            measure(library, beside, options, &world, &mut results);
            if options.folder.is_some() {
                results.peaks.push(peak(&world, rng));
            }
        }
    }
    if options.folder.is_some() {
        let world = World::new(&mut Rng::of_unit(0, 0), ONE_K, GAP_KEYS);
        results.gaps = GAP_MOVES.iter().map(|moves| gap(library, &world, *moves)).collect();
    }
    results
}

fn measure(library: &dyn Library, beside: Beside, options: &Options, world: &World, results: &mut Results) {
    let opened = opening(library, world);
    eprintln!("{} keys, k = {}, opened in {:.3} ms", world.keys, world.k, opened.open * 1e3);
    results.openings.push(opened);
    results.cells.extend(cells(library, beside, options, world));
    if options.beside(world, options.split) {
        for method in options.methods.iter().filter(|method| options.split || SPLIT_METHODS.contains(method)) {
            for errors in options.errors.iter().filter(|errors| options.split || SPLIT_ERRORS.contains(errors)) {
                let split = split(library, world, *method, *errors);
                say_split(&split);
                results.splits.push(split);
            }
        }
    }
    if options.beside(world, options.huge) {
        let huge = world.on_huge_pages();
        eprintln!("on huge pages:");
        results.placings.extend([placing(world), placing(&huge)]);
        results.huge.extend(cells(library, beside, options, &huge));
    }
}

/// Every method at every rate of errors.
fn cells(library: &dyn Library, beside: Beside, options: &Options, world: &World) -> Vec<Cell> {
    let loops: Vec<_> = options.errors.iter().map(|errors| loops(library, world, *errors)).collect();
    let mut cells = Vec::new();
    for method in &options.methods {
        for (errors, a_lookup) in options.errors.iter().zip(&loops) {
            let cell = cell(library, beside, world, *method, *errors, *a_lookup);
            say(&cell);
            cells.push(cell);
        }
    }
    cells
}

fn say(cell: &Cell) {
    let rounds = &cell.rounds;
    let told = page::BESIDE.iter().filter_map(|(name, part, by)| {
        let (spread, fastest) = (rounds.by_median(*part, *by)?, rounds.by_fastest(*part, *by)?);
        Some(format!(", {name} {spread}, by the fastest {fastest:.3}"))
    });
    let beside: String = told.collect();
    eprintln!(
        "  {:?}, {} %: {:.1} ns a base ({:.1} less opening), the Rust {:.1}, ratio {}{beside}; {:.2} lookups a base, {} reads, {} rounds",
        cell.method,
        cell.errors,
        cell.nanoseconds(rounds.ours()),
        cell.nanoseconds(rounds.less_opening()),
        cell.nanoseconds(rounds.rust()),
        rounds.ratio(),
        cell.lookups_a_base(),
        cell.reads,
        rounds.count()
    );
}

fn say_split(split: &Split) {
    let (milliseconds, (lookups, ahead, rest)) = (|seconds: f64| seconds * 1e3, split.parts());
    eprintln!(
        "  {:?}, {} %: call {:.1} ms, opening {:.1}, starts {:.1}, lookups {}, ahead {:.1}, the rest {:.1}",
        split.method,
        split.errors,
        milliseconds(split.call),
        milliseconds(split.opening),
        milliseconds(split.starts),
        lookups.map_or("with the rest".to_string(), |seconds| format!("{:.1}", milliseconds(seconds))),
        milliseconds(ahead),
        milliseconds(rest)
    );
}

/// The set and a batch in files, for a process of each side.
fn peak(world: &World, rng: &mut Rng) -> Peak {
    let folder = std::env::temp_dir().join(format!("compare-bench-{}", std::process::id()));
    let (set, batch) = (folder.join("set"), folder.join("batch"));
    let reads: Vec<Vec<u8>> = (0..50).map(|_| world.read(rng, 5)).collect();
    let written =
        std::fs::create_dir_all(&folder).and_then(|()| std::fs::write(&set, &world.set)).and_then(|()| std::fs::write(&batch, batch_of(&reads)));
    let of = |side: &str| written.as_ref().ok().and_then(|()| memory::peak(side, &set, &batch));
    let peak = Peak { keys: world.keys, k: world.k, ours: of("ours"), rust: of("rust") };
    let _ = std::fs::remove_dir_all(&folder);
    peak
}
