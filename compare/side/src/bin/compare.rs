//! The differential run: `compare/run` (compare/README.md).
use side::bridge::{self, Bridges};
use side::cases::{run, units, Kind, Unit};
use side::check::{Buffers, Site, Tally};
use side::edits::{self, Judged};
use side::library::{library, Library};
use side::list;
use side::make::{self, Made};
use side::referee::calls::Job;
use side::samples;
use side::shrink::{check, Failure};
use side::split::{self, Splits};
use std::process::ExitCode;
use std::sync::atomic::{AtomicUsize, Ordering::Relaxed};
use std::sync::Mutex;
use std::time::{Duration, Instant, SystemTime, UNIX_EPOCH};

const USAGE: &str = "compare/run [--seed N] [--rounds N] [--threads N] [--only KIND] [--stand-in]   compare, and print N passed, M failed
compare/run --list FILE [--seed N]    write the fixed list of cases
compare/run --replay FILE             replay such a list";

/// Enough to see what is wrong.
const MOST_FAILURES: u64 = 1000;

/// Room for what the corrector keeps in local arrays.
const STACK: usize = 64 << 20;

struct Options {
    seed: u64,
    rounds: u64,
    threads: usize,
    only: Option<String>,
    list: Option<String>,
    replay: Option<String>,
}

fn options() -> Result<Options, String> {
    let clock = SystemTime::now().duration_since(UNIX_EPOCH).map_or(0, |time| time.as_secs());
    let threads = std::thread::available_parallelism().map_or(1, |count| count.get());
    let mut options = Options { seed: clock, rounds: 1, threads, only: None, list: None, replay: None };
    let mut seeded = false;
    let mut arguments = std::env::args().skip(1);
    while let Some(argument) = arguments.next() {
        let mut value = || arguments.next().ok_or(format!("{argument} needs a value\n{USAGE}"));
        let number = |text: String| text.parse::<u64>().map_err(|_| format!("no number: {text}"));
        match argument.as_str() {
            "--seed" => (options.seed, seeded) = (number(value()?)?, true),
            "--rounds" => options.rounds = number(value()?)?,
            "--threads" => options.threads = number(value()?)?.max(1) as usize,
            "--only" => options.only = Some(value()?),
            "--list" => options.list = Some(value()?),
            "--replay" => options.replay = Some(value()?),
            // Chosen when this was built.
            "--stand-in" => {}
            _ => return Err(USAGE.to_string()),
        }
    }
    if options.list.is_some() && !seeded {
        options.seed = list::SEED;
    }
    Ok(options)
}

/// What all threads have found.
#[derive(Default)]
struct Found {
    tally: Tally,
    failed: u64,
    failure: Option<(Kind, u64, Failure)>,
}

fn main() -> ExitCode {
    let options = match options() {
        Ok(options) => options,
        Err(message) => {
            eprintln!("{message}");
            return ExitCode::from(2);
        }
    };
    let result = match (&options.list, &options.replay) {
        (Some(file), _) => list::write(file, options.seed).map(|()| true),
        (_, Some(file)) => list::replay(file, library()),
        _ => Ok(compare(&options, library())),
    };
    match result {
        Ok(true) => ExitCode::SUCCESS,
        Ok(false) => ExitCode::FAILURE,
        Err(message) => {
            eprintln!("compare: {message}");
            ExitCode::from(2)
        }
    }
}

fn compare(options: &Options, library: &dyn Library) -> bool {
    println!("natir/br and the referee beside {}, seed {}", library.name(), options.seed);
    let mut units = units(options.rounds);
    if let Some(only) = &options.only {
        units.retain(|unit| format!("{:?}", unit.kind).eq_ignore_ascii_case(only));
    }
    // A panic is a disagreement, printed with its input.
    std::panic::set_hook(Box::new(|_| ()));
    let wrong = samples::wrong(library);
    wrong.iter().for_each(|sample| println!("sample: {sample}"));
    let found = Mutex::new(Found { failed: wrong.len() as u64, ..Found::default() });
    let (next, begun) = (AtomicUsize::new(0), Instant::now());
    std::thread::scope(|scope| {
        let worker = || work(options, library, &units, &next, &found);
        let spawn = |_| std::thread::Builder::new().stack_size(STACK).spawn_scoped(scope, worker).expect("a thread");
        let workers: Vec<_> = (0..options.threads).map(spawn).collect();
        let mut said = Instant::now();
        while workers.iter().any(|worker| !worker.is_finished()) {
            std::thread::sleep(Duration::from_millis(50));
            if said.elapsed() > Duration::from_secs(5) {
                said = Instant::now();
                let found = found.lock().expect("no thread panics");
                let done = next.load(Relaxed).min(units.len());
                eprintln!("{:4} s, {done} of {} units, {} passes", begun.elapsed().as_secs(), units.len(), found.tally.passes);
            }
        }
    });
    let asked = |kind: &str| options.only.as_ref().is_none_or(|only| only.eq_ignore_ascii_case(kind));
    let mut made = Made::default();
    if asked("make") {
        make::run_sets(library, options.seed, options.rounds, &mut made);
    }
    if asked("index") {
        make::run_indexes(library, options.seed, options.rounds, &mut made);
    }
    let mut judged = Judged::default();
    if asked("edits") {
        edits::run(library, options.seed, options.rounds, &mut judged);
    }
    let mut bridges = Bridges::default();
    if asked("bridge") {
        bridge::run(library, options.seed, options.rounds, &mut bridges);
    }
    let mut splits = Splits::default();
    if asked("split") {
        split::run(library, options.seed, options.rounds, &mut splits);
    }
    let _ = std::panic::take_hook();
    report(options, library, found.into_inner().expect("no thread panics"), made, judged, bridges, splits, begun.elapsed())
}

/// Takes units until none is left.
fn work(options: &Options, library: &dyn Library, units: &[Unit], next: &AtomicUsize, found: &Mutex<Found>) {
    let mut buffers = Buffers::default();
    while let Some(unit) = units.get(next.fetch_add(1, Relaxed)) {
        let mut tally = Tally::default();
        let (mut failed, mut smallest): (u64, Option<Failure>) = (0, None);
        run(unit, options.seed, &mut |site: &Site, job: Option<&Job>| match check(library, site, job, &mut buffers) {
            Ok(agreed) => tally.add(&agreed),
            Err(disagreement) => {
                failed += 1;
                let failure = Failure { site: Site::new(site.bytes.clone()), job: job.cloned(), disagreement };
                if smallest.as_ref().is_none_or(|known| failure.size() < known.size()) {
                    smallest = Some(failure);
                }
            }
        });
        let mut found = found.lock().expect("no thread panics");
        found.tally.add(&tally);
        found.failed += failed;
        if let Some(failure) = smallest {
            if found.failure.as_ref().is_none_or(|(_, _, known)| failure.size() < known.size()) {
                found.failure = Some((unit.kind, unit.number, failure));
            }
        }
        if found.failed >= MOST_FAILURES {
            next.store(units.len(), Relaxed);
        }
    }
}

/// What was seen, the smallest disagreement, and the last line.
fn report(
    options: &Options,
    library: &dyn Library,
    found: Found,
    made: Made,
    judged: Judged,
    bridges: Bridges,
    splits: Splits,
    took: Duration,
) -> bool {
    let tally = &found.tally;
    println!("{:.0} s on {} threads", took.as_secs_f64(), options.threads);
    tally.print();
    made.print();
    judged.print();
    bridges.print();
    splits.print();
    if let Some((kind, number, failure)) = found.failure {
        println!("smallest disagreement found (seed {}, {kind:?} {number}):", options.seed);
        failure.shrink(library).print();
    }
    let failed = found.failed + made.failed + judged.failed + bridges.failed + splits.failed;
    println!("{} passed, {failed} failed", tally.agreed() + made.agreed + judged.agreed + bridges.agreed + splits.agreed);
    failed == 0
}
