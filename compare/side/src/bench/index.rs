//! An index beside the set: a short read and a long batch without it and with it, and making it.
use super::inputs::World;
use super::measure::{open, Batch};
use super::memory;
use super::page::{figure, short};
use super::rounds::{timed, Part, Rounds, Spread};
use crate::library::{call_name, Library};
use crate::referee::calls::Call;
use crate::referee::correctors::Method;
use crate::referee::set;
use crate::rng::Rng;
use std::fmt::Write;

pub const KEYS: [usize; 3] = [1_000_000, 4_000_000, 16_000_000];
const K: u8 = 21;
const METHOD: Method = Method::One;
const ERRORS: usize = 1;
/// Bases of the short read.
const SHORT: usize = 1_000;
/// Bytes that a key takes, on all sides together, while a world is made.
const A_KEY: u64 = 100;

/// A read or a batch, without index and with it.
struct Calls {
    call: Call,
    bases: usize,
    rounds: Rounds,
}

pub struct Index {
    keys: usize,
    set_bytes: usize,
    calls: [Calls; 2],
    /// Opening, and making the index, which opens the set first.
    making: Rounds,
}

impl Index {
    /// Billion bytes of the set a second.
    fn speed(&self, seconds: f64) -> f64 {
        self.set_bytes as f64 / seconds / 1e9
    }
}

/// The index of a world's set: what the library makes must be the referee's, byte for byte.
fn index_of(library: &dyn Library, world: &World) -> Vec<u8> {
    let opened = set::open(&world.set).expect("a right set");
    let mut blocks = vec![1; opened.index().len()];
    assert_eq!(library.make_index(&world.set, &mut blocks), Ok(blocks.len() as u64));
    assert!(blocks == opened.index(), "another index than the referee's");
    blocks
}

fn calls(library: &dyn Library, world: &World, index: &[u8], call: Call) -> Calls {
    let mut batch = match call {
        Call::Read => Batch::of_read(library, world, METHOD, ERRORS, SHORT),
        Call::Batch | Call::Needs | Call::Fasta => Batch::of_cell(library, world, METHOD, ERRORS),
    };
    let parts = [Part::Ours, Part::Rust, Part::Indexed, Part::Opening];
    let rounds = Rounds::run(&parts, |part| match part {
        Part::Rust => batch.rust(),
        Part::Indexed => batch.ours_with(index),
        Part::Opening => open(library, world),
        _ => batch.ours(),
    });
    Calls { call, bases: batch.bases(), rounds }
}

fn making(library: &dyn Library, world: &World, length: usize) -> Rounds {
    let mut blocks = vec![1; length];
    Rounds::run(&[Part::Ours, Part::Opening], |part| match part {
        Part::Opening => open(library, world),
        _ => timed(|| library.make_index(&world.set, &mut blocks)).1,
    })
}

/// Sets of these sizes, where memory allows.
pub fn measure_all(library: &dyn Library, keys: &[usize]) -> Vec<Index> {
    let mut all = Vec::new();
    for n in keys {
        if memory::available().is_some_and(|bytes| bytes < A_KEY * *n as u64) {
            eprintln!("{n} keys: too little memory");
            continue;
        }
        let world = World::new(&mut Rng::of_unit(K as u64, *n as u64), K, *n);
        let index = index_of(library, &world);
        let calls = [Call::Read, Call::Batch].map(|call| calls(library, &world, &index, call));
        let measured = Index { keys: world.keys, set_bytes: world.set.len(), calls, making: making(library, &world, index.len()) };
        measured.calls.iter().for_each(|calls| eprintln!("{}", call_row(&measured, calls)));
        eprintln!("{}", making_row(&measured));
        all.push(measured);
    }
    all
}

/// The page's section.
pub fn section(all: &[Index]) -> String {
    let mut page = String::new();
    let _ = writeln!(
        page,
        "\n## An index beside the set\n\n{METHOD:?}, {ERRORS} % errors, k = {K}: a read of {SHORT} bases and a batch of about a million, in the same rounds without index and with it; times in ms, medians of \
         the rounds. Every call opens the set, which *opening* times alone; with an index it checks that too. *Without by with* is the one median by the other, so more than 1 says that the index helps; in brackets the lowest and the \
         highest of the rounds. The ratios are the Rust's time by ours in the same round.\n"
    );
    let _ = writeln!(
        page,
        "| keys | call | bases × rounds | opening | without | with | without by with | Rust | ratio without | ratio with |\n|--:|---|--:|--:|--:|--:|--:|--:|--:|--:|"
    );
    for index in all {
        index.calls.iter().for_each(|calls| page += &(call_row(index, calls) + "\n"));
    }
    let _ = writeln!(
        page,
        "\nMaking an index opens the set and walks over its keys: GB of the set a second, of opening, of the whole call, and of what it does behind opening.\n\n| keys | set MB | opening GB/s | making GB/s | \
         behind opening GB/s | making ms |\n|--:|--:|--:|--:|--:|--:|"
    );
    all.iter().for_each(|index| page += &(making_row(index) + "\n"));
    page
}

fn call_row(index: &Index, calls: &Calls) -> String {
    let (rounds, milliseconds) = (&calls.rounds, |part: Part| figure(calls.rounds.median(part) * 1e3));
    let gain = rounds.of_parts(Part::Ours, Part::Indexed);
    let gain = Spread { median: rounds.ours() / rounds.median(Part::Indexed), ..gain };
    format!(
        "| {} | {} | {} × {} | {} | {} | {} | {gain} | {} | {} | {} |",
        short(index.keys),
        call_name(calls.call),
        calls.bases,
        rounds.count(),
        milliseconds(Part::Opening),
        milliseconds(Part::Ours),
        milliseconds(Part::Indexed),
        milliseconds(Part::Rust),
        rounds.ratio(),
        rounds.of_parts(Part::Rust, Part::Indexed)
    )
}

fn making_row(index: &Index) -> String {
    let rounds = &index.making;
    format!(
        "| {} | {:.1} | {:.2} | {:.2} | {:.2} | {} |",
        short(index.keys),
        index.set_bytes as f64 / 1e6,
        index.speed(rounds.median(Part::Opening)),
        index.speed(rounds.ours()),
        index.speed(rounds.less_opening()),
        figure(rounds.ours() * 1e3)
    )
}
