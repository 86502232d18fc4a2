//! Sets that start on a line of memory beside sets that do not.
use super::against::Against;
use super::inputs::World;
use super::measure::Batch;
use super::page::{beside, beside_head, figure, short, NONE};
use super::rounds::{Part, Rounds};
use super::{symbols, system};
use crate::library::Library;
use crate::referee::correctors::Method;
use crate::rng::Rng;
use std::fmt::Write;

pub const KEYS: [usize; 3] = [1_000_000, 4_000_000, 16_000_000];
const K: u8 = 21;
const METHOD: Method = Method::One;
const ERRORS: usize = 1;
/// The bytes of a line, and how far behind its start the other set begins.
const LINE: usize = 64;
const OFF: usize = 8;

pub struct Aligned {
    keys: usize,
    huge: bool,
    /// Of the aligned set's mapping, all bytes and those on huge pages.
    granted: Option<(u64, u64)>,
    reads: usize,
    bases: usize,
    rounds: Rounds,
}

/// A copy of a set that starts so many bytes behind the start of a line.
struct Placed {
    memory: Vec<u8>,
    start: usize,
    length: usize,
}

impl Placed {
    fn new(set: &[u8], offset: usize) -> Self {
        let mut memory = vec![0; set.len() + 2 * LINE];
        let start = memory.as_ptr().align_offset(LINE) + offset;
        memory[start..start + set.len()].copy_from_slice(set);
        let placed = Placed { memory, start, length: set.len() };
        assert_eq!(placed.address() % LINE, offset);
        placed
    }

    fn set(&self) -> &[u8] {
        &self.memory[self.start..self.start + self.length]
    }

    fn address(&self) -> usize {
        self.set().as_ptr() as usize
    }
}

/// Both copies of a world's set, on the pages that it is on.
fn placed(world: &World) -> [Placed; 2] {
    let copies = || [0, OFF].map(|offset| Placed::new(&world.set, offset));
    if world.huge {
        system::on_huge_pages(copies)
    } else {
        copies()
    }
}

fn measure(library: &dyn Library, against: Option<&Against>, world: &World) -> Aligned {
    let [aligned, off] = placed(world);
    let mut batch = Batch::of_cell(library, world, METHOD, ERRORS).against(against);
    let parts: &[Part] = match against {
        Some(_) => &[Part::Ours, Part::Rust, Part::Off, Part::Before],
        None => &[Part::Ours, Part::Rust, Part::Off],
    };
    let rounds = Rounds::run(parts, |part| match part {
        Part::Rust => batch.rust(),
        Part::Off => batch.ours_over(off.set()),
        Part::Before => batch.before_over(aligned.set()),
        _ => batch.ours_over(aligned.set()),
    });
    let granted = symbols::on_huge_pages(aligned.address());
    Aligned { keys: world.keys, huge: world.huge, granted, reads: batch.reads.len(), bases: batch.bases(), rounds }
}

/// Sets of these sizes, on common pages and on huge ones.
pub fn measure_all(library: &dyn Library, against: Option<&Against>, keys: &[usize]) -> Vec<Aligned> {
    let mut all = Vec::new();
    for n in keys {
        let world = World::new(&mut Rng::of_unit(K as u64, *n as u64), K, *n);
        eprintln!("{} keys, aligned and not", world.keys);
        all.push(measure(library, against, &world));
        all.push(measure(library, against, &world.on_huge_pages()));
    }
    all
}

/// The page's section.
pub fn section(all: &[Aligned]) -> String {
    let mut page = String::new();
    let _ = writeln!(
        page,
        "\n## A set on a line of memory\n\n{METHOD:?}, {ERRORS} % errors, k = {K}; the set lent from a multiple of {LINE} bytes, and in the same rounds a copy from {OFF} bytes behind one. *Off by aligned* is the \
         median of the one's times by the median of the other's, so more than 1 says that the aligned one is faster; in brackets the lowest and the highest of the rounds. This can't be had for natir/br: it does \
         not read the set where it lies but fills a table of its own. *Ratio* is its time by ours over the aligned set.\n"
    );
    let (beside, rule) = beside_head(all.iter().map(|aligned| &aligned.rounds));
    let _ = writeln!(
        page,
        "| keys | asked for | set on huge pages | reads × rounds | aligned Mb/s | off Mb/s | off by aligned | Rust Mb/s | ratio{beside} |\n|--:|---|--:|--:|--:|--:|--:|--:|--:|{rule}"
    );
    for aligned in all {
        let _ = writeln!(page, "{}", row(aligned));
    }
    page
}

fn row(aligned: &Aligned) -> String {
    let (rounds, speed) = (&aligned.rounds, |part: Part| figure(aligned.bases as f64 / aligned.rounds.median(part) / 1e6));
    format!(
        "| {} | {} | {} | {} × {} | {} | {} | {} | {} | {}{} |",
        short(aligned.keys),
        if aligned.huge { "huge pages" } else { "nothing" },
        aligned.granted.map_or(NONE.to_string(), |(all, huge)| format!("{} %", huge * 100 / all)),
        aligned.reads,
        rounds.count(),
        speed(Part::Ours),
        speed(Part::Off),
        rounds.by_ours(Part::Off).map_or(NONE.to_string(), |spread| spread.to_string()),
        speed(Part::Rust),
        rounds.ratio(),
        beside(rounds)
    )
}
