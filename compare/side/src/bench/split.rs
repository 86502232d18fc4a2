//! Where the time of a batch call goes: parts that can be had alone by the clock, the others by where a timer finds the call.
use super::inputs::World;
use super::measure::{empty_batch, open, Batch};
use super::rounds::{median, timed};
use super::symbols::Symbols;
use crate::library::Library;
use crate::referee::correctors::Method;
use std::collections::BTreeMap;

const ROUNDS: usize = 5;
/// Seconds of calls that the timer looks into.
const LOOKED_INTO: f64 = 1.5;
/// Lookups are always more of the time than this: if their functions are not, the compiler has written them into their callers.
const LEAST_ASKING: f64 = 0.05;
/// Outside the program: what the compiler takes from C, as clearing and copying.
const ELSEWHERE: &str = "C's library";

/// Seconds.
pub struct Split {
    pub keys: usize,
    pub k: u8,
    pub method: Method,
    pub errors: usize,
    pub reads: usize,
    pub lookups: u64,
    pub call: f64,
    pub opening: f64,
    pub starts: f64,
    /// Of what is left: the part in the lookups' own functions, where they are in use, and in the one that reads ahead of them.
    pub asking: Option<f64>,
    pub ahead: f64,
    pub samples: usize,
    /// Parts of the whole, by function.
    pub functions: BTreeMap<String, f64>,
}

impl Split {
    /// Lookups and all else.
    pub fn left(&self) -> f64 {
        (self.call - self.opening - self.starts).max(0.0)
    }

    /// Lookups, reading ahead and the rest; without the functions of lookups these stand with the rest.
    pub fn parts(&self) -> (Option<f64>, f64, f64) {
        let left = self.left();
        (self.asking.map(|part| left * part), left * self.ahead, left * (1.0 - self.asking.unwrap_or(0.0) - self.ahead))
    }
}

/// Functions of opening a set, those that fill the table of starts, the lookups' own, and the one that reads ahead of them.
fn opens(name: &str) -> bool {
    ["blocks::", "set_checks::", "opening::"].iter().any(|own| name.starts_with(own))
}

fn prepares(name: &str) -> bool {
    ["starts::", "prepare::"].iter().any(|own| name.starts_with(own))
}

fn asks(name: &str) -> bool {
    ["set::", "keys::", "few_keys::", "cache_line::"].iter().any(|own| name.starts_with(own))
}

fn reads_ahead(name: &str) -> bool {
    name.starts_with("scan::read_ahead")
}

pub fn split(library: &dyn Library, world: &World, method: Method, errors: usize) -> Split {
    let mut batch = Batch::of_cell(library, world, method, errors);
    let (mut calls, mut empty, mut opening) = (Vec::new(), Vec::new(), Vec::new());
    for _ in 0..ROUNDS {
        calls.push(batch.ours());
        empty.push(empty_batch(library, world, method));
        opening.push(open(library, world));
    }
    let (call, empty, opening) = (median(calls), median(empty), median(opening));
    let symbols = Symbols::of_this_program();
    let functions = symbols.as_ref().and_then(|symbols| by_function(symbols, &mut batch)).unwrap_or_default();
    let count = |part: fn(&str) -> bool| functions.iter().filter(|function| part(function.0)).map(|function| function.1).sum::<usize>();
    let samples: usize = functions.values().sum();
    let left = (samples - count(opens) - count(prepares)).max(1) as f64;
    let asking = count(asks) as f64 / left;
    Split {
        keys: world.keys,
        k: world.k,
        method,
        errors,
        reads: batch.reads.len(),
        lookups: batch.report.as_ref().map_or(0, |report| report.lookups),
        call,
        opening,
        starts: (empty - opening).max(0.0),
        asking: (asking > LEAST_ASKING).then_some(asking),
        ahead: count(reads_ahead) as f64 / left,
        samples,
        functions: functions.into_iter().map(|(name, count)| (name, count as f64 / samples as f64)).collect(),
    }
}

/// How often the timer finds the calls in each function.
fn by_function(symbols: &Symbols, batch: &mut Batch) -> Option<BTreeMap<String, usize>> {
    let mut places = Vec::new();
    let mut spent = 0.0;
    while spent < LOOKED_INTO {
        let (taken, seconds) = timed(|| batch.places());
        spent += seconds;
        places.extend(taken?);
    }
    let mut functions = BTreeMap::new();
    for place in places {
        *functions.entry(symbols.name_of(place).unwrap_or(ELSEWHERE).to_string()).or_insert(0) += 1;
    }
    Some(functions)
}
