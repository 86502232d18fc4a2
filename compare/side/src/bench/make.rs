//! The set file and its counts made from text: both walks of the call together, beside a plain loop in Rust over the same text.
use super::rounds::{timed, Part, Rounds};
use crate::library::Library;
use crate::referee::letters::{letter, mask};
use crate::rng::Rng;
use crate::set_file;
use std::fmt::Write;

/// Lines of a text, and every how many of them one is passed over.
const LINES: usize = 2_000_000;
const PASSED: usize = 4;
const LEAST: u64 = 3;
/// The last is of lines that are all passed over: short k-mers have not so many codes.
const K: [usize; 5] = [31, 21, 15, 11, 1];

pub struct Make {
    k: usize,
    bytes: usize,
    keys: usize,
    rounds: Rounds,
}

/// Rising canonical codes with counts of one to four digits, and lines that are passed over between them.
fn text(rng: &mut Rng, k: usize) -> Vec<u8> {
    let kept = if k == 1 { 0 } else { LINES - LINES / PASSED };
    let most = (mask(k) as u128 + 1) / 2;
    let mut codes = set_file::keys_of(k as u8, (0..kept.min((most / 2) as usize)).map(|_| rng.word() & mask(k))).into_iter();
    let mut text = Vec::with_capacity(LINES * (k + 6));
    for line in 0..LINES {
        let kept = if line % PASSED == 0 { None } else { codes.next() };
        let (code, count) = match kept {
            Some(code) => (code, LEAST as usize + rng.below(5000)),
            None => (rng.word() & mask(k), rng.below(LEAST as usize)),
        };
        text.extend((0..k).rev().map(|place| letter(code >> (2 * place) & 3)));
        let _ = std::io::Write::write_fmt(&mut text, format_args!(",{count}\n"));
    }
    text
}

/// One pass that reads each line, keeps codes and counts in lists, and judges as W3 does: what a host would write.
fn plain(text: &[u8], k: usize, least: u64) -> Option<(Vec<u64>, Vec<u32>)> {
    let (mut keys, mut counts): (Vec<u64>, Vec<u32>) = (Vec::new(), Vec::new());
    let mut at = 0;
    while at < text.len() {
        let (mut code, mut turned) = (0, 0);
        for byte in text.get(at..at + k)? {
            if !matches!(byte, b'A' | b'C' | b'G' | b'T') {
                return None;
            }
            let base = (*byte as u64 >> 1) & 3;
            code = code << 2 | base;
            turned = turned >> 2 | (base ^ 2) << (2 * (k - 1));
        }
        at += k;
        (*text.get(at)? == b',').then_some(())?;
        at += 1;
        let (first, mut count) = (at, 0);
        while text.get(at)?.is_ascii_digit() {
            count = 10 * count + (text[at] - b'0') as u64;
            at += 1;
        }
        (text[at] == 10 && (1..=10).contains(&(at - first))).then_some(())?;
        at += 1;
        if least <= count {
            let key = if u64::count_ones(code) % 2 == 0 { code } else { turned };
            if keys.last().is_some_and(|last| key <= *last) {
                return None;
            }
            keys.push(key);
            counts.push(count.min(u32::MAX as u64) as u32);
        }
    }
    Some((keys, counts))
}

fn measure(library: &dyn Library, k: usize) -> Make {
    let text = text(&mut Rng::of_unit(k as u64, 3), k);
    let (keys, listed) = plain(&text, k, LEAST).expect("a right text");
    let set = set_file::make(k as u64, &keys);
    let (mut blocks, mut counts) = (vec![1; set.len()], vec![1; keys.len()]);
    let mut ours = || {
        let (answer, seconds) = timed(|| library.make_set(&text, k as u64, LEAST, &mut blocks, &mut counts));
        assert_eq!(answer, Ok(set.len() as u64));
        assert!(blocks == set && counts == listed);
        seconds
    };
    let rounds = Rounds::run(&[Part::Rust, Part::Ours], |part| match part {
        Part::Ours => ours(),
        _ => timed(|| plain(&text, k, LEAST)).1,
    });
    Make { k, bytes: text.len(), keys: keys.len(), rounds }
}

impl Make {
    fn speed(&self, seconds: f64) -> f64 {
        self.bytes as f64 / seconds / 1e6
    }
}

pub fn measure_all(library: &dyn Library) -> Vec<Make> {
    let makes: Vec<_> = K.iter().map(|k| measure(library, *k)).collect();
    for make in &makes {
        eprintln!(
            "set from text, k = {}: {} MB, {} keys; {:.0} MB/s, a plain loop {:.0}, ratio {}, {} rounds",
            make.k,
            make.bytes / 1_000_000,
            make.keys,
            make.speed(make.rounds.ours()),
            make.speed(make.rounds.rust()),
            make.rounds.ratio(),
            make.rounds.count()
        );
    }
    makes
}

/// The page's section.
pub fn section(makes: &[Make]) -> String {
    let mut page = String::new();
    let _ = writeln!(
        page,
        "\n## A set from text\n\n`make_set` over {} million lines, one in {PASSED} passed over (all of them at k = 1); both walks, clearing and sealing. *Plain* is one pass of \
         plain Rust over the same text, which judges as much and pushes codes and counts to lists. Million bytes of text a second; the ratio as above.\n",
        LINES / 1_000_000
    );
    let _ = writeln!(page, "| k | text, MB | keys | ours | plain | ratio |\n|--:|--:|--:|--:|--:|:--|");
    for make in makes {
        let rounds = &make.rounds;
        let _ = writeln!(
            page,
            "| {} | {} | {} | {:.0} | {:.0} | {} |",
            make.k,
            make.bytes / 1_000_000,
            make.keys,
            make.speed(rounds.ours()),
            make.speed(rounds.rust()),
            rounds.ratio()
        );
    }
    page
}
