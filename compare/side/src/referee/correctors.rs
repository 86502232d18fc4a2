//! "Successors and scan" and "Correctors".
use super::letters::{code, Kmer};
use super::set::Set;
use std::collections::HashSet;

#[derive(Clone, Copy, Debug, PartialEq, Eq)]
pub enum Method {
    One,
    Two,
    Graph,
    GapSize,
}

pub const METHODS: [Method; 4] = [Method::One, Method::Two, Method::Graph, Method::GapSize];

impl Method {
    /// Method bytes: 1 One, 2 Two, 3 Graph, 4 GapSize.
    pub fn of(byte: u8) -> Option<Self> {
        METHODS.get((byte as usize).checked_sub(1)?).copied()
    }

    pub fn byte(self) -> u8 {
        self as u8 + 1
    }
}

/// What a correction was made by: a scenario of One or Two, Graph's chain, or GapSize's moves.
#[derive(Clone, Copy, Debug, PartialEq, Eq)]
#[rustfmt::skip]
pub enum By { I, S, D, II, IS, SS, SD, DD, ICI, ICS, ICD, SCI, SCS, SCD, DCI, DCD, Chain, Moves }

pub const BY: usize = 18;

#[rustfmt::skip]
pub const ALL_BY: [By; BY] = {
    use By::*;
    [I, S, D, II, IS, SS, SD, DD, ICI, ICS, ICD, SCI, SCS, SCD, DCI, DCD, Chain, Moves]
};

/// Other turns that an attempt takes, counted to see that a run meets them.
#[derive(Clone, Copy, Debug, PartialEq, Eq)]
pub enum Event {
    /// Several scenarios are kept.
    Several,
    /// Of those just one remains after one base more.
    OneRemains,
    /// Graph: T = x.
    NoMove,
    /// Graph: the mark comes again.
    Mark,
    /// GapSize: a k-mer comes again.
    Repeat,
    /// A read's first k-mer holds an unknown letter.
    UnknownFirst,
    /// The bad base is an unknown letter.
    UnknownBase,
    /// A trial ends at a base that is an unknown letter.
    UnknownConfirm,
    /// Graph: T holds an unknown letter.
    UnknownEnd,
}

#[rustfmt::skip]
pub const ALL_EVENTS: [Event; 9] = {
    use Event::*;
    [Several, OneRemains, NoMove, Mark, Repeat, UnknownFirst, UnknownBase, UnknownConfirm, UnknownEnd]
};

/// An accepted attempt: letters written for the bad base, and how many bases further the pass goes on.
pub struct Mend {
    pub letters: Vec<u8>,
    pub resume: usize,
    pub by: By,
    /// The k-mers whose counts support it, all of them solid: the tried k-mer of a scenario, or every k-mer of a walk from x on.
    pub evidence: Vec<Kmer>,
}

/// The scan's answer: the index reached and the last k-mer T.
struct Scan {
    index: usize,
    end: Kmer,
    lookups: u64,
}

/// A row of One's or Two's table: least length of s, check start o, count of letters given, resume r.
struct Row {
    by: By,
    least: usize,
    o: usize,
    letters: usize,
    r: usize,
}

const fn row(by: By, least: usize, o: usize, letters: usize, r: usize) -> Row {
    Row { by, least, o, letters, r }
}

const ONE: [Row; 3] = [row(By::I, 0, 2, 1, 2), row(By::S, 0, 1, 1, 1), row(By::D, 0, 0, 1, 0)];

const TWO: [Row; 13] = [
    row(By::II, 0, 3, 1, 2),
    row(By::IS, 0, 2, 1, 2),
    row(By::SS, 2, 2, 2, 2),
    row(By::SD, 1, 1, 2, 1),
    row(By::DD, 0, 0, 2, 0),
    row(By::ICI, 4, 4, 1, 3),
    row(By::ICS, 4, 3, 2, 4),
    row(By::ICD, 4, 3, 2, 2),
    row(By::SCI, 4, 4, 3, 4),
    row(By::SCS, 3, 3, 3, 3),
    row(By::SCD, 2, 2, 3, 2),
    row(By::DCI, 4, 4, 0, 1),
    row(By::DCD, 2, 1, 3, 1),
];

/// A scenario that scored c, with what its trial asked.
struct Kept {
    mend: Mend,
    asked: u64,
}

/// The set as it is asked in a pass: each question is a lookup.
pub struct Asking<'a> {
    set: &'a Set,
    pub lookups: u64,
    /// What the Rust asks beyond these rules: its lookups less these.
    pub again: i64,
    pub events: [u32; ALL_EVENTS.len()],
}

impl<'a> Asking<'a> {
    pub fn new(set: &'a Set) -> Self {
        Asking { set, lookups: 0, again: 0, events: [0; ALL_EVENTS.len()] }
    }

    /// One lookup; but a k-mer that holds an unknown letter isn't solid, and no lookup is made or counted for it.
    pub fn solid(&mut self, y: Kmer) -> bool {
        let Some(code) = y.code() else { return false };
        self.lookups += 1;
        self.set.solid(code)
    }

    /// The Rust's lookups up to here.
    fn rust_asked(&self) -> i64 {
        self.lookups as i64 + self.again
    }

    pub fn note(&mut self, event: Event) {
        self.events[event as usize] += 1;
    }

    fn add(&self, y: Kmer, byte: u8) -> Kmer {
        y.add(self.set.k, code(byte))
    }

    /// y+u(y), u(y) being the sole solid successor letter; refuses unless there is exactly one. 4 lookups, or none where each of the four
    /// holds an unknown letter of y.
    fn sole(&mut self, y: Kmer) -> Option<Kmer> {
        let successors = [0, 1, 2, 3].map(|code| y.add(self.set.k, Some(code)));
        let solid = successors.map(|successor| self.solid(successor));
        let mut found = successors.into_iter().zip(solid).filter(|(_, solid)| *solid);
        match (found.next(), found.next()) {
            (Some((successor, _)), None) => Some(successor),
            _ => None,
        }
    }

    /// x: the bad k-mer's last letter replaced by the sole solid alternative. 4 lookups.
    fn alternative(&mut self, y: Kmer) -> Option<Kmer> {
        self.sole(y.moved_right())
    }

    /// `error_len`: add s1, s2, .. to the k-mer; stop at the first solid, else at the end.
    fn scan(&mut self, y: Kmer, s: &[u8]) -> Scan {
        let (mut index, mut end, before) = (1, y, self.lookups);
        while index < s.len() {
            end = self.add(end, s[index]);
            if self.solid(end) {
                break;
            }
            index += 1;
        }
        Scan { index, end, lookups: self.lookups - before }
    }

    /// An attempt at the bad k-mer y, s being the rest of the read from its bad base.
    pub fn attempt(&mut self, method: Method, c: usize, y: Kmer, s: &[u8]) -> Option<Mend> {
        if code(s[0]).is_none() {
            self.note(Event::UnknownBase);
        }
        match method {
            Method::One => self.exist(&ONE, c, y, s),
            Method::Two => self.exist(&TWO, c, y, s),
            Method::Graph => {
                let scan = self.scan(y, s);
                self.graph(&scan, y)
            }
            Method::GapSize => self.gap_size(c, y, s),
        }
    }

    // ---- One and Two

    fn exist(&mut self, rows: &[Row], c: usize, y: Kmer, s: &[u8]) -> Option<Mend> {
        let x = self.alternative(y)?;
        let mut kept: Vec<Kept> = rows.iter().filter_map(|row| self.tried(row, c, x, s)).collect();
        if kept.len() > 1 {
            self.note(Event::Several);
            // The Rust makes the letters of each, and so its trial, again.
            self.again += kept.iter().map(Kept::asked_for_letters).sum::<i64>();
            kept.retain(|kept| self.one_more(&kept.mend, c, y, s));
            if kept.len() == 1 {
                self.note(Event::OneRemains);
            }
        }
        if kept.len() != 1 {
            return None;
        }
        let used = kept.pop()?;
        // The Rust makes the trial of the one that is used again.
        self.again += used.asked_for_letters();
        Some(used.mend)
    }

    /// A trial, and its score: kept if that is c.
    fn tried(&mut self, row: &Row, c: usize, x: Kmer, s: &[u8]) -> Option<Kept> {
        if s.len() < row.least {
            return None;
        }
        let before = self.lookups;
        let tried = self.trial(row.by, x, s)?;
        let asked = self.lookups - before;
        if self.score(row.o, c, tried, s) != c {
            return None;
        }
        let of = match row.by {
            By::ICI => x,
            _ => tried,
        };
        let mend = Mend { letters: of.last(row.letters), resume: row.r, by: row.by, evidence: vec![tried] };
        Some(Kept { mend, asked })
    }

    /// The tried k-mer: left to right up to the first refusal.
    fn trial(&mut self, by: By, x: Kmer, s: &[u8]) -> Option<Kmer> {
        match by {
            By::SS | By::ICS => {
                let y = self.add(x, s[1]);
                self.not_solid(y)?;
                self.sole(x)
            }
            By::SD | By::DD => self.sole(x),
            By::ICI => {
                let y = self.add(x, s[3]);
                self.is_solid(y)
            }
            By::ICD => self.sole(self.add(x, s[2])),
            By::SCI | By::DCI => Some(self.add(self.add(x, s[1]), s[3])),
            By::SCS => {
                let y = self.add(x, s[1]);
                self.is_solid(y)?;
                self.not_solid(self.add(y, s[2]))?;
                self.sole(y)
            }
            By::SCD => self.sole(self.add(x, s[1])),
            By::DCD => self.sole(self.add(x, s[0])),
            By::I | By::S | By::D | By::II | By::IS => Some(x),
            By::Chain | By::Moves => unreachable!("no scenario of One or Two"),
        }
    }

    fn is_solid(&mut self, y: Kmer) -> Option<Kmer> {
        self.solid(y).then_some(y)
    }

    fn not_solid(&mut self, y: Kmer) -> Option<Kmer> {
        (!self.solid(y)).then_some(y)
    }

    /// 0 if the tried k-mer isn't solid or if o + c exceeds the length of s, else the solid count of the c bases from o.
    fn score(&mut self, o: usize, c: usize, tried: Kmer, s: &[u8]) -> usize {
        if !self.solid(tried) || o + c > s.len() {
            return 0;
        }
        let mut y = tried;
        for (score, byte) in s[o..o + c].iter().enumerate() {
            y = self.add(y, *byte);
            if code(*byte).is_none() {
                self.note(Event::UnknownConfirm);
            }
            if !self.solid(y) {
                return score;
            }
        }
        c
    }

    /// The length of s exceeds c + r + 1 and, letters put in place of the bad base, the k-mer after s from r, c + 1 bases, is solid.
    fn one_more(&mut self, mend: &Mend, c: usize, y: Kmer, s: &[u8]) -> bool {
        if s.len() <= c + mend.resume + 1 {
            return false;
        }
        let mended = y.moved_right().add_all(self.set.k, &mend.letters);
        let further = mended.add_all(self.set.k, &s[mend.resume..mend.resume + c + 1]);
        self.solid(further)
    }

    // ---- Graph

    /// Graph from a scan: accepted exactly when there is a chain from x to T.
    fn graph(&mut self, scan: &Scan, y: Kmer) -> Option<Mend> {
        let x = self.alternative(y)?;
        let evidence = self.walk(x, scan.end)?;
        Some(Mend { letters: last_letters(&evidence), resume: scan.index + 1, by: By::Chain, evidence })
    }

    /// The k-mers of the chain, x first and T last.
    fn walk(&mut self, x: Kmer, end: Kmer) -> Option<Vec<Kmer>> {
        if x == end {
            self.note(Event::NoMove);
            // The Rust walks all the same, and refuses.
            self.again += self.rust_walk(x, end);
            return None;
        }
        if end.code().is_none() {
            self.note(Event::UnknownEnd);
        }
        let mut chain = vec![x];
        let (mut at, mut mark, mut moves, mut next_mark) = (x, x, 0_u64, 1);
        let before = self.rust_asked();
        loop {
            // The Rust asks first whether the k-mer that it moves from is solid: document 02, W6, has no such question.
            self.again += 1;
            at = self.sole(at)?;
            chain.push(at);
            if at == end {
                return Some(chain);
            }
            if at == mark {
                self.note(Event::Mark);
                // The Rust remembers every k-mer, and refuses on the first repeat.
                self.again += self.rust_walk(x, end) - (self.rust_asked() - before);
                return None;
            }
            moves += 1;
            if moves == next_mark {
                (mark, next_mark) = (at, 2 * next_mark);
            }
        }
    }

    /// The lookups that the Rust's walk makes from x.
    fn rust_walk(&self, x: Kmer, end: Kmer) -> i64 {
        let mut asking = Asking::new(self.set);
        let (mut at, mut seen) = (x, HashSet::from([x]));
        while asking.solid(at) {
            let Some(next) = asking.sole(at) else { break };
            at = next;
            if !seen.insert(at) || at == end {
                break;
            }
        }
        asking.lookups as i64
    }

    // ---- GapSize

    /// One scan, counted once. Index below k: Graph from that scan. Equal: One. Above: index − k moves.
    fn gap_size(&mut self, c: usize, y: Kmer, s: &[u8]) -> Option<Mend> {
        let scan = self.scan(y, s);
        match scan.index.cmp(&self.set.k) {
            std::cmp::Ordering::Less => {
                // The Rust scans again.
                self.again += scan.lookups as i64;
                self.graph(&scan, y)
            }
            std::cmp::Ordering::Equal => self.exist(&ONE, c, y, s),
            std::cmp::Ordering::Greater => self.moves(scan.index - self.set.k, y),
        }
    }

    /// That many moves from x by sole successors, refused on a repeat.
    fn moves(&mut self, moves: usize, y: Kmer) -> Option<Mend> {
        let mut at = self.alternative(y)?;
        let (mut walk, mut seen) = (vec![at], HashSet::from([at]));
        for _ in 0..moves {
            at = self.sole(at)?;
            if !seen.insert(at) {
                self.note(Event::Repeat);
                return None;
            }
            walk.push(at);
        }
        Some(Mend { letters: last_letters(&walk), resume: walk.len(), by: By::Moves, evidence: walk })
    }
}

/// x's last letter and each move's.
fn last_letters(walk: &[Kmer]) -> Vec<u8> {
    walk.iter().map(|kmer| kmer.last_letter()).collect()
}

impl Kept {
    /// What the Rust asks to give a scenario's letters: its trial, where the letters are taken from the tried k-mer.
    fn asked_for_letters(&self) -> i64 {
        match self.mend.by {
            By::ICI => 0,
            _ => self.asked as i64,
        }
    }
}
