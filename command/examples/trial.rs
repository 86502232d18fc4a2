//! What command/test needs besides: a random genome, reads of it with errors, and how far reads are from where they come from.
//!
//!   trial genome BASES SEED                    FASTA of one record
//!   trial reads GENOME LENGTH PERCENT BASES SEED
//!                                              FASTA of reads from both strands, as many as have BASES together; a name tells number, start and strand.
//!                                              PERCENT of the bases have an error: another base, a base more, or one less, a third each
//!   trial distance GENOME READS EVERY          of every EVERY-th read: the edit distance to its origin; prints reads, bases of their origins, distance
use std::error::Error;
use std::fs;
use std::io::{self, BufWriter, Write};

type Result<T> = std::result::Result<T, Box<dyn Error>>;

struct Random(u64);

impl Random {
    /// SplitMix64.
    fn next(&mut self) -> u64 {
        self.0 = self.0.wrapping_add(0x9e37_79b9_7f4a_7c15);
        let mut z = self.0;
        z = (z ^ z >> 30).wrapping_mul(0xbf58_476d_1ce4_e5b9);
        z = (z ^ z >> 27).wrapping_mul(0x94d0_49bb_1331_11eb);
        z ^ z >> 31
    }

    fn below(&mut self, most: usize) -> usize {
        (u128::from(self.next()) * most as u128 >> 64) as usize
    }

    fn base(&mut self) -> u8 {
        b"ACGT"[self.below(4)]
    }
}

fn reverse_complement(bases: &[u8]) -> Vec<u8> {
    let other = |base: &u8| match base {
        b'A' => b'T',
        b'C' => b'G',
        b'G' => b'C',
        _ => b'A',
    };
    bases.iter().rev().map(other).collect()
}

/// Records of FASTA: name and sequence.
fn records(text: &str) -> impl Iterator<Item = (&str, String)> {
    text.split('>').skip(1).map(|record| {
        let (name, lines) = record.split_once('\n').unwrap_or((record, ""));
        (name, lines.split_whitespace().collect())
    })
}

fn write_record(to: &mut impl Write, name: &str, bases: &[u8]) -> io::Result<()> {
    writeln!(to, ">{name}")?;
    for line in bases.chunks(80) {
        to.write_all(line)?;
        to.write_all(b"\n")?;
    }
    Ok(())
}

fn with_errors(random: &mut Random, origin: &[u8], percent: f64) -> Vec<u8> {
    let most = (percent / 100.0 * (1_u64 << 53) as f64) as u64;
    let mut read = Vec::with_capacity(origin.len() * 21 / 20);
    for base in origin {
        if random.next() >> 11 >= most {
            read.push(*base);
            continue;
        }
        match random.below(3) {
            0 => loop {
                let other = random.base();
                if other != *base {
                    read.push(other);
                    break;
                }
            },
            1 => read.extend([random.base(), *base]),
            _ => {}
        }
    }
    read
}

fn reads(genome: &[u8], length: usize, percent: f64, bases: usize, seed: u64) -> Result<()> {
    let (mut random, mut to) = (Random(seed), BufWriter::new(io::stdout().lock()));
    if length > genome.len() {
        return Err("reads are longer than the genome".into());
    }
    for number in 0..bases / length {
        let start = random.below(genome.len() - length + 1);
        let origin = &genome[start..start + length];
        let (origin, strand) = match random.below(2) {
            0 => (origin.to_vec(), '+'),
            _ => (reverse_complement(origin), '-'),
        };
        write_record(&mut to, &format!("{number} {start} {length} {strand}"), &with_errors(&mut random, &origin, percent))?;
    }
    Ok(to.flush()?)
}

/// 64 rows of the table of distances, as differences between neighbours: Myers 1999, as Hyyrö 2003 writes it.
#[derive(Clone, Copy)]
struct Rows {
    plus: u64,
    minus: u64,
}

impl Rows {
    /// The next column; `into` is the difference along the upper edge, and the answer that along the row which `row` marks.
    fn column(&mut self, equal: u64, into: i64, row: u64) -> i64 {
        let below = u64::from(into < 0);
        let xv = equal | self.minus;
        let equal = equal | below;
        let xh = ((equal & self.plus).wrapping_add(self.plus) ^ self.plus) | equal;
        let (plus, minus) = (self.minus | !(xh | self.plus), self.plus & xh);
        let out = i64::from(plus & row != 0) - i64::from(minus & row != 0);
        let (plus, minus) = (plus << 1 | u64::from(into > 0), minus << 1 | below);
        self.plus = minus | !(xv | plus);
        self.minus = plus & xv;
        out
    }
}

/// The least number of bases to exchange, put in or take out that makes one of the other.
fn distance(a: &[u8], b: &[u8]) -> u64 {
    if a.is_empty() {
        return b.len() as u64;
    }
    let blocks = a.len().div_ceil(64);
    let mut equal = vec![[0_u64; 256]; blocks];
    a.iter().enumerate().for_each(|(i, base)| equal[i / 64][*base as usize] |= 1 << (i % 64));
    let mut rows = vec![Rows { plus: u64::MAX, minus: 0 }; blocks];
    let last = 1_u64 << ((a.len() - 1) % 64);
    let mut score = a.len() as i64;
    for base in b {
        let mut edge = 1;
        for (i, (block, equal)) in rows.iter_mut().zip(&equal).enumerate() {
            edge = block.column(equal[*base as usize], edge, if i + 1 == blocks { last } else { 1 << 63 });
        }
        score += edge;
    }
    score as u64
}

fn distances(genome: &[u8], text: &str, every: usize) -> Result<()> {
    let (mut number, mut bases, mut sum) = (0_u64, 0_u64, 0_u64);
    for (name, read) in records(text).step_by(every.max(1)) {
        let mut words = name.split(' ').skip(1);
        let mut word = || words.next().ok_or("a name without its origin");
        let (start, length) = (word()?.parse::<usize>()?, word()?.parse::<usize>()?);
        let origin = genome.get(start..start + length).ok_or("an origin outside the genome")?;
        let origin = if word()? == "-" { reverse_complement(origin) } else { origin.to_vec() };
        number += 1;
        bases += length as u64;
        sum += distance(read.as_bytes(), &origin);
    }
    println!("{number} {bases} {sum}");
    Ok(())
}

fn genome_of(file: &str) -> Result<Vec<u8>> {
    Ok(records(&fs::read_to_string(file)?).next().ok_or("a genome without a record")?.1.into_bytes())
}

fn main() -> Result<()> {
    let words: Vec<String> = std::env::args().skip(1).collect();
    match words.iter().map(String::as_str).collect::<Vec<_>>()[..] {
        ["genome", bases, seed] => {
            let mut random = Random(seed.parse()?);
            let bases: Vec<u8> = (0..bases.parse()?).map(|_| random.base()).collect();
            Ok(write_record(&mut BufWriter::new(io::stdout().lock()), "genome", &bases)?)
        }
        ["reads", genome, length, percent, bases, seed] => {
            reads(&genome_of(genome)?, length.parse()?, percent.parse()?, bases.parse()?, seed.parse()?)
        }
        ["distance", genome, reads, every] => distances(&genome_of(genome)?, &fs::read_to_string(reads)?, every.parse()?),
        _ => Err("usage: trial genome|reads|distance .. (see the file's head)".into()),
    }
}

#[cfg(test)]
mod tests {
    use super::*;

    fn plainly(a: &[u8], b: &[u8]) -> u64 {
        let mut row: Vec<u64> = (0..=b.len() as u64).collect();
        for (i, x) in a.iter().enumerate() {
            let mut corner = row[0];
            row[0] = i as u64 + 1;
            for (j, y) in b.iter().enumerate() {
                let above = row[j + 1];
                row[j + 1] = (corner + u64::from(x != y)).min(above + 1).min(row[j] + 1);
                corner = above;
            }
        }
        row[b.len()]
    }

    #[test]
    fn distance_is_the_tables() {
        let mut random = Random(3);
        for _ in 0..300 {
            let length = random.below(300);
            let a: Vec<u8> = (0..length).map(|_| random.base()).collect();
            let percent = random.below(60) as f64;
            let b = with_errors(&mut random, &a, percent);
            assert_eq!(distance(&a, &b), plainly(&a, &b));
        }
    }
}
