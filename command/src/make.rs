//! `hatchery set`: a set, its counts and its index from k-mer counts.
use crate::cli::MakeSet;
use crate::counts::{self, Counted};
use crate::error::{failed, say, usage, Result};
use crate::input::{Position, Source};
use crate::output::{self, Output};
use crate::words::{counted, number, of_call};
use corrector::MAX_KEYS;
use std::path::Path;

/// Rows of the histogram that is printed where too many k-mers are kept.
const ROWS: u64 = 40;

pub fn run(args: &MakeSet) -> Result<()> {
    if args.k % 2 == 0 || args.k > 31 {
        return usage(format!("--k {}: k must be odd, from 1 to 31", args.k));
    }
    let outputs: Vec<&Path> =
        [Some(&args.output), args.counts.as_ref(), args.index.as_ref()].into_iter().flatten().map(|path| path.as_path()).collect();
    output::apart(&[&args.input], &outputs)?;
    let mut source = Source::open(&args.input, &Position::default())?;
    let all = counts::read(&mut source, args.k)?;
    let lines = all.len() as u64;
    let mut all = counts::sorted(all);
    let distinct = all.len() as u64;
    let fits = all.iter().filter(|(_, count)| *count >= args.least).count() <= MAX_KEYS;
    if !fits {
        return too_many(&all, args, &source.name);
    }
    all.retain(|(_, count)| *count >= args.least);
    let text = counts::text(&all, args.k);
    let n = all.len();
    drop(all);
    let (mut blocks, mut list) = (vec![0; corrector::set_length(n)], vec![0; n]);
    let length = match corrector::make_set(&text, args.k as u64, args.least, &mut blocks, &mut list) {
        Ok(length) => length,
        Err(refusal) => return failed(format!("{}: {}", source.name, of_call(refusal))),
    };
    drop(text);
    write(args, &blocks[..length], &list)?;
    say(format!(
        "{}: {}, {} of them distinct (both strands together): {} kept with a count of at least {}, {} passed over",
        source.name,
        counted(lines, "k-mer", "k-mers"),
        number(distinct),
        number(n as u64),
        args.least,
        number(distinct - n as u64)
    ));
    say(format!("{}: k {}, {}, {} bytes", args.output.display(), args.k, counted(n as u64, "key", "keys"), number(length as u64)));
    Ok(())
}

/// All files are whole before the first gets its name.
fn write(args: &MakeSet, blocks: &[u8], list: &[u32]) -> Result<()> {
    let mut files = Vec::new();
    let mut file = |path: &Path, bytes: &[u8]| -> Result<()> {
        let mut output = Output::create(path)?;
        output.write(bytes)?;
        files.push(output);
        Ok(())
    };
    if let Some(path) = &args.counts {
        file(path, &list.iter().flat_map(|count| count.to_le_bytes()).collect::<Vec<u8>>())?;
    }
    if let Some(path) = &args.index {
        let mut index = vec![0; corrector::index_length(args.k)];
        match corrector::make_index(blocks, &mut index) {
            Ok(length) => file(path, &index[..length])?,
            Err(refusal) => return failed(of_call(refusal)),
        }
    }
    file(&args.output, blocks)?;
    files.into_iter().try_for_each(Output::finish)
}

/// The smallest least count with which as many as fit are kept, if there is one.
fn smallest_least(counts: &[Counted], most: usize) -> Option<u64> {
    let mut sorted: Vec<u64> = counts.iter().map(|(_, count)| *count).collect();
    sorted.sort_unstable_by(|a, b| b.cmp(a));
    // The first that must not be kept, and all that are equal to it.
    sorted.get(most).map(|count| count + 1)
}

fn too_many(all: &[Counted], args: &MakeSet, name: &str) -> Result<()> {
    let mut rows = vec![0_u64; ROWS as usize + 1];
    for (_, count) in all {
        rows[(*count).min(ROWS) as usize] += 1;
    }
    say("count        k-mers   with at least that count");
    let mut above: u64 = rows.iter().sum();
    for (count, kmers) in rows.iter().enumerate() {
        let (sign, more) = (if count as u64 == ROWS { "+" } else { " " }, *kmers > 0);
        if more {
            say(format!("{count:>4}{sign} {:>14} {:>14}", number(*kmers), number(above)));
        }
        above -= kmers;
    }
    let kept = all.iter().filter(|(_, count)| *count >= args.least).count() as u64;
    let hint = match smallest_least(all, MAX_KEYS) {
        Some(least) if least <= counts::MOST => format!("the smallest --least that fits is {least}"),
        _ => "no --least fits".into(),
    };
    failed(format!(
        "{name}: {} k-mers have a count of at least {}; a set holds {} keys: {hint}",
        number(kept),
        args.least,
        number(MAX_KEYS as u64)
    ))
}

#[cfg(test)]
mod tests {
    use super::*;

    #[test]
    fn least_that_fits() {
        let counts: Vec<Counted> = [5, 1, 9, 3, 3, 7].into_iter().enumerate().map(|(i, count)| (i as u64, count)).collect();
        let kept = |least| counts.iter().filter(|(_, count)| *count >= least).count();
        for most in 0..6 {
            let least = smallest_least(&counts, most).unwrap();
            assert!(kept(least) <= most && kept(least - 1) > most, "{most}");
        }
        assert_eq!(smallest_least(&counts, 6), None);
    }
}
