//! `hatchery open`, `needs` and `solid`: what can be told without correcting.
use crate::cli::{Needs, Open, Solid};
use crate::error::{failed, usage, Error, Result};
use crate::lent::SetFile;
use crate::library::Library;
use crate::output::print;
use crate::parts::{Part, Parts};
use crate::pool;
use crate::report::big;
use crate::totals::{kmers, Totals};
use crate::words::{counted, number, of_call};
use corrector::MAX_OUTPUT;
use serde_json::{json, Value};

pub fn open(args: &Open) -> Result<()> {
    let set = SetFile::read(&args.set)?;
    let (k, n) = (set.header.k, set.header.n);
    print(&match args.json {
        true => lines(&json!({ "file": set.name, "k": k, "n": n, "check": format!("{:08x}", set.check) })),
        false => format!("{}: k {k}, {}\n", set.name, counted(n as u64, "key", "keys")),
    })
}

fn lines(value: &Value) -> String {
    format!("{value:#}\n")
}

pub fn needs(args: &Needs) -> Result<()> {
    if args.given.job.0.len() != 1 {
        return usage("--job: needs are told of jobs of one entry (17): each later entry is fed what the one before gives");
    }
    let library = Library::new(&args.given)?;
    let (mut totals, mut bytes) = (Totals::default(), 0);
    let work = |part: Part| {
        if part.long {
            return failed(format!("{} is refused (1): a call takes 1,048,576 bytes", part.name(0)));
        }
        let all = part.records();
        let needs = library.needs(&part.reads(&all)).map_err(|refusal| Error::Failed(format!("{}: {}", part.file, of_call(refusal))))?;
        let w = part.ends.iter().map(|(_, bases)| bases.saturating_sub(library.set.header.k) as u64).sum();
        let passes = part.with_kmers(&all, library.set.header.k);
        let totals = Totals { reads: all.len() as u64, turns: needs.turns, lookups: needs.lookups, sum_of_w: w, passes, ..Totals::default() };
        Ok((totals, needs.bytes as u64))
    };
    let mut parts = Parts::new(&args.reads.files, args.reads.lines);
    pool::in_order(pool::threads(args.reads.threads.map(usize::from)), &mut parts, work, |(of_part, more)| {
        totals.add(&of_part);
        bytes += more;
        Ok(())
    })?;
    let (turns, lookups) = totals.ceiling(library.job.most_a_base(library.set.header));
    let bytes = args.reads.lines.then_some(bytes);
    print(&match args.json {
        true => lines(&json!({
            "reads": totals.reads, "turns": totals.turns, "lookups": totals.lookups, "bytes": bytes,
            "ceiling_turns": big(turns), "ceiling_lookups": big(lookups),
        })),
        false => {
            let bytes = bytes.map_or(String::new(), |bytes| format!("bytes {bytes}\n"));
            let Totals { reads, turns: t, lookups: l, .. } = totals;
            format!("reads {reads}\nturns {t}\nlookups {l}\n{bytes}ceiling-turns {turns}\nceiling-lookups {lookups}\n")
        }
    })
}

/// K-mers and solid ones of a file.
struct Share {
    file: String,
    kmers: u64,
    solid: u64,
}

impl Share {
    fn per_cent(&self) -> Option<f64> {
        (self.kmers > 0).then(|| 100.0 * self.solid as f64 / self.kmers as f64)
    }

    fn json(&self) -> Value {
        json!({ "file": self.file, "kmers": self.kmers, "solid": self.solid, "per_cent": self.per_cent() })
    }

    fn line(&self) -> String {
        let per_cent = self.per_cent().map_or("-".into(), |share| format!("{share:.3}"));
        format!("{}\t{}\t{per_cent}\t{}\n", self.kmers, self.solid, self.file)
    }
}

pub fn solid(args: &Solid) -> Result<()> {
    let set = SetFile::read(&args.set)?;
    let mut shares: Vec<Share> = Vec::new();
    // The reads of a part are asked as one: the byte 10 between two of them is an unknown letter, so no k-mer across it is solid.
    let work = |part: Part| {
        if part.long {
            return failed(format!("{} is refused (1): it is longer than {} bytes", part.name(0), number(MAX_OUTPUT as u64)));
        }
        let count = corrector::count_solid(set.bytes(), &part.reads(&part.records()));
        let count = count.map_err(|refusal| Error::Failed(format!("{}: {}", part.file, of_call(refusal))))?;
        let kmers = part.ends.iter().map(|(_, bases)| kmers(*bases, set.header)).sum();
        Ok(Share { file: part.file.to_string(), kmers, solid: count.solid })
    };
    let mut parts = Parts::new(&args.reads.files, args.reads.lines);
    pool::in_order(pool::threads(args.reads.threads.map(usize::from)), &mut parts, work, |share| {
        match shares.last_mut() {
            Some(last) if last.file == share.file => {
                last.kmers += share.kmers;
                last.solid += share.solid;
            }
            _ => shares.push(share),
        }
        Ok(())
    })?;
    // A file without a record has a line too.
    let of = |file: &str| shares.iter().find(|share| share.file == file);
    let none = |file: &str| Share { file: file.into(), kmers: 0, solid: 0 };
    let all: Vec<Share> =
        parts.inputs.iter().map(|input| of(&input.file).map_or_else(|| none(&input.file), |s| Share { file: s.file.clone(), ..*s })).collect();
    print(&match args.json {
        true => lines(&Value::Array(all.iter().map(Share::json).collect())),
        false => all.iter().map(Share::line).collect(),
    })
}
