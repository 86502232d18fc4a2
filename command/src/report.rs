//! The report of a run, in words and as JSON; `hatchery report`.
use crate::cli;
use crate::error::{at_path, failed, Error, Result};
use crate::html;
use crate::job::Entries;
use crate::library::Library;
use crate::output::{self, print};
use crate::parts::Input;
use crate::totals::Totals;
use crate::words::{counted, number};
use corrector::Set;
use serde_json::{json, Value};
use std::path::Path;
use std::time::Duration;

pub struct Report {
    pub version: String,
    pub set: SetUsed,
    pub job: Entries,
    pub inputs: Vec<Input>,
    pub threads: u64,
    pub totals: Totals,
    pub seconds: f64,
    /// A call without a read.
    pub empty_call: f64,
}

#[derive(Clone, PartialEq)]
pub struct SetUsed {
    pub file: String,
    pub header: Set,
    pub check: u32,
}

/// A number that may not fit 64 bits: then its digits as text.
pub fn big(value: u128) -> Value {
    match u64::try_from(value) {
        Ok(value) => value.into(),
        Err(_) => value.to_string().into(),
    }
}

impl Report {
    pub fn new(library: &Library, inputs: Vec<Input>, totals: Totals, threads: usize, time: Duration) -> Self {
        let set = SetUsed { file: library.set.name.clone(), header: library.set.header, check: library.set.check };
        Report {
            version: env!("CARGO_PKG_VERSION").into(),
            set,
            job: library.job.clone(),
            inputs,
            threads: threads as u64,
            totals,
            seconds: time.as_secs_f64(),
            empty_call: library.empty_call.as_secs_f64(),
        }
    }

    /// The most turns and lookups.
    pub fn ceiling(&self) -> (u128, u128) {
        self.totals.ceiling(self.job.most_a_base(self.set.header))
    }

    /// The input's files in short.
    pub fn title(&self) -> String {
        match &self.inputs[..] {
            [] => "no input".into(),
            [one] => one.file.clone(),
            [first, more @ ..] => format!("{} and {} more", first.file, more.len()),
        }
    }

    pub fn json(&self) -> Value {
        let t = &self.totals;
        let (each, left) = t.lookups_a_base();
        let (turns, lookups) = self.ceiling();
        let inputs = self
            .inputs
            .iter()
            .map(|input| json!({ "file": input.file, "bytes": input.bytes, "check": check(input.check), "records": input.records }));
        json!({
            "hatchery": self.version,
            "set": { "file": self.set.file, "k": self.set.header.k, "n": self.set.header.n, "check": check(self.set.check) },
            "job": self.job.to_string(),
            "inputs": inputs.collect::<Vec<_>>(),
            "reads": t.reads, "kept": t.kept, "bases": t.bases, "written": t.written,
            "turns": t.turns, "lookups": t.lookups, "attempts": t.attempts, "accepted": t.accepted, "yield": t.yield_(),
            "support": t.support, "sum_of_w": t.sum_of_w, "lookups_a_base": each, "lookups_left": left,
            "passes": t.passes, "ceiling": { "turns": big(turns), "lookups": big(lookups) },
            "need": t.need.map(|(turns, lookups)| json!({ "turns": turns, "lookups": lookups })),
            "threads": self.threads, "seconds": self.seconds, "calls": t.calls, "seconds_of_an_empty_call": self.empty_call,
        })
    }

    pub fn json_text(&self) -> String {
        format!("{:#}\n", self.json())
    }

    pub fn words(&self) -> String {
        let t = &self.totals;
        let (each, left) = t.lookups_a_base();
        let (most_turns, most_lookups) = self.ceiling();
        let mut text = String::new();
        let mut line = |name: &str, what: String| text += &format!("{name:<16}{what}\n");
        for input in &self.inputs {
            line(
                "input",
                format!(
                    "{}: {}, {} bytes, check {}",
                    input.file,
                    counted(input.records, "record", "records"),
                    number(input.bytes),
                    check(input.check)
                ),
            );
        }
        let set = &self.set;
        line("set", format!("{}: k {}, {}, check {}", set.file, set.header.k, counted(set.header.n as u64, "key", "keys"), check(set.check)));
        line("job", self.job.to_string());
        let kept = if t.kept > 0 { format!(", {} kept as they were", number(t.kept)) } else { String::new() };
        line("reads", format!("{} of {}{kept}", number(t.reads), counted(t.bases, "base", "bases")));
        line("turns", format!("{} (at most {})", number(t.turns), number(most_turns)));
        line("lookups", format!("{} (at most {})", number(t.lookups), number(most_lookups)));
        line("lookups a base", format!("{each}, and {} left, of {} (the sum of W)", number(left), number(t.sum_of_w)));
        line("attempts", format!("{}, {} accepted, yield {} of 1000", number(t.attempts), number(t.accepted), t.yield_()));
        line("support", t.support.map_or("not told".into(), |support| number(support)));
        line("time", format!("{:.2} s with {}", self.seconds, counted(self.threads, "thread", "threads")));
        line("version", self.version.clone());
        text
    }

    /// A report as it was written.
    fn read(path: &Path) -> Result<Self> {
        let bytes = std::fs::read(path).map_err(at_path(path))?;
        let value: Value = serde_json::from_slice(&bytes).map_err(|error| Error::Failed(format!("{}: no report: {error}", path.display())))?;
        parse(&value).map_err(|what| Error::Failed(format!("{}: no report of hatchery correct: {what}", path.display())))
    }

    /// Adds the report of another part.
    fn add(&mut self, other: Report) -> Result<()> {
        let differs = |what: &str, mine: String, other: String| failed(format!("reports of different {what}s cannot be added: {mine} and {other}"));
        let (a, b) = (&self.set, &other.set);
        if (a.header, a.check) != (b.header, b.check) {
            return differs("set", format!("{} (check {})", a.file, check(a.check)), format!("{} (check {})", b.file, check(b.check)));
        }
        if self.job != other.job {
            return differs("job", self.job.to_string(), other.job.to_string());
        }
        if self.version != other.version {
            return differs("version", self.version.clone(), other.version);
        }
        self.inputs.extend(other.inputs);
        self.totals.add(&other.totals);
        self.seconds += other.seconds;
        self.threads = self.threads.max(other.threads);
        self.empty_call = self.empty_call.max(other.empty_call);
        Ok(())
    }
}

fn check(crc: u32) -> String {
    format!("{crc:08x}")
}

// Fields of a report, each named where it is missing.

type Parsed<T> = std::result::Result<T, String>;

fn field<'a>(of: &'a Value, name: &str) -> Parsed<&'a Value> {
    of.get(name).ok_or_else(|| format!("'{name}' is missing"))
}

fn whole(of: &Value, name: &str) -> Parsed<u64> {
    field(of, name)?.as_u64().ok_or_else(|| format!("'{name}' is no whole number"))
}

fn text(of: &Value, name: &str) -> Parsed<String> {
    field(of, name)?.as_str().map(String::from).ok_or_else(|| format!("'{name}' is no text"))
}

fn seconds(of: &Value, name: &str) -> Parsed<f64> {
    field(of, name)?.as_f64().filter(|value| *value >= 0.0).ok_or_else(|| format!("'{name}' is no time"))
}

fn crc(of: &Value) -> Parsed<u32> {
    u32::from_str_radix(&text(of, "check")?, 16).map_err(|_| "'check' is no check".into())
}

fn parse(value: &Value) -> Parsed<Report> {
    let set = field(value, "set")?;
    let header = Set { k: whole(set, "k")?.min(31) as usize, n: whole(set, "n")?.min(corrector::MAX_KEYS as u64) as usize };
    let inputs = field(value, "inputs")?.as_array().ok_or("'inputs' is no list")?;
    let input = |of: &Value| -> Parsed<Input> {
        Ok(Input { file: text(of, "file")?, bytes: whole(of, "bytes")?, check: crc(of)?, records: whole(of, "records")? })
    };
    Ok(Report {
        version: text(value, "hatchery")?,
        set: SetUsed { file: text(set, "file")?, header, check: crc(set)? },
        job: text(value, "job")?.parse()?,
        inputs: inputs.iter().map(input).collect::<Parsed<_>>()?,
        threads: whole(value, "threads")?,
        totals: totals(value)?,
        seconds: seconds(value, "seconds")?,
        empty_call: seconds(value, "seconds_of_an_empty_call")?,
    })
}

fn totals(value: &Value) -> Parsed<Totals> {
    let support = match field(value, "support")? {
        Value::Null => None,
        _ => Some(u32::try_from(whole(value, "support")?).map_err(|_| "'support' is too large")?),
    };
    let need = match field(value, "need")? {
        Value::Null => None,
        need => Some((whole(need, "turns")?, whole(need, "lookups")?)),
    };
    Ok(Totals {
        reads: whole(value, "reads")?,
        bases: whole(value, "bases")?,
        kept: whole(value, "kept")?,
        written: whole(value, "written")?,
        turns: whole(value, "turns")?,
        lookups: whole(value, "lookups")?,
        attempts: whole(value, "attempts")?,
        accepted: whole(value, "accepted")?,
        support,
        sum_of_w: whole(value, "sum_of_w")?,
        passes: whole(value, "passes")?,
        calls: whole(value, "calls")?,
        need,
    })
}

/// `hatchery report`.
pub fn run(args: &cli::Report) -> Result<()> {
    let inputs: Vec<&Path> = args.files.iter().map(|path| path.as_path()).collect();
    let outputs: Vec<&Path> = args.output.iter().map(|path| path.as_path()).collect();
    output::apart(&inputs, &outputs)?;
    let parts = args.files.iter().map(|path| Report::read(path)).collect::<Result<Vec<_>>>()?;
    let reports = match args.add {
        true => {
            let mut parts = parts.into_iter();
            let mut sum = parts.next().ok_or_else(|| Error::Usage("no report".into()))?;
            parts.try_for_each(|part| sum.add(part))?;
            vec![sum]
        }
        false => parts,
    };
    if let Some(path) = &args.output {
        output::write(path, html::page(&reports).as_bytes())?;
        if path == Path::new("-") {
            return Ok(());
        }
    }
    print(&match (args.json, args.add) {
        (true, true) => reports[0].json_text(),
        (true, false) => format!("{:#}\n", Value::Array(reports.iter().map(Report::json).collect())),
        (false, _) => reports.iter().map(Report::words).collect::<Vec<_>>().join("\n"),
    })
}
