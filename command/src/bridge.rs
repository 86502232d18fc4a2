//! `hatchery bridge`: the shortest way between two k-mers.
use crate::cli;
use crate::error::{failed, Result};
use crate::input::{Position, Source};
use crate::lent::SetFile;
use crate::output::print;
use crate::words::of_call;
use corrector::{Bridge, Refusal};
use serde_json::{json, Value};

/// A line of the input: the codes of two k-mers, and the lookups that may be made.
fn ends(line: &[u8], k: usize) -> Option<(u64, u64, u64)> {
    let mut words = line.split(|byte| byte.is_ascii_whitespace()).filter(|word| !word.is_empty());
    let mut kmer = || words.next().filter(|kmer| kmer.len() == k).and_then(corrector::code);
    let (from, to) = (kmer()?, kmer()?);
    let budget = std::str::from_utf8(words.next()?).ok()?.parse().ok()?;
    words.next().is_none().then_some((from, to, budget))
}

fn letters(bridge: &Bridge) -> Option<String> {
    bridge.chain().map(|chain| String::from_utf8_lossy(chain).into_owned())
}

fn words(found: &std::result::Result<Bridge, Refusal>) -> String {
    match found {
        Ok(bridge) => {
            let moves = bridge.chain().map_or(0, |chain| chain.len());
            format!("{moves}\t{}\t{}\t{}\n", letters(bridge).unwrap_or("-".into()), bridge.lookups, bridge.floor)
        }
        Err(refusal) => format!("{}\n", of_call(*refusal)),
    }
}

fn json(line: u64, found: &std::result::Result<Bridge, Refusal>) -> Value {
    match found {
        Ok(bridge) => json!({
            "line": line, "moves": bridge.chain().map_or(0, |chain| chain.len()), "letters": letters(bridge),
            "lookups": bridge.lookups, "floor": bridge.floor, "stopped": bridge.stopped(),
        }),
        Err(refusal) => json!({ "line": line, "refusal": refusal.number(), "place": refusal.place(), "words": refusal.to_string() }),
    }
}

pub fn run(args: &cli::Bridge) -> Result<()> {
    let set = SetFile::read(&args.set)?;
    let mut source = Source::open(&args.input, &Position::default())?;
    let (mut line, mut text, mut all, mut refused) = (Vec::new(), String::new(), Vec::new(), 0);
    loop {
        line.clear();
        if !source.line(&mut line)? {
            break;
        }
        let k = set.header.k;
        let Some((from, to, budget)) = ends(&line, k) else {
            return failed(format!("{}: line {}: not two k-mers of {k} letters and a number of lookups", source.name, source.lines));
        };
        let found = corrector::bridge(set.bytes(), from, to, budget);
        refused += u64::from(found.is_err());
        match args.json {
            true => all.push(json(source.lines, &found)),
            false => text += &words(&found),
        }
    }
    print(&if args.json { format!("{:#}\n", Value::Array(all)) } else { text })?;
    match refused {
        0 => Ok(()),
        _ => failed(format!("{}: {refused} of {} refused", source.name, source.lines)),
    }
}
