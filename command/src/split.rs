//! `hatchery split`: files cut at record ends.
use crate::cli::Split;
use crate::error::{at_path, failed, say, usage, Result};
use crate::input::Position;
use crate::output::{self, Output};
use crate::parts::is_regular;
use crate::records::{Form, Records};
use crate::words::number;
use std::path::{Path, PathBuf};

/// The name of each file.
fn names(pattern: &str, ways: u32) -> Result<Vec<PathBuf>> {
    let Some((before, behind)) = pattern.split_once("{}") else { return usage(format!("-o {pattern}: lacks {{}} where the number goes")) };
    let digits = (ways - 1).to_string().len();
    Ok((0..ways).map(|number| PathBuf::from(format!("{before}{number:0digits$}{behind}"))).collect())
}

/// Every record of the files, with its bytes.
fn each(args: &Split, mut take: impl FnMut(&[u8]) -> Result<()>) -> Result<()> {
    let (mut bytes, mut form) = (Vec::new(), None);
    for file in &args.files {
        let mut records = Records::open(file, args.lines, true, &Position::default())?;
        bytes.clear();
        while records.next(&mut bytes)?.is_some() {
            if *form.get_or_insert(records.form) != records.form {
                return failed(format!("{}: is {}, files before it are not; split each format by itself", records.source.name, of(records.form)));
            }
            take(&bytes)?;
            bytes.clear();
        }
    }
    Ok(())
}

fn of(form: Form) -> &'static str {
    match form {
        Form::Fasta => "FASTA",
        Form::Fastq => "FASTQ",
        Form::Lines => "lines",
    }
}

pub fn run(args: &Split) -> Result<()> {
    let names = names(&args.output, args.ways)?;
    let inputs: Vec<&Path> = args.files.iter().map(|path| path.as_path()).collect();
    if let Some(other) = inputs.iter().find(|file| !is_regular(file)) {
        return failed(format!("{}: is no regular file; split reads its input twice", other.display()));
    }
    if let Some(folder) = names[0].parent() {
        std::fs::create_dir_all(folder).map_err(at_path(folder))?;
    }
    for name in &names {
        output::apart(&inputs, &[name.as_path()])?;
    }
    let mut total = 0_u128;
    each(args, |record| {
        total += record.len() as u128;
        Ok(())
    })?;
    let ways = u128::from(args.ways);
    let (mut done, mut records, mut number_of) = (0_u128, 0_u64, 0_u128);
    let mut files = names.iter();
    let mut current: Option<Output> = None;
    each(args, |record| {
        // The file in which the record's first byte lies, if all were of one length; each record goes on from the one before.
        let at = if total == 0 { 0 } else { (done * ways / total).min(ways - 1) };
        while current.is_none() || number_of <= at {
            let Some(name) = files.next() else { break };
            if let Some(full) = current.replace(Output::create(name)?) {
                full.finish()?;
            }
            number_of += 1;
        }
        done += record.len() as u128;
        records += 1;
        match &mut current {
            Some(output) => output.write(record),
            None => Ok(()),
        }
    })?;
    if let Some(last) = current {
        last.finish()?;
    }
    files.try_for_each(|name| output::write(name, b""))?;
    say(format!("{} records in {} files", number(records), args.ways));
    Ok(())
}
