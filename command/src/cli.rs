//! The command line.
use crate::job::Entries;
use clap::{Args, Parser, Subcommand};
use std::path::PathBuf;

/// Corrects DNA reads against a set of k-mers that are known to be good.
///
/// First count the k-mers of your reads (jellyfish or KMC), make a set of those that are frequent enough (`hatchery set`), then correct
/// (`hatchery correct`). Every call that corrects, counts or makes a set is one of a library that is proved to follow its rules; this command
/// reads and writes files around it.
///
/// Exit status: 0, 1 where something was refused or failed, 2 for wrong usage.
#[derive(Parser, Debug)]
#[command(name = "hatchery", version, max_term_width = 110)]
pub struct Cli {
    #[command(subcommand)]
    pub command: Command,
}

#[derive(Subcommand, Debug)]
pub enum Command {
    Set(MakeSet),
    Open(Open),
    Correct(Correct),
    Needs(Needs),
    Solid(Solid),
    Edits(Edits),
    Bridge(Bridge),
    Report(Report),
    Split(Split),
}

/// Makes a set from k-mer counts
///
/// Makes a set from k-mer counts, as jellyfish or KMC print them, in any order, plain or gzip:
///
///   jellyfish dump            >COUNT on a line, the k-mer on the next
///   jellyfish dump -c         KMER COUNT
///   kmc_tools transform .. dump    KMER<tab>COUNT
///   any other program         KMER,COUNT
///
/// Letters are A, C, G, T. The counts of a k-mer and its reverse complement are added (and held at
/// 9,999,999,999), so it does not matter whether both strands were counted together. A k-mer is kept
/// if that sum is at least LEAST. A set holds 16,777,216 keys; where more would be kept, nothing is
/// written, and a histogram is printed with the smallest LEAST that fits. Each line of counts takes
/// 16 bytes of memory.
///
/// What the counters leave out before:
///   jellyfish count   K-mers with other letters than A, C, G, T. Without -C each strand is counted
///                     by itself (they are added here). With --bf-size or --bc, k-mers seen once.
///   jellyfish dump    Nothing, unless -L or -U say so.
///   kmc               K-mers seen once (-ci2; -ci1 has all) and those seen over 1,000,000,000 times
///                     (-cx1e9). Counts are held at 255 (-cs255), so that nothing is kept of them
///                     with a LEAST over 255: use -cs4294967295.
///
/// Example:
///   jellyfish count -C -m 21 -s 100M reads.fa
///   jellyfish dump -c mer_counts.jf | hatchery set --k 21 --least 3 - -o solid.set
#[derive(Args, Debug)]
#[command(name = "set", verbatim_doc_comment)]
pub struct MakeSet {
    /// The length of the k-mers: odd, from 1 to 31
    #[arg(long = "k", value_name = "K")]
    pub k: usize,
    /// The smallest count of a k-mer that is kept
    #[arg(long, value_name = "LEAST")]
    pub least: u64,
    /// K-mer counts, `-` for standard input
    #[arg(value_name = "COUNTS")]
    pub input: PathBuf,
    /// The set to write
    #[arg(short, long, value_name = "SET")]
    pub output: PathBuf,
    /// Also write the keys' counts, 32 bits each, little-endian, larger ones held at 4,294,967,295; `correct --counts` tells support by them
    #[arg(long, value_name = "FILE")]
    pub counts: Option<PathBuf>,
    /// Also write the set's index; `correct --index` spares each call a walk over all keys by it
    #[arg(long, value_name = "FILE")]
    pub index: Option<PathBuf>,
}

/// Checks a set: prints its k and its number of keys, or why it is refused and where.
#[derive(Args, Debug)]
pub struct Open {
    /// The set
    pub set: PathBuf,
    /// Print JSON: file, k, n and check (CRC-32 of the file)
    #[arg(long)]
    pub json: bool,
}

// The set, what is offered with it, and the job. (No doc comments here: they would stand as the subcommand's own.)
#[derive(Args, Debug)]
pub struct Given {
    /// The set of solid k-mers, made by `hatchery set`
    #[arg(long, value_name = "FILE")]
    pub set: PathBuf,
    /// The set's index, made with it: calls then take less time, and change nothing else
    #[arg(long, value_name = "FILE")]
    pub index: Option<PathBuf>,
    /// The keys' counts, made with the set: the report then tells the support, and nothing else changes
    #[arg(long, value_name = "FILE")]
    pub counts: Option<PathBuf>,
    /// Methods with their confirms, each reading the result of the one before: one, two, graph, gapsize; confirm 1 to 255 says how many bases behind
    /// a correction must agree (graph takes none). At most 8, for example two:7,one:3
    #[arg(long, value_name = "JOB")]
    pub job: Entries,
}

// The reads, and how they are read.
#[derive(Args, Debug)]
pub struct Reads {
    /// FASTA or FASTQ, plain or gzip, `-` for standard input
    #[arg(value_name = "READS", required = true)]
    pub files: Vec<PathBuf>,
    /// The input is plain lines, a read on each
    #[arg(long)]
    pub lines: bool,
    /// How many threads correct; as many as there are cores if not given
    #[arg(long, value_name = "N", value_parser = clap::value_parser!(u16).range(1..=1024))]
    pub threads: Option<u16>,
}

/// Corrects reads.
///
/// Reads are FASTA or FASTQ (which of them is seen from the first byte; qualities are dropped), plain or gzip with any number of members, several files one
/// behind the other, or plain lines with --lines. What comes out is FASTA with lines of 80 letters, or lines with --lines, in the order of the
/// input. Names stay as they are. Letters other than A, C, G, T, U (also in lower case) are unknown: they are kept, and never looked up.
///
/// The output appears under its name only when it is whole; until then it is written beside it, with `.part-` and a number behind the name. To
/// standard output whole parts go, in order. CRLF line ends become LF; a last line without its end gets one.
///
/// A record of over 1,048,576 bytes, or whose result is longer, is refused. It is named, and the run stops with exit status 1; with --keep-long it comes
/// out as it went in and is counted. Regular files are looked through for such records before anything is corrected.
///
/// The report goes to standard error in words, and to --report as JSON; `hatchery report` makes a page of it.
///
/// Example: hatchery correct --set solid.set --job two:7,one:3 reads.fastq.gz -o corrected.fasta --report report.json
#[derive(Args, Debug)]
pub struct Correct {
    #[command(flatten)]
    pub given: Given,
    #[command(flatten)]
    pub reads: Reads,
    /// Where corrected reads go, `-` for standard output
    #[arg(short, long, value_name = "FILE")]
    pub output: PathBuf,
    /// Where the report goes as JSON
    #[arg(long, value_name = "FILE")]
    pub report: Option<PathBuf>,
    /// Records that are refused by their length come out as they went in
    #[arg(long)]
    pub keep_long: bool,
    /// With a job of one entry: ask what each part will need before it is corrected, and put that into the report (which takes longer)
    #[arg(long)]
    pub need: bool,
    /// No report in words, no progress
    #[arg(short, long)]
    pub quiet: bool,
}

/// Tells what reads will need, exactly, before they are corrected.
///
/// The job has one entry. Told are turns (bases looked at) and lookups (how often the set will be asked), and with --lines the bytes of the output;
/// then the ceilings, which hold for every set with so many keys. A run of `correct` reports just these turns and lookups.
///
/// Output: lines of a word and a number: reads, turns, lookups, bytes (with --lines), ceiling-turns, ceiling-lookups.
#[derive(Args, Debug)]
pub struct Needs {
    #[command(flatten)]
    pub given: Given,
    #[command(flatten)]
    pub reads: Reads,
    /// Print JSON
    #[arg(long)]
    pub json: bool,
}

/// Tells which share of the reads' k-mers is in the set.
///
/// Output: a line for each file, with tabs between: k-mers, solid ones among them, their share in per cent, the file. A k-mer with another letter than A, C, G,
/// T, U is counted and not solid.
#[derive(Args, Debug)]
pub struct Solid {
    /// The set of solid k-mers
    #[arg(long, value_name = "FILE")]
    pub set: PathBuf,
    #[command(flatten)]
    pub reads: Reads,
    /// Print JSON
    #[arg(long)]
    pub json: bool,
}

/// Judges other programs' corrections.
///
/// Each line of the input is a read, its corrected read and the edits that make the one of the other, with tabs between: READ<tab>CORRECTED<tab>EDITS. An edit is
/// POSITION:TAKEN:LETTERS: so many bases taken from a position (from 0) on, and these letters, possibly none, given for them; edits have spaces between.
/// A line is accepted if its edits give the corrected read, rise and do not overlap, leave the first k bases and the last one alone, and each k-mer is solid that
/// ends on the base before an edit, on one of its letters, or on the base after it.
///
/// Output: a line for each, the line's number, a tab, and `accepted` or why not. Exit status 1 if one is not accepted.
#[derive(Args, Debug)]
pub struct Edits {
    /// The set of solid k-mers
    #[arg(long, value_name = "FILE")]
    pub set: PathBuf,
    /// Lines of reads with their edits, `-` for standard input
    #[arg(value_name = "SHEETS")]
    pub input: PathBuf,
    /// Print JSON
    #[arg(long)]
    pub json: bool,
}

/// Seeks the shortest way between two solid k-mers.
///
/// Each line of the input is two k-mers and a budget, with spaces or tabs between: FROM TO LOOKUPS. A way has 1 to 16 moves, each to a solid successor. The search
/// stops when its lookups are used up, and then tells the shortest way that it found, and a floor: no way has fewer moves than that.
///
/// Output: a line for each, with tabs between: moves (0 if no way was found), the letters of the moves (- if none), lookups made, the floor; or why it is refused.
/// Exit status 1 if one is refused.
#[derive(Args, Debug)]
pub struct Bridge {
    /// The set of solid k-mers
    #[arg(long, value_name = "FILE")]
    pub set: PathBuf,
    /// Lines of two k-mers and a budget, `-` for standard input
    #[arg(value_name = "ENDS")]
    pub input: PathBuf,
    /// Print JSON
    #[arg(long)]
    pub json: bool,
}

/// Makes a page of reports, or adds them.
///
/// Takes what `correct --report` has written. The page (-o) has no outside parts: tables, and charts of yield, of lookups a base, and of turns and lookups
/// beside their ceilings, and beside the need where it was asked for (`correct --need`). With --add the reports are those of parts of one job (`hatchery
/// split`): their numbers are added, if set, job and version are the same. The words go to standard output, or JSON with --json.
///
/// Example: hatchery report --add parts/*.json -o report.html
#[derive(Args, Debug)]
pub struct Report {
    /// Reports
    #[arg(value_name = "REPORT", required = true)]
    pub files: Vec<PathBuf>,
    /// Add them to one
    #[arg(long)]
    pub add: bool,
    /// The page to write
    #[arg(short, long, value_name = "PAGE")]
    pub output: Option<PathBuf>,
    /// Print JSON instead of words: the sum with --add, else a list
    #[arg(long)]
    pub json: bool,
}

/// Cuts reads at record ends into files of about the same length.
///
/// Records come out as they went in, FASTQ with its qualities, with line ends LF. Corrected one by one and joined in order, the files give just what the whole
/// gives; their reports add (`hatchery report --add`). There are as many files as asked for; the last may be empty. The input must be regular files, since it
/// is read twice, and all of one format.
///
/// Example: hatchery split --ways 8 reads.fa -o parts/{}.fa     writes parts/0.fa to parts/7.fa
#[derive(Args, Debug)]
pub struct Split {
    /// Reads: FASTA or FASTQ, plain or gzip
    #[arg(value_name = "READS", required = true)]
    pub files: Vec<PathBuf>,
    /// The input is plain lines, a read on each
    #[arg(long)]
    pub lines: bool,
    /// How many files
    #[arg(long, value_name = "N", value_parser = clap::value_parser!(u32).range(1..=1_000_000))]
    pub ways: u32,
    /// Their names, with {} where the number goes, from 0, with zeros in front so that all have as many digits
    #[arg(short, long, value_name = "NAMES")]
    pub output: String,
}
