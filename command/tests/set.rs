//! `hatchery set` and `hatchery open`.
mod common;
use common::{gzip, sample, Folder};
use std::fs;

const LINES: [(&str, u64); 5] = [("TCC", 8), ("ACT", 9), ("AAC", 5), ("CCG", 4), ("CTC", 7)];

fn all(form: impl Fn(&str, u64) -> String) -> String {
    LINES.iter().map(|(kmer, count)| form(kmer, *count)).collect()
}

#[test]
fn every_form_gives_the_sample() {
    let folder = Folder::new("forms");
    let forms = [
        all(|kmer, count| format!("{kmer},{count}\n")),
        all(|kmer, count| format!("{kmer} {count}\n")),
        all(|kmer, count| format!("{kmer}\t{count}\n")),
        all(|kmer, count| format!(">{count}\n{kmer}\n")),
        all(|kmer, count| format!("{kmer},{count}\r\n")),
        all(|kmer, count| format!("{},{count}\n", kmer.to_lowercase())),
        all(|kmer, count| format!("{kmer} {count}\n")).trim_end().to_string(),
    ];
    for text in forms {
        folder.write("counts", &text);
        folder.run("set --k 3 --least 1 counts -o made.set --counts made.counts --index made.index").accepted();
        assert_eq!(folder.read("made.set"), fs::read(sample("solid.set")).unwrap(), "{text}");
        let counts: Vec<u8> = [9_u32, 4, 7, 5, 8].into_iter().flat_map(u32::to_le_bytes).collect();
        assert_eq!(folder.read("made.counts"), counts);
        assert_eq!(folder.read("made.index").len(), 1024);
        folder.run_with("set --k 3 --least 1 - -o piped.set", text.as_bytes()).accepted();
        assert_eq!(folder.read("piped.set"), folder.read("made.set"));
    }
    folder.write("counts.gz", gzip(all(|kmer, count| format!("{kmer} {count}\n")).as_bytes()));
    folder.run("set --k 3 --least 1 counts.gz -o zipped.set").accepted();
    assert_eq!(folder.read("zipped.set"), folder.read("made.set"));
}

#[test]
fn strands_are_added_before_the_least_is_asked() {
    let folder = Folder::new("strands");
    // AAC and GTT are one key: 2 + 2 is kept, ACT's 3 is not.
    folder.write("counts", "AAC,2\nACT,3\nGTT,2\n");
    let ran = folder.run("set --k 3 --least 4 counts -o made.set --counts made.counts").accepted();
    assert!(
        ran.err.contains("3 k-mers, 2 of them distinct (both strands together): 1 kept with a count of at least 4, 1 passed over"),
        "{}",
        ran.err
    );
    assert_eq!(folder.read("made.counts"), 4_u32.to_le_bytes());
    folder.write("counts", "AAC,9999999999\nGTT,99999999999999999999999\n");
    folder.run("set --k 3 --least 9999999999 counts -o made.set --counts made.counts").accepted();
    assert_eq!(folder.read("made.counts"), u32::MAX.to_le_bytes());
}

#[test]
fn nothing_kept_is_a_set_without_keys() {
    let folder = Folder::new("nothing");
    folder.write("counts", "");
    folder.run("set --k 21 --least 3 counts -o made.set").accepted();
    assert_eq!(folder.run("open made.set").accepted().text(), "made.set: k 21, 0 keys\n");
}

#[test]
fn wrong_counts_are_named_by_their_line() {
    let folder = Folder::new("lines");
    for (text, said) in [
        ("ACT,9\nAC,1\n", "counts: line 2: the k-mer has 2 letters, --k says 3"),
        ("ACT,9\n\nACN,1\n", "counts: line 3: the k-mer has other letters"),
        ("ACT\n", "counts: line 1: neither a k-mer and its count"),
        ("ACT,\n", "counts: line 1: the count is no whole number"),
        ("ACT,-1\n", "counts: line 1: the count is no whole number"),
        ("ACT 9 8\n", "counts: line 1: the count is no whole number"),
        (">9\nACT\n>7\n", "counts: line 3: the file ends behind a count"),
        ("\0\u{1}\u{2}", "counts: line 1:"),
    ] {
        folder.write("counts", text);
        folder.run("set --k 3 --least 1 counts -o made.set").refused(1, said);
    }
    folder.run("set --k 4 --least 1 counts -o made.set").refused(2, "k must be odd");
    folder.run("set --k 33 --least 1 counts -o made.set").refused(2, "k must be odd");
    folder.run("set --k 3 --least 1 missing -o made.set").refused(1, "missing: No such file");
    folder.run("set --k 3 --least 1 counts -o counts").refused(1, "is the input counts too");
    folder.run("set --k 3 counts -o made.set").refused(2, "--least");
    assert_eq!(folder.files(), ["counts"]);
}

#[test]
fn a_set_is_refused_in_words() {
    let folder = Folder::new("open");
    let set = fs::read(sample("solid.set")).unwrap();
    folder.write("good", &set);
    assert_eq!(folder.run("open good").accepted().text(), "good: k 3, 5 keys\n");
    let json: serde_json::Value = serde_json::from_slice(&folder.run("open good --json").accepted().out).unwrap();
    assert_eq!((json["k"].as_u64(), json["n"].as_u64()), (Some(3), Some(5)));
    folder.write("cut", &set[..set.len() - 1]);
    folder.run("open cut").refused(1, "cut: refused (7)");
    folder.write("empty", b"");
    folder.run("open empty").refused(1, "empty: refused (7)");
    let mut damaged = set.clone();
    damaged[520] ^= 1;
    folder.write("damaged", &damaged);
    folder.run("open damaged").refused(1, "damaged: refused (8): block 1 (bytes 512 to 1023)");
    folder.write("one block", &set[..512]);
    folder.write("header", &set[..512]);
    folder.run("open header").refused(1, "header: refused (9)");
    folder.run("open missing").refused(1, "missing: No such file");
    folder.run("open .").refused(1, "is a folder");
    folder.run("open").refused(2, "");
}
