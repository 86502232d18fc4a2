//! `hatchery correct`: formats, files that are cut or damaged, limits, and what is left when it stops.
mod common;
use common::{fasta, gzip, reads, sample, with_set, Folder, Random};
use std::fs;
use std::io::Read;
use std::process::Stdio;
use std::time::{Duration, Instant};

const CORRECT: &str = "correct --set solid.set --job one:3 -o out";

fn sampled(name: &str) -> Folder {
    let folder = Folder::new(name);
    fs::copy(sample("solid.set"), folder.path("solid.set")).unwrap();
    folder
}

#[test]
fn lines_as_the_main_program_does() {
    let folder = sampled("lines");
    fs::copy(sample("batch"), folder.path("batch")).unwrap();
    folder.run("correct --set solid.set --job graph:1 --lines batch -o out --report report.json").accepted();
    assert_eq!(folder.text("out"), "AACTCCG\nAA\n");
    let report = folder.json("report.json");
    assert_eq!((&report["turns"], &report["lookups"], &report["written"]), (&1.into(), &21.into(), &11.into()));
    folder.run("correct --set solid.set --job two:7,one:3 --lines batch -o out --report report.json").accepted();
    assert_eq!(folder.text("out"), "AACTCCG\nAA\n");
    let report = folder.json("report.json");
    assert_eq!((&report["turns"], &report["lookups"], &report["job"]), (&8.into(), &58.into(), &"two:7,one:3".into()));
}

#[test]
fn fasta_and_fastq_and_gzip_agree() {
    let folder = sampled("forms");
    let text = b">a read\nAACG\n\nCCG\n>empty\n>b\nAA\n";
    let expected = ">a read\nAACTCCG\n>empty\n>b\nAA\n";
    folder.write("a.fa", text);
    folder.write("a.fq", b"@a read\nAACGCCG\n+\n@@@@@@@\n@empty\n\n+\n\n@b\nAA\n+b\nII\n");
    folder.write("a.fa.gz", gzip(text));
    folder.write("two.fa.gz", [gzip(&text[..10]), gzip(b""), gzip(&text[10..])].concat());
    folder.write("crlf.fa", String::from_utf8_lossy(text).replace('\n', "\r\n"));
    folder.write("unended.fa", &text[..text.len() - 1]);
    folder.write("crlf_unended.fa", b"\r\n\r\n>a read\r\nAACGCCG\r\n>empty\r\n>b\r\nAA\r");
    for file in ["a.fa", "a.fq", "a.fa.gz", "two.fa.gz", "crlf.fa", "unended.fa", "crlf_unended.fa"] {
        let ran = folder.run(&format!("correct --set solid.set --job graph {file} -o out")).accepted();
        assert_eq!(folder.text("out"), expected, "{file}");
        assert_eq!(ran.err.contains("qualities are dropped"), file == "a.fq", "{file}: {}", ran.err);
        assert_eq!(ran.err.matches("CRLF").count(), usize::from(file.starts_with("crlf")), "{file}: {}", ran.err);
    }
    let ran = folder.run("correct --set solid.set --job graph a.fa a.fq two.fa.gz -o - -q").accepted();
    assert_eq!(ran.text(), expected.repeat(3));
    let ran = folder.run_with("correct --set solid.set --job graph - -o - -q", text).accepted();
    assert_eq!(ran.text(), expected);
}

#[test]
fn long_lines_come_out_in_lines_of_eighty() {
    let (folder, genome, mut random) = with_set("eighty", 21);
    let reads = reads(&mut random, &genome, 3, 500);
    folder.write("wrapped", fasta(&reads));
    let flat: Vec<u8> = reads.iter().enumerate().flat_map(|(i, read)| [format!(">read{i} of test\n").as_bytes(), read, b"\n"].concat()).collect();
    folder.write("flat", flat);
    folder.run("correct --set solid.set --job two:5,one:3 wrapped -o out1").accepted();
    folder.run("correct --set solid.set --job two:5,one:3 flat -o out2").accepted();
    assert_eq!(folder.text("out1"), folder.text("out2"));
    assert!(folder.text("out1").lines().filter(|line| !line.starts_with('>')).all(|line| line.len() <= 80));
}

#[test]
fn empty_and_one() {
    let folder = sampled("empty");
    folder.write("none", b"");
    folder.write("none.gz", gzip(b""));
    folder.write("one", b">x\n");
    for (file, expected) in [("none", ""), ("none.gz", ""), ("one", ">x\n")] {
        folder.run(&format!("{CORRECT} {file} --report report.json")).accepted();
        assert_eq!(folder.text("out"), expected, "{file}");
    }
    for (file, expected) in [("none", ""), ("one", ">x\n")] {
        folder.run(&format!("{CORRECT} {file} --lines")).accepted();
        assert_eq!(folder.text("out"), expected, "{file}");
    }
}

#[test]
fn what_is_cut_or_damaged_is_named() {
    let (folder, genome, mut random) = with_set("damaged", 21);
    let text = fasta(&reads(&mut random, &genome, 200, 300));
    let zipped = gzip(&text);
    folder.write("cut.gz", &zipped[..zipped.len() / 2]);
    folder.run(&format!("{CORRECT} cut.gz")).refused(1, "cut.gz: line ");
    folder.write("tail.gz", &zipped[..zipped.len() - 4]);
    folder.run(&format!("{CORRECT} tail.gz")).refused(1, "tail.gz: line ");
    let mut wrong = zipped.clone();
    let middle = wrong.len() / 2;
    wrong[middle] ^= 0xff;
    folder.write("wrong.gz", &wrong);
    // What the turned byte leaves may break the form before the end shows that the file is damaged.
    folder.run(&format!("{CORRECT} wrong.gz")).refused(1, "wrong.gz: ");
    folder.write("sum.gz", {
        let mut sum = zipped.clone();
        let at = sum.len() - 6;
        sum[at] ^= 1;
        sum
    });
    folder.run(&format!("{CORRECT} sum.gz")).refused(1, "sum.gz: line ");
    folder.write("more.gz", [&zipped[..], b"more"].concat());
    folder.run(&format!("{CORRECT} more.gz")).refused(1, "more.gz: line ");
    folder.write("magic.gz", [0x1f, 0x8b]);
    folder.run(&format!("{CORRECT} magic.gz")).refused(1, "magic.gz: line 1");
    for (name, text, said) in [
        ("a.fq", "@a\nACGT\n+\nIIII\n@b\nACGT\n", "a.fq: record 2 (line 6) is cut"),
        ("b.fq", "@a\nACGT\n+\nII", "b.fq: record 1 (line 4) is cut"),
        ("c.fq", "@a\nACGT\n+\nIIIII\n", "c.fq: record 1 (line 4) has more qualities"),
        ("d.fq", "@a\nACGT\n@b\nACGT\n+\nIIII\n", "d.fq: record 1 (line 3) lacks its '+' line"),
        ("e.fq", "@a\nACGT\n+\nIIII\nACGT\n", "e.fq: record 2 (line 5) begins with another byte"),
        ("f.fq", "@a\nAC>T\n+\nIIII\n", "f.fq: record 1 (line 2) holds '>'"),
        ("a.fa", ">a\nACGT\n>b\n\nAC>GT\n", "a.fa: refused (18): line 5 holds '>'"),
        ("b.fa", "\n\nACGT\n", "b.fa: line 3 starts with 'A': neither FASTA"),
    ] {
        folder.write(name, text);
        folder.run(&format!("{CORRECT} {name}")).refused(1, said);
    }
    folder.write("random", (0..100_000).map(|_| random.next() as u8 | 0x80).collect::<Vec<u8>>());
    folder.run(&format!("{CORRECT} random")).refused(1, "random: line 1 starts with byte");
    folder.run(&format!("{CORRECT} random --lines")).accepted();
    assert_eq!(folder.read("random").len() + 1, folder.read("out").len());
    folder.run(&format!("{CORRECT} missing")).refused(1, "missing: No such file");
    folder.run(&format!("{CORRECT} .")).refused(1, "is a folder");
}

#[test]
fn what_is_offered_must_be_the_sets() {
    let (folder, genome, mut random) = with_set("offered", 21);
    folder.write("reads", fasta(&reads(&mut random, &genome, 50, 200)));
    folder.run(&format!("{CORRECT} reads --index solid.index --counts solid.counts --report report.json")).accepted();
    let with = folder.read("out");
    assert!(folder.json("report.json")["support"].is_u64());
    folder.run(&format!("{CORRECT} reads --report report.json")).accepted();
    assert_eq!(folder.read("out"), with);
    assert!(folder.json("report.json")["support"].is_null());
    let _ = fs::remove_file(folder.path("out"));
    let counts = folder.read("solid.counts");
    folder.write("short", &counts[..counts.len() - 4]);
    folder.run(&format!("{CORRECT} reads --counts short")).refused(1, "short: refused (16)");
    folder.write("cut", &counts[..counts.len() - 1]);
    folder.run(&format!("{CORRECT} reads --counts cut")).refused(1, "cut: ");
    let mut index = folder.read("solid.index");
    index[9] ^= 1;
    folder.write("other", &index);
    folder.run(&format!("{CORRECT} reads --index other")).refused(1, "other: refused (15)");
    let set = folder.read("solid.set");
    folder.write("cut.set", &set[..set.len() - 1]);
    folder.run("correct --set cut.set --job one:3 reads -o out").refused(1, "cut.set: refused (7)");
    for job in ["one", "one:0", "three:3", "one:3,", "one:300"] {
        folder.run(&format!("correct --set solid.set --job {job} reads -o out")).refused(2, "");
    }
    assert!(!folder.path("out").exists());
}

#[test]
fn long_records() {
    let (folder, genome, mut random) = with_set("long", 21);
    let mut all = reads(&mut random, &genome, 20, 1000);
    all.insert(7, random.bases(2_000_000));
    let text = fasta(&all);
    folder.write("reads", &text);
    folder.run(&format!("{CORRECT} reads")).refused(1, "reads: record 8 is refused (1)");
    folder.run_with(&format!("{CORRECT} -"), &text).refused(1, "standard input: record 8 is refused (1)");
    assert!(!folder.path("out").exists());
    let ran = folder.run(&format!("{CORRECT} reads --keep-long --report report.json")).accepted();
    assert!(ran.err.contains("1 record came out as it went in"), "{}", ran.err);
    let report = folder.json("report.json");
    assert_eq!((&report["reads"], &report["kept"]), (&20.into(), &1.into()));
    // What went in, without its neighbours.
    let kept = fasta(&all[7..8]).split(|byte| *byte == b'\n').skip(1).collect::<Vec<_>>().join(&b'\n');
    let out = folder.read("out");
    let start = out.windows(8).position(|bytes| bytes == b">read7 o").unwrap();
    let behind = start + out[start..].iter().position(|byte| *byte == b'\n').unwrap() + 1;
    assert!(out[behind..].starts_with(&kept));
    // As lines, too; and a result that is longer than its read.
    let lines = all.join(&b'\n');
    folder.write("lines", lines);
    folder.run(&format!("{CORRECT} lines --lines")).refused(1, "lines: line 8 is refused (1)");
    folder.run(&format!("{CORRECT} lines --lines --keep-long")).accepted();
    let flat = [b">flat\n".to_vec(), random.bases(1_048_500), b"\n".to_vec()].concat();
    folder.write("flat", flat);
    folder.run(&format!("{CORRECT} flat -q")).refused(1, "flat: record 1 is refused (11)");
    folder.run(&format!("{CORRECT} flat -q --keep-long")).accepted();
    assert_eq!(folder.read("out"), folder.read("flat"));
}

#[test]
fn outputs_that_cannot_be() {
    let folder = sampled("outputs");
    let reads = folder.write("reads", b">a\nAACGCCG\n");
    fs::hard_link(&reads, folder.path("linked")).unwrap();
    std::os::unix::fs::symlink("reads", folder.path("symbolic")).unwrap();
    for output in ["reads", "./reads", "linked", "symbolic", "solid.set"] {
        folder.run(&format!("correct --set solid.set --job one:3 reads -o {output}")).refused(1, "is the input");
    }
    folder.run("correct --set solid.set --job one:3 reads -o out --report out").refused(1, "is the output");
    folder.run("correct --set solid.set --job one:3 reads -o missing/out").refused(1, "missing/out");
    folder.run("correct --set solid.set --job one:3 reads -o .").refused(2, "is a folder");
    folder.run("correct --set solid.set --job one:3 reads -o /dev/full").refused(1, "/dev/full: No space left on device");
    folder.run("correct --set solid.set --job one:3 reads -o /dev/null").accepted();
    assert_eq!(folder.text("reads"), ">a\nAACGCCG\n");
    assert_eq!(folder.files(), ["linked", "reads", "solid.set", "symbolic"]);
}

#[test]
fn a_closed_pipe_is_no_panic() {
    let (folder, genome, mut random) = with_set("pipe", 21);
    folder.write("reads", fasta(&reads(&mut random, &genome, 20_000, 500)));
    let mut child =
        folder.command("correct --set solid.set --job one:3 reads -o - -q").stdout(Stdio::piped()).stderr(Stdio::piped()).spawn().unwrap();
    let mut first = [0; 100];
    let mut out = child.stdout.take().unwrap();
    out.read_exact(&mut first).unwrap();
    drop(out);
    let ended = child.wait_with_output().unwrap();
    let said = String::from_utf8_lossy(&ended.stderr);
    assert_eq!(ended.status.code(), Some(1), "{said}");
    assert!(said.contains("standard output: closed by its reader"), "{said}");
}

#[test]
fn killed_in_the_middle_leaves_no_half_file() {
    let (folder, genome, mut random) = with_set("killed", 21);
    folder.write("reads", fasta(&reads(&mut random, &genome, 40_000, 1000)));
    folder.write("out", b"what was there before");
    let mut child = folder.command(&format!("{CORRECT} reads -q --threads 1")).stderr(Stdio::piped()).spawn().unwrap();
    let started = Instant::now();
    let half = |folder: &Folder| {
        folder.files().iter().any(|file| file.starts_with("out.part-") && fs::metadata(folder.path(file)).is_ok_and(|found| found.len() > 0))
    };
    while !half(&folder) && started.elapsed() < Duration::from_secs(60) {
        std::thread::sleep(Duration::from_millis(5));
    }
    let running = child.try_wait().unwrap().is_none();
    child.kill().unwrap();
    child.wait().unwrap();
    assert!(running && half(&folder), "it was to be killed in the middle");
    assert_eq!(folder.text("out"), "what was there before");
}

#[test]
fn threads_change_nothing() {
    let (folder, genome, mut random) = with_set("threads", 21);
    folder.write("reads", fasta(&reads(&mut random, &genome, 10_000, 150)));
    folder.run(&format!("{CORRECT} reads -q --threads 1 --report one.json")).accepted();
    let one = folder.read("out");
    folder.run(&format!("{CORRECT} reads -q --threads 5 --report five.json")).accepted();
    assert_eq!(folder.read("out"), one);
    let (a, b) = (folder.json("one.json"), folder.json("five.json"));
    for name in ["reads", "bases", "turns", "lookups", "attempts", "accepted", "yield", "sum_of_w", "calls", "inputs"] {
        assert_eq!(a[name], b[name], "{name}");
    }
    assert_eq!(a["reads"], 10_000);
    folder.run(&format!("{CORRECT} reads --threads 0")).refused(2, "--threads");
}

#[test]
fn random_bytes_never_panic() {
    let (folder, mut random) = (sampled("random"), Random::new(11));
    for round in 0..60 {
        let letters: &[u8] = [&b">@+\n\r AC"[..], &b">\nACGTN"[..], &b"@\n+ACGI"[..]][round % 3];
        let length = random.below(400);
        folder.write("reads", (0..length).map(|_| letters[random.below(letters.len())]).collect::<Vec<u8>>());
        for form in ["", "--lines"] {
            let ran = folder.run(&format!("correct --set solid.set --job graph,one:1,two:1,gapsize:1 reads -o out -q {form}"));
            assert!(ran.status == 0 || ran.status == 1, "{}: {}", ran.status, ran.err);
        }
    }
}
