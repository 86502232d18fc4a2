//! `hatchery split`, and that parts give what the whole gives; `hatchery needs`, `solid` and `report`.
mod common;
use common::{fasta, gzip, reads, sample, with_set, Folder};
use serde_json::Value;

/// What must be the same, however the input was cut.
fn sums(report: &Value) -> Vec<Value> {
    let names =
        ["set", "job", "hatchery", "reads", "kept", "bases", "written", "turns", "lookups", "attempts", "accepted", "yield", "support", "sum_of_w"];
    let more = ["lookups_a_base", "lookups_left", "passes", "ceiling", "need"];
    names.iter().chain(&more).map(|name| report[*name].clone()).collect()
}

fn split(name: &str, form: &str, text: Vec<u8>, set: (Folder, &str)) {
    let (folder, job) = set;
    folder.write("reads", text);
    let correct = format!("correct --set solid.set --counts solid.counts --job {job} -q {form}");
    folder.run(&format!("{correct} reads -o whole --report whole.json")).accepted();
    let (whole, report) = (folder.read("whole"), folder.json("whole.json"));
    assert!(report["sum_of_w"].as_u64() > Some(0) && report["accepted"].as_u64() > Some(0), "{report}");
    for ways in [1_usize, 2, 7, 64] {
        folder.run(&format!("split --ways {ways} {form} reads -o {name}{ways}.{{}}")).accepted();
        let digits = (ways - 1).to_string().len();
        let (mut joined, mut reports) = (Vec::new(), String::new());
        for i in 0..ways {
            let part = format!("{name}{ways}.{i:0digits$}");
            folder.run(&format!("{correct} {part} -o {part}.out --report {part}.json")).accepted();
            joined.extend(folder.read(&format!("{part}.out")));
            reports += &format!(" {part}.json");
        }
        assert!(joined == whole, "{ways} ways");
        let added = folder.run(&format!("report --add --json {reports} -o page.html")).accepted();
        assert_eq!(sums(&serde_json::from_slice(&added.out).unwrap()), sums(&report), "{ways} ways");
    }
}

#[test]
fn fasta_in_1_2_7_and_64_ways() {
    let (folder, genome, mut random) = with_set("split_fasta", 21);
    let text = fasta(&reads(&mut random, &genome, 500, 300));
    split("part", "", text, (folder, "two:7,one:3"));
}

#[test]
fn lines_in_1_2_7_and_64_ways() {
    let (folder, genome, mut random) = with_set("split_lines", 21);
    let text = [reads(&mut random, &genome, 300, 300).join(&b'\n'), b"\n".to_vec()].concat();
    split("part", "--lines", text, (folder, "gapsize:3"));
}

#[test]
fn parts_are_the_whole() {
    let folder = Folder::new("split_bytes");
    let text: String = (0..40).map(|i| format!("@r{i}\nACGT\n+\nIIII\n")).collect();
    folder.write("reads.fq.gz", gzip(text.as_bytes()));
    folder.run("split --ways 7 reads.fq.gz -o part{}.fq").accepted();
    let joined: String = (0..7).map(|i| folder.text(&format!("part{i}.fq"))).collect();
    assert_eq!(joined, text);
    folder.write("one", ">a\nACGT");
    folder.run("split --ways 3 one -o one{}").accepted();
    let all: String = (0..3).map(|i| folder.text(&format!("one{i}"))).collect();
    assert_eq!(all, ">a\nACGT\n");
    folder.write("none", "");
    folder.run("split --ways 3 none -o none{}").accepted();
    assert_eq!(folder.text("none2"), "");
    folder.run("split --ways 3 one -o parts").refused(2, "lacks {}");
    folder.run("split --ways 3 one reads.fq.gz -o parts{}").refused(1, "is FASTQ, files before it are not");
    folder.run("split --ways 3 - -o parts{}").refused(1, "is no regular file");
    folder.run("split --ways 0 one -o parts{}").refused(2, "");
}

#[test]
fn needs_are_what_the_report_says() {
    let (folder, genome, mut random) = with_set("needs", 21);
    let all = reads(&mut random, &genome, 1500, 300);
    folder.write("reads.fa", fasta(&all));
    folder.write("reads.txt", [all.join(&b'\n'), b"\n".to_vec()].concat());
    for job in ["one:3", "two:2", "graph", "gapsize:4"] {
        for (file, form) in [("reads.fa", ""), ("reads.txt", "--lines")] {
            let told: Value =
                serde_json::from_slice(&folder.run(&format!("needs --set solid.set --job {job} {form} {file} --json")).accepted().out).unwrap();
            folder.run(&format!("correct --set solid.set --job {job} {form} {file} -o out --need --report report.json -q")).accepted();
            let report = folder.json("report.json");
            assert_eq!((&told["turns"], &told["lookups"], &told["reads"]), (&report["turns"], &report["lookups"], &report["reads"]), "{job}");
            assert_eq!((&report["need"]["turns"], &report["need"]["lookups"]), (&report["turns"], &report["lookups"]), "{job}");
            assert_eq!((&told["ceiling_turns"], &told["ceiling_lookups"]), (&report["ceiling"]["turns"], &report["ceiling"]["lookups"]), "{job}");
            let bytes = folder.read("out").len();
            assert_eq!(told["bytes"], if form.is_empty() { Value::Null } else { bytes.into() });
        }
    }
    folder.run("needs --set solid.set --job one:3,two:2 reads.fa").refused(2, "jobs of one entry");
    let words = folder.run("needs --set solid.set --job one:3 --lines reads.txt").accepted().text();
    let names: Vec<&str> = words.lines().map(|line| line.split(' ').next().unwrap()).collect();
    assert_eq!(names, ["reads", "turns", "lookups", "bytes", "ceiling-turns", "ceiling-lookups"]);
}

#[test]
fn share_of_solid_kmers() {
    let folder = Folder::new("solid");
    std::fs::copy(sample("solid.set"), folder.path("solid.set")).unwrap();
    // AAC, ACT, CTC, TCC, CCG are solid; ACC and AAN are not; two reads are shorter than k.
    folder.write("a.fa", ">1\nAACT\nCCG\n>2\nAA\n>3\nAACC\n>4\n\n>5\nAAN\n");
    folder.write("b.fa", "");
    assert_eq!(folder.run("solid --set solid.set a.fa b.fa").accepted().text(), "8\t6\t75.000\ta.fa\n0\t0\t-\tb.fa\n");
    let json: Value = serde_json::from_slice(&folder.run("solid --set solid.set a.fa --json").accepted().out).unwrap();
    assert_eq!((&json[0]["kmers"], &json[0]["solid"], &json[0]["per_cent"]), (&8.into(), &6.into(), &75.0.into()));
    folder.write("c", "AACTCCG\nAA\nAACC\n\nAAN");
    assert_eq!(folder.run("solid --set solid.set --lines c").accepted().text(), "8\t6\t75.000\tc\n");
}

#[test]
fn reports() {
    let (folder, genome, mut random) = with_set("reports", 21);
    folder.write("a<b>.fa", fasta(&reads(&mut random, &genome, 100, 300)));
    folder.write("b.fa", fasta(&reads(&mut random, &genome, 100, 300)));
    folder.run("correct --set solid.set --job one:3 a<b>.fa -o out1 --report a.json --need -q").accepted();
    folder.run("correct --set solid.set --job one:3 b.fa -o out2 --report b.json -q").accepted();
    folder.run("correct --set solid.set --job one:4 b.fa -o out2 --report c.json -q").accepted();
    folder.run("report a.json b.json -o page.html").accepted();
    let page = folder.text("page.html");
    assert!(page.contains("a&lt;b&gt;.fa") && !page.contains("a<b>") && page.contains("need ") && page.ends_with("</html>\n"));
    assert!(!page.contains("http") && !page.contains("<script") && !page.contains("<link"));
    folder.run("report a.json c.json --add").refused(1, "reports of different jobs");
    folder.write("d.json", "{}");
    folder.run("report d.json").refused(1, "d.json: no report of hatchery correct: 'set' is missing");
    folder.write("e.json", "nothing");
    folder.run("report e.json").refused(1, "e.json: no report");
    let mut huge = folder.json("b.json");
    for name in ["turns", "lookups", "attempts", "accepted", "sum_of_w", "passes", "reads", "bases"] {
        huge[name] = u64::MAX.into();
    }
    folder.write("huge.json", huge.to_string());
    folder.run("report huge.json b.json --add -o huge.html").accepted();
    folder.run("report a.json -o a.json").refused(1, "is the input");
}
