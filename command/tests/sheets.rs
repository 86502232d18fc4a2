//! `hatchery edits` and `hatchery bridge`.
mod common;
use common::{sample, Folder};
use serde_json::Value;

fn sampled(name: &str) -> Folder {
    let folder = Folder::new(name);
    std::fs::copy(sample("solid.set"), folder.path("solid.set")).unwrap();
    folder
}

#[test]
fn edits() {
    let folder = sampled("edits");
    folder.write("good", "AACGCCG\tAACTCCG\t3:1:T\nAACTCCG\tAACTCCG\t\nAACTCCG\tAACTCCG\nAACCCG\tAACTCCG\t3:0:T\n");
    assert_eq!(folder.run("edits --set solid.set good").accepted().text(), "1\taccepted\n2\taccepted\n3\taccepted\n4\taccepted\n");
    folder.write("bad", "AACGCCG\tAACACCG\t3:1:A\nAACGCCG\tAACTCC\t3:1:T\nAACGCCG\tAACTCCG\t2:1:C 3:1:T\n");
    let ran = folder.run("edits --set solid.set bad").refused(1, "bad: 3 of 3 not accepted");
    let text = ran.text();
    let lines: Vec<&str> = text.lines().collect();
    assert!(lines[0].starts_with("1\trefused (19): edit 1 at position 3"), "{text}");
    assert!(lines[1].starts_with("2\trefused (19): the edits do not give the corrected read"), "{text}");
    assert!(lines[2].starts_with("3\trefused (19): edit 1 at position 2"), "{text}");
    let json: Value = serde_json::from_slice(&folder.run("edits --set solid.set bad --json").out).unwrap();
    assert_eq!((&json[1]["accepted"], &json[1]["refusal"], &json[1]["place"]), (&false.into(), &19.into(), &1.into()));
    for line in ["AACG", "A\tC\t3:1", "A\tC\tx:1:T", "A\tC\t1:1:T\tmore", "A\tC\t-1:1:T", "A\tC\t99999999999999999999:1:T"] {
        folder.write("form", line);
        folder.run("edits --set solid.set form").refused(1, "form: line 1: not READ");
    }
}

#[test]
fn bridges() {
    let folder = sampled("bridge");
    folder.write("ends", "AAC CCG 1000\nAAC\tCCG\t20\nCCG AAC 1000\nAAC AAA 1000\n");
    let ran = folder.run("bridge --set solid.set ends").refused(1, "ends: 1 of 4 refused");
    assert!(ran.text().starts_with("4\tTCCG\t40\t4\n4\tTCCG\t20\t2\n0\t-\t"), "{}", ran.text());
    assert!(ran.text().ends_with("refused (20): the second k-mer of the bridge is not solid\n"), "{}", ran.text());
    let json: Value = serde_json::from_slice(&folder.run("bridge --set solid.set ends --json").out).unwrap();
    assert_eq!((&json[0]["moves"], &json[0]["letters"], &json[0]["stopped"]), (&4.into(), &"TCCG".into(), &false.into()));
    for line in ["", "AAC CCG", "AACC CCG 5", "AAN CCG 5", "AAC CCG x", "AAC CCG 5 6"] {
        folder.write("form", format!("{line}\n"));
        folder.run("bridge --set solid.set form").refused(1, "form: line 1: not two k-mers of 3 letters");
    }
}
