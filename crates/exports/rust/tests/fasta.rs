//! FASTA in and out: document 02, W11.
mod common;

use common::{keys_of, sample_set, set_of, Rng};
use corrector::{correct_batch, correct_fasta, correct_read, make_index, work_length, Job, Refusal, Report};
use corrector::{MAX_INPUT, MAX_OUTPUT, MAX_RECORDS, MAX_WORK};

const FILL: u8 = 170;
const ONE: &[u8] = &[1, 1];
const GRAPH: &[u8] = &[3, 1];

/// A call on buffers that were filled before it: its report and output; every other lent byte is as document 01 says.
fn called(set: &[u8], job: &[u8], file: &[u8], room: usize) -> Result<(Report, Vec<u8>), Refusal> {
    let (mut output, mut work) = (vec![FILL; room], vec![FILL; work_length(room, file.len())]);
    let answer = correct_fasta(set, None, None, Job::from_bytes(job), file, &mut output, &mut work);
    let rest = match answer {
        Err(refusal) if refusal.number() != 11 => FILL,
        _ => 0,
    };
    let written = answer.map_or(0, |report| report.written);
    assert!(output[written..].iter().chain(&work).all(|byte| *byte == rest));
    output.truncate(written);
    answer.map(|report| (report, output))
}

/// With room enough; and with just as much, while one byte less is 11 at the last record.
#[track_caller]
fn given(set: &[u8], job: &[u8], file: &str) -> String {
    let (report, output) = called(set, job, file.as_bytes(), 4096).expect("accepted");
    assert_eq!(called(set, job, file.as_bytes(), report.written), Ok((report, output.clone())));
    let records = output.split(|byte| *byte == 10).filter(|line| line.starts_with(b">")).count();
    if records > 0 {
        assert_eq!(called(set, job, file.as_bytes(), report.written - 1), Err(Refusal::NoRoom { line: records - 1 }));
    }
    String::from_utf8(output).expect("text")
}

#[test]
fn samples() {
    let set = sample_set();
    let file = ">first\nAACG\nCCG\n>second\n\n>third\nAA\n";
    assert_eq!(given(&set, GRAPH, file), ">first\nAACTCCG\n>second\n>third\nAA\n");
    let (report, _) = called(&set, GRAPH, file.as_bytes(), 64).expect("accepted");
    assert_eq!((report.turns, report.lookups, report.attempts, report.accepted, report.bases), (1, 21, 1, 1, 4));
    assert_eq!(given(&set, ONE, ">a\nAACC\n>b\nAACG\n"), ">a\nAACTC\n>b\nAACG\n");
}

/// Lines of 80 letters, the last possibly shorter, none for an empty read; whatever lines the file has.
#[test]
fn widths() {
    let set = sample_set();
    for length in [0, 1, 79, 80, 81, 159, 160, 161] {
        let read = "A".repeat(length);
        let lines: String = read.as_bytes().chunks(80).map(|line| format!("{}\n", "A".repeat(line.len()))).collect();
        for width in [1, 7, 80, 200] {
            let file: String = read.as_bytes().chunks(width).map(|line| format!("{}\n\n", "A".repeat(line.len()))).collect();
            for job in [&[][..], ONE, GRAPH, &[1, 1, 3, 1]] {
                assert_eq!(given(&set, job, &format!("\n>name\n\n{file}")), format!(">name\n{lines}"));
            }
        }
    }
}

/// Names are any bytes behind `>`, more of them too; lines of no bytes are skipped wherever they stand; byte 13 is a base, or part of a name.
#[test]
fn names_and_lines() {
    let set = sample_set();
    for file in ["", "\n", "\n\n\n"] {
        assert_eq!(given(&set, ONE, file), "");
    }
    assert_eq!(given(&set, ONE, ">\n>\n\n>>x > y\n"), ">\n>\n>>x > y\n");
    assert_eq!(given(&set, &[], "\n\n>a\n\n\nA\n\nC\n\n>b\n\n"), ">a\nAC\n>b\n");
    assert_eq!(given(&set, &[], ">a\r\nAC\r\nGT\r\n"), ">a\r\nAC\rGT\r\n");
}

#[test]
fn refusals() {
    let set = sample_set();
    let refused = |job: &[u8], file: &[u8]| called(&set, job, file, 64).map(|_| ()).expect_err("refused");
    // 18: the first such line, skipped lines counted; before the first name, or with `>` in it.
    assert_eq!(refused(ONE, b"AC\n>a\n"), Refusal::Sequence { line: 0 });
    assert_eq!(refused(ONE, b"\n\nAC\n>a\n"), Refusal::Sequence { line: 2 });
    assert_eq!(refused(ONE, b"\r\n>a\n"), Refusal::Sequence { line: 0 });
    assert_eq!(refused(ONE, b">a\n\nAC\nA>C\nAC>\n"), Refusal::Sequence { line: 3 });
    assert_eq!(refused(ONE, b">a\nA\n>b\nC\n\nG>\n"), Refusal::Sequence { line: 5 });
    // 6 before 18, 5 before 6, 18 before 7.
    assert_eq!(refused(ONE, b"AC\n>a\nAC"), Refusal::Batch);
    assert_eq!(refused(ONE, b">a"), Refusal::Batch);
    assert_eq!(refused(&[1, 0], b"AC\n"), Refusal::ConfirmZero { index: 0 });
    let mut buffers = (vec![0; 64], vec![0; 127]);
    let short = correct_fasta(&set, None, None, Job::from_bytes(ONE), b"AC", &mut buffers.0, &mut buffers.1);
    assert_eq!(short, Err(Refusal::Buffers));
    for set in [&set[..0], &set[..512]] {
        assert_eq!(called(set, ONE, b"AC\n", 64).map(|_| ()), Err(Refusal::Sequence { line: 0 }));
        assert!(called(set, ONE, b">a\nAC\n", 64).is_err_and(|refusal| [7, 9].contains(&refusal.number())));
    }
    assert_eq!((Refusal::Sequence { line: 3 }.number(), Refusal::Sequence { line: 3 }.place()), (18, 3));
}

#[test]
fn limits() {
    let set = sample_set();
    let records = |count: usize| b">\n\n".repeat(count);
    assert_eq!(called(&set, ONE, &records(MAX_RECORDS), 4096).map(|(report, _)| report.written), Ok(2 * MAX_RECORDS));
    assert_eq!(called(&set, ONE, &records(MAX_RECORDS + 1), 4096).map(|_| ()), Err(Refusal::Batch));
    assert_eq!(called(&set, ONE, &[b"A\n", &records(MAX_RECORDS + 1)[..]].concat(), 4096).map(|_| ()), Err(Refusal::Batch));
    let lines = [b"\n".repeat(2000), b">a\n".to_vec(), b"A\n".repeat(2000)].concat();
    assert_eq!(called(&set, ONE, &lines, 4096).map(|(report, _)| report.written), Ok(3 + 2000 + 25));
    let long = |bases: usize| [&b">\n"[..], &b"A".repeat(bases), b"\n"].concat();
    let call = |file: &[u8]| correct_fasta(&set, None, None, Job::from_bytes(&[]), file, &mut vec![0; MAX_OUTPUT], &mut vec![0; MAX_WORK]);
    assert_eq!(call(&long(MAX_INPUT - 2)), Err(Refusal::InputLength));
    // The longest file in one line: the output has a byte more for each 80 letters.
    assert_eq!(call(&long(MAX_INPUT - 3)), Err(Refusal::NoRoom { line: 0 }));
    let most = (MAX_OUTPUT - 2) * 80 / 81;
    assert_eq!(call(&long(most)).map(|report| report.written), Ok(MAX_OUTPUT));
    assert_eq!(call(&long(most + 1)), Err(Refusal::NoRoom { line: 0 }));
}

/// A pass result longer than what is left is 11, though the text would fit: AACAAAAAATCC stays by One with confirm 255, and Graph makes AACTCC of it.
#[test]
fn inner_results() {
    let (set, job, file) = (sample_set(), [1, 255, 3, 1], b">\n>\nAACAAAAAATCC\n");
    let text = b">\n>\nAACTCC\n".to_vec();
    assert_eq!(called(&set, &job, file, 14).map(|(_, output)| output), Ok(text.clone()));
    for room in [13, text.len()] {
        assert_eq!(called(&set, &job, file, room).map(|_| ()), Err(Refusal::NoRoom { line: 1 }));
    }
    // The joined read may be longer than the room, where its pass result is not.
    assert_eq!(called(&set, GRAPH, b">\nAACAAAAAATCC\n", 9).map(|(_, output)| output), Ok(b">\nAACTCC\n".to_vec()));
    assert_eq!(called(&set, &[], b">\nAACAAAAAATCC\n", 14).map(|_| ()), Err(Refusal::NoRoom { line: 0 }));
}

/// Each read as in a batch, with the same counts, by no to eight entries; the output read again; with an index and counts.
#[test]
fn as_a_batch() {
    let mut rng = Rng(0x2545f4914f6cdd1d);
    let genome = rng.genome(3_000);
    let set = set_of(11, &keys_of(11, &genome));
    let mut index = vec![0; corrector::index_length(11)];
    make_index(&set, &mut index).expect("made");
    let counts: Vec<u32> = (0..corrector::open(&set).expect("opens").n as u32).collect();
    for round in 0..120 {
        let job: Vec<u8> = (0..round % 9).flat_map(|_| [1 + rng.below(4) as u8, 1 + rng.below(5) as u8]).collect();
        let lengths: Vec<usize> = (0..rng.below(5)).map(|_| rng.below(300)).collect();
        let reads: Vec<Vec<u8>> = lengths.iter().map(|length| rng.read(&genome, *length)).collect();
        let (mut file, mut batch) = (Vec::new(), Vec::new());
        for (number, read) in reads.iter().enumerate() {
            file.extend(format!(">read {number}\n").into_bytes());
            for line in read.chunks(1 + rng.below(90)) {
                file.extend([line, b"\n"].concat());
            }
            batch.extend([&read[..], b"\n"].concat());
        }
        let (report, output) = called(&set, &job, &file, 8192).expect("accepted");
        let (mut lines, mut work) = (vec![0; 8192], vec![0; 16384]);
        let as_batch = correct_batch(&set, None, None, Job::from_bytes(&job), &batch, &mut lines, &mut work).expect("accepted");
        assert_eq!(Report { written: as_batch.written, ..report }, as_batch);
        let mut expected = Vec::new();
        for (number, read) in lines[..as_batch.written].split_inclusive(|byte| *byte == 10).enumerate() {
            expected.extend(format!(">read {number}\n").into_bytes());
            for line in read[..read.len() - 1].chunks(80) {
                expected.extend([line, b"\n"].concat());
            }
        }
        assert_eq!(output, expected);
        assert_eq!(called(&set, &[], &output, 8192).map(|(_, again)| again), Ok(output.clone()));
        let (mut offered, mut work) = (vec![FILL; 8192], vec![FILL; 16384]);
        let with = correct_fasta(&set, Some(&index), Some(&counts), Job::from_bytes(&job), &file, &mut offered, &mut work).expect("accepted");
        assert_eq!((Report { support: None, ..with }, &offered[..with.written]), (report, &output[..]));
        assert_eq!(with.support.is_some(), with.accepted > 0);
        if let [read] = &reads[..] {
            let (mut single, mut work) = (vec![0; 8192], vec![0; 16384]);
            let alone = correct_read(&set, None, None, Job::from_bytes(&job), read, &mut single, &mut work).expect("accepted");
            assert_eq!(Report { written: alone.written, ..report }, alone);
        }
    }
    let wrong = |index: &[u8], counts: &[u32]| {
        let (mut output, mut work) = (vec![FILL; 64], vec![FILL; 128]);
        correct_fasta(&set, Some(index), Some(counts), Job::from_bytes(ONE), b">\n", &mut output, &mut work)
    };
    assert_eq!(wrong(&index[1..], &counts[1..]), Err(Refusal::Index));
    assert_eq!(wrong(&index, &counts[1..]), Err(Refusal::Counts));
}
