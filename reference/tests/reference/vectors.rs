//! The vectors: that they hold, that each of them can fail, and what a failure tells.

use reference::centre::Reference;
use reference::engines::engines;
use reference::vectors::{files, play, read, Case, Does, Failure, File};
use std::collections::BTreeSet;
use std::path::Path;

fn shipped() -> Vec<File> {
    files(&Path::new(env!("CARGO_MANIFEST_DIR")).join("vectors")).unwrap()
}

#[test]
fn every_engine_does_as_the_vectors_say() {
    for engine in engines() {
        for file in shipped() {
            for case in &file.cases {
                if let Err(failure) = play(case, engine) {
                    panic!(
                        "{}, {}:{}: {failure}",
                        engine.name(),
                        file.name,
                        failure.line
                    );
                }
            }
        }
    }
}

/// Each line that expects or looks at something is altered in turn: that very line must fail.
#[test]
fn every_expectation_can_fail() {
    let mut tried = 0;
    for file in shipped() {
        let asking = |case: &Case| -> Vec<usize> {
            let lines = case.lines.iter();
            let asking = lines.filter(|line| !matches!(line.does, Does::Put(_)));
            asking.map(|line| line.number).collect()
        };
        for number in file.cases.iter().flat_map(asking).collect::<BTreeSet<_>>() {
            let failure = failure_with(&file, number);
            assert_eq!(failure.line, number, "{}: {failure}", file.name);
            tried += 1;
        }
    }
    assert!(tried > 400, "{tried} lines");
}

fn failure_with(file: &File, number: usize) -> Failure {
    let mut lines: Vec<String> = file.text.lines().map(str::to_string).collect();
    lines[number - 1] = altered(&lines[number - 1]);
    let cases = read(&lines.join("\n")).unwrap_or_else(|error| panic!("{}: {error}", file.name));
    let case = cases
        .iter()
        .find(|case| case.lines.iter().any(|line| line.number == number))
        .unwrap();
    play(case, &Reference::sound()).expect_err(&format!(
        "{}:{number}: {}",
        file.name,
        lines[number - 1]
    ))
}

/// The line with another expectation that can be read: in most cases another last digit.
fn altered(line: &str) -> String {
    let line = line.trim_end();
    if let Some(found) = line.strip_suffix(" -") {
        return format!("{found} 00");
    }
    if let Some(text) = line.strip_suffix('"') {
        return format!("{text}!\"");
    }
    for (from, to) in [
        ("changed nothing", "changed 0 place 0 at 0"),
        (" open", " closed"),
        (" closed", " open"),
        (" ended", " open"),
        (" none", " 1 1"),
    ] {
        if let Some(front) = line.strip_suffix(from) {
            return format!("{front}{to}");
        }
    }
    let words: Vec<&str> = line.split(' ').collect();
    let at = match words[0] {
        "states" | "marks" | "ids" => 2,
        // the octet to begin at
        "holds" => 4,
        _ => words.len() - 1,
    };
    let mut words: Vec<String> = words.into_iter().map(str::to_string).collect();
    let digit = words[at].pop().unwrap();
    words[at].push(if digit == '0' { '1' } else { '0' });
    words.join(" ")
}

const ABOVE: &str = "account 0 paging secret VMA callback 1/1/447700900000\n\
                     open 0 => 0\n\
                     bind 0 transmitter paging secret VMA => status 0\n\
                     case one\n";

fn played(lines: &str) -> Result<usize, Failure> {
    let cases = read(&format!("{ABOVE}{lines}")).unwrap();
    play(&cases[0], &Reference::sound())
}

/// One octet of a reply is wrong, and then one of a record.
#[test]
fn a_failure_names_the_line_what_was_expected_and_what_was_found() {
    let right = "enquire 0 => 0 16 00000010 80000015 00000000 00000002\n";
    assert_eq!(played(right), Ok(3));
    let wrong = right.replace("00000002", "00000003");
    let failure = played(&wrong).unwrap_err();
    assert_eq!(failure.line, 5);
    assert_eq!(
        failure.to_string(),
        "enquire 0 => 0 16 00000010 80000015 00000000 00000003\n  \
         expected 0 16 00000010800000150000000000000003\n  \
         found    0 16 00000010800000150000000000000002"
    );
    let submit = "submit 0 from \"\" to 1/1/5 \"hi\" => id 00000001\n";
    let record = "record 0 0 waiting 1 from 1/1/447700900000 to 1/1/5 \"ho\"\n";
    let failure = played(&format!("{submit}{record}")).unwrap_err();
    assert_eq!(failure.line, 6);
    assert_eq!(
        (failure.expected.as_str(), failure.found.as_str()),
        (
            "6F00000000000000 from octet 94 of the record on",
            "6900000000000000 from octet 94 of the record on"
        )
    );
}

#[test]
fn each_way_to_say_a_reply() {
    for lines in [
        "submit 0 from \"\" to 1/1/5 \"hi\" => id 1\nquery 0 1 from \"\" => found 1 state 0\n\
         outcome 0 1 delivered error 7 => 0\n\
         query 0 1 from \"\" => found 1 state 1 error 7 date 960701120000000+\n",
        "octets 0 00000010 80000015 00000000 00000001 => 0 16 -\n",
        "octets 0 000000 => 1\nspace 43\nenquire 0 => 4\nspace 44\nlend 511 32768\nenquire 0 => 3\n",
        "enquire 16 => 2\nenquire 1 => 6\npick 8 => 7\nstamp \"\"\nenquire 0 => 5\n",
        "put entry 3 receiver 8\nenquire 3 => 9\noutcome 0 1 4 => 8\noutcome 0 1 3 => 10\n",
        "unbind 0 => status 0\nentry 0 ended\nclose 0 => 0\nentry 0 closed\n",
        "put entry 1 receiver 0\ndeliver 1 7 => 13\ndeliver 0 7 => 12\n\
         submit 0 from \"\" to 1/1/5 registered 1 \"hi\" => id 1\ncancel 0 1 from \"\" => status 0\n\
         record 0 0 deleted 1 final 960701120000000+ marked from 1/1/447700900000 to 1/1/5 \
         registered 1 \"hi\"\n\
         deliver 1 7 => receipt 1 state 4 from 1/1/5 to 1/1/447700900000\noutstanding 1 1 7\n\
         answer 1 7 status 8 => 0 17 -\noutstanding 1 none\nmarks 0 1 0 times 15\n\
         deliver 1 8 => 0 00000040 00000005 00000000 00000008 00 0101 3500 0101 \
         34343737303039303030303000 040000 0000 00000000 12 69643A 3030303030303031 \
         20737461743A34\n",
    ] {
        if let Err(failure) = played(lines) {
            panic!("line {}: {failure}", failure.line);
        }
    }
}

#[test]
fn complaints_name_the_line_and_what_was_expected() {
    for (line, complaint) in [
        ("open 0", "line 1: expected \"=>\" behind a call"),
        ("bind 0 transmitter a b c", "line 1: expected \"=>\" behind"),
        ("=> 0", "line 1: expected a call, found \"=>\""),
        ("opne 0 => 0", "line 1: expected a call, found \"opne\""),
        (
            "look 0",
            "line 1: expected a case, a call, something to look at",
        ),
        (
            "enquire 0 => fine",
            "line 1: expected a number, status, id or found",
        ),
        ("enquire 0 => 0 16", "line 1: expected a reply in hex or -"),
        (
            "octets 0 00 => status 2",
            "line 1: expected a number, a count and a reply",
        ),
        (
            "pdu 0 deliver => 0",
            "line 1: expected a command's name or its id in hex",
        ),
        (
            "pdu 0 unbind \"x\" times => 0",
            "line 1: expected how many times",
        ),
        ("states 0 1 2 3", "line 1: expected 16 numbers, found 3"),
        (
            "entry 16 open",
            "line 1: expected a session number below 16, found 16",
        ),
        (
            "record 0 16 empty",
            "line 1: expected a place below 16, found 16",
        ),
        (
            "record 0 0 lost 1",
            "line 1: expected empty or waiting or delivered",
        ),
        (
            "changed 0 place 0 at 256",
            "line 1: expected an octet of a record",
        ),
        (
            "put record 0 0 at 255 00 00",
            "line 1: expected octets within a record of 256",
        ),
        (
            "put table 0",
            "line 1: expected book or record or last or entry or outstanding",
        ),
        (
            "account 8 a b c callback 5",
            "line 1: expected an account number from 0 to 7",
        ),
        ("deliver 0 1", "line 1: expected \"=>\" behind a call"),
        (
            "deliver 0 => 0",
            "line 1: expected a sequence number, found the end of the line",
        ),
        (
            "deliver 0 1 => fine",
            "line 1: expected a number or receipt, found \"fine\"",
        ),
        (
            "deliver 0 1 => receipt 1 from 5 to 6",
            "line 1: expected \"state\", found \"from\"",
        ),
        (
            "answer 0 1 state 8 => 0 17 -",
            "line 1: expected status or the end of the line, found \"state\"",
        ),
        (
            "outstanding 0 1",
            "line 1: expected a sequence number, found the end of the line",
        ),
    ] {
        let error = read(line).unwrap_err().to_string();
        assert!(error.starts_with(complaint), "{line}: {error}");
    }
}
