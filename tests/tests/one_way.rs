//! Slip 4: one function finds how many digits a number has, for every writer. The sources of all crates are searched for a
//! second way.
#![deny(warnings)]
use std::fs;
use std::path::{Path, PathBuf};

const CRATES: &str = concat!(env!("CARGO_MANIFEST_DIR"), "/../crates");

/// What a second way would compare with, divide by or multiply by; and 48, the byte of the digit 0.
const NUMBERS: [&str; 8] = ["10", "99", "100", "999", "1000", "9999", "10000", "48"];

/// The functions that write a number's digits: how many there are, the byte of one, and all of them.
const WRITERS: [&str; 3] = ["number_width", "digit", "put_number"];

/// The other lines that have such a number or b'0': none of them counts digits that are written.
const OTHERS: [(&str, &str); 7] = [
    // the number of a question; how many places an answer's number has room for
    ("answers", "MarkAllowed = 10,"),
    ("answers", "const PLACES: u64 = 1 << 48;"),
    // the atoms of a program that has at most 16
    ("models_list", "let atoms = [0u16, 1, 2, 3, 4, 5, 6, 7, 8, 9, 10, 11, 12, 13, 14, 15];"),
    // reading: the digit that the byte is; the number has four digits and takes no other; the number with a digit more
    ("text_lines", "let digit = u16::from(b - b'0');"),
    ("text_lines", "if v < 1 || 999 < v {"),
    ("text_lines", "Some(v * 10 + digit)"),
    // reading: a mark for each number of up to four digits
    ("text_lines", "let mut marks = [false; 10000];"),
];

/// A line of code without its comment, with the crate and the function that it stands in. A contract is none: it isn't run.
struct Line {
    in_crate: String,
    function: String,
    code: String,
}

fn sources(dir: &Path, found: &mut Vec<PathBuf>) {
    for entry in fs::read_dir(dir).unwrap() {
        let path = entry.unwrap().path();
        if path.is_dir() {
            sources(&path, found);
        } else if path.extension().is_some_and(|extension| extension == "rt") {
            found.push(path);
        }
    }
}

/// The name behind `fn`, where a function is declared.
fn declared(code: &str) -> Option<&str> {
    let (_, rest) = code.split_once("fn ")?;
    rest.split(['(', '<']).next()
}

fn lines_of(in_crate: &str, text: &str) -> Vec<Line> {
    let mut function = String::new();
    let mut lines = Vec::new();
    for line in text.lines() {
        let code = line.split("//").next().unwrap().trim().to_string();
        function = declared(&code).map_or(function, str::to_string);
        if !["requires ", "ensures "].iter().any(|contract| code.starts_with(contract)) {
            lines.push(Line { in_crate: in_crate.to_string(), function: function.clone(), code });
        }
    }
    lines
}

/// The sources of every crate.
fn code() -> Vec<Line> {
    let mut lines = Vec::new();
    for entry in fs::read_dir(CRATES).unwrap() {
        let (dir, mut found) = (entry.unwrap().path(), Vec::new());
        let name = dir.file_name().unwrap().to_str().unwrap();
        if dir.join("src").is_dir() {
            sources(&dir.join("src"), &mut found);
        }
        lines.extend(found.iter().flat_map(|path| lines_of(name, &fs::read_to_string(path).unwrap())));
    }
    assert!(["text_writer", "reduce_filter", "gambrolt", "cases"].iter().all(|name| has(&lines, name)), "no sources");
    lines
}

fn has(lines: &[Line], name: &str) -> bool {
    lines.iter().any(|line| line.in_crate == name && !line.code.is_empty())
}

/// The decimal numbers of a line, without underscores and types.
fn numbers(code: &str) -> Vec<String> {
    let words = code.split(|c: char| !c.is_ascii_alphanumeric() && c != '_');
    let digits =
        |word: &str| word.chars().take_while(|c| c.is_ascii_digit() || *c == '_').filter(|c| *c != '_').collect();
    words.filter(|word| word.starts_with(|c: char| c.is_ascii_digit())).map(digits).collect()
}

/// It is declared once, and called once, by the function that writes a number's digits.
#[test]
fn one_function() {
    let lines = code();
    let with = |part: &str| lines.iter().filter(|line| line.code.contains(part)).collect::<Vec<_>>();
    assert_eq!(with("fn number_width").len(), 1, "it is declared once");
    let calls: Vec<&Line> = with("number_width").into_iter().filter(|line| !line.code.contains("fn ")).collect();
    let places: Vec<[&str; 3]> = calls.iter().map(|line| [&line.in_crate[..], &line.function, &line.code]).collect();
    assert_eq!(places, [["text_writer", "put_number", "let w = number_width(v);"]], "it is called once");
}

/// `cases` and `cases_lines` are left out: they write no text, read their input and print sums in a way of their own.
#[test]
fn no_second_way() {
    let mut others = Vec::new();
    for Line { in_crate, function, code } in code().into_iter().filter(|line| !line.in_crate.starts_with("cases")) {
        let writer = in_crate == "text_writer" && WRITERS.contains(&&function[..]);
        assert!(!code.contains("print_decimal"), "{in_crate}::{function}: {code}");
        let way = code.contains("b'0'") || numbers(&code).iter().any(|number| NUMBERS.contains(&&number[..]));
        if way && !writer {
            others.push((in_crate, code));
        }
    }
    others.sort();
    let mut expected = OTHERS.map(|(in_crate, code)| (in_crate.to_string(), code.to_string()));
    expected.sort();
    assert_eq!(others, expected);
}
