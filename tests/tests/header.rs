//! The numbers and names of include/gambrolt.h: each question's is that of a call which document 01's literal implementation
//! and the library refuse by it, each kind's that of a step which they make, and each limit's is document 01's or follows
//! from it.
#![deny(warnings)]
use gambrolt_tests::compare::Tally;
use gambrolt_tests::independent::program::{parse, words};
use gambrolt_tests::independent::Answer;

const HEADER: &str = include_str!("../../include/gambrolt.h");

type Named = (String, u64);

/// The names and numbers of an enum, in the order of the header.
fn values(name: &str) -> Vec<Named> {
    let (_, rest) = HEADER.split_once(&format!("enum {name} {{\n")).expect("the enum");
    let (lines, _) = rest.split_once("};").expect("its end");
    lines.lines().map(value).collect()
}

/// "    GAMBROLT_NAME = 1, /* .. */"
fn value(line: &str) -> Named {
    let (name, rest) = line.trim().split_once('=').unwrap_or_else(|| panic!("no value: {line}"));
    let digits = rest.split([',', '/']).next().unwrap().trim();
    (name.trim().strip_prefix("GAMBROLT_").unwrap().to_string(), digits.parse().unwrap())
}

fn named(list: &[(&str, u64)]) -> Vec<Named> {
    list.iter().map(|&(name, number)| (name.to_string(), number)).collect()
}

/// The number that a call is refused by.
fn number(answer: Answer) -> u64 {
    answer.expect_err("a refusal").number
}

/// For the name of each question a table that it refuses.
fn of_tables() -> Vec<(&'static str, u64)> {
    let table = |words: &[u16]| number(Tally::new().check_table(words));
    vec![
        ("TABLE_LENGTH", table(&[])),
        ("ATOM_LIMIT", table(&[1025, 0])),
        ("CLAUSE_LIMIT", table(&[0, 2049])),
        ("COUNTS_LEFT", table(&[2, 1])),
        ("LITERALS_LEFT", table(&[2, 1, 1, 0, 0])),
        ("ATOM_BELOW", table(&[2, 1, 1, 0, 0, 2])),
        ("ASCENDING", table(&[2, 1, 2, 0, 0, 1, 1])),
        ("ALL_USED", table(&[0, 0, 0])),
    ]
}

/// The program 0 <- 1., with marks, lists, rooms and sets.
fn of_steps_and_sets() -> Vec<(&'static str, u64)> {
    let rule = words(&parse(2, "0 <- 1."));
    let step = |list: &[u16]| number(Tally::new().check(&rule, &[1; 7], list).0);
    let test = |set: &[u16]| number(Tally::new().test(&[20, 0], set));
    vec![
        ("MARKS_LENGTH", number(Tally::new().check(&rule, &[1; 6], &[]).0)),
        ("MARK_ALLOWED", number(Tally::new().reduced_table(&rule, &[2; 7], &[0; 7]).0)),
        ("LIST_LENGTH", step(&[6, 0, 0])),
        ("KIND_KNOWN", step(&[10, 0, 0, 1])),
        ("TARGET_KEPT", step(&[6, 1, 0, 1])),
        ("PARTNER_KEPT", step(&[8, 0, 0, 0])),
        ("ATOM_KNOWN", step(&[6, 0, 0, 2])),
        ("CONDITION_HOLDS", step(&[6, 0, 0, 0])),
        ("LIST_ROOM", number(Tally::new().reduce(&rule, &[1; 7], &[0; 11]).0)),
        ("TABLE_ROOM", number(Tally::new().reduced_table(&rule, &[1; 7], &[0; 6]).0)),
        ("SET_LENGTH", test(&(0..17).collect::<Vec<_>>())),
        ("ENTRY_BELOW", test(&[20])),
        ("ENTRY_ASCENDING", test(&[3, 3])),
    ]
}

fn of_texts() -> Vec<(&'static str, u64)> {
    let read = |text: &str, room: usize| number(Tally::new().read_text(text.as_bytes(), &vec![0; room]).0);
    let numbers: Vec<String> = (0..8188).map(|number| number.to_string()).collect();
    let long = format!("atoms=1\nclauses=1\nhead={}\n", numbers.join(","));
    vec![
        ("TEXT_LENGTH", read(&"x".repeat(65537), 8192)),
        ("TABLE_SLICE", read("", 8191)),
        ("LINE_THERE", read("", 8192)),
        ("VALUE_IN_FORM", read("atoms=\n", 8192)),
        ("WORD_LIMIT", read(&long, 8192)),
        ("TEXT_ALL_USED", read("atoms=0\nclauses=0\n\n", 8192)),
        ("TEXT_ROOM", number(Tally::new().write_text(&[0, 0], &[0; 17]).0)),
    ]
}

/// Those of document 02, in the order of their numbers.
fn of_requests() -> Vec<(&'static str, u64)> {
    let (success, failure) = (words(&parse(2, "1. 0 <- 1.")), words(&parse(2, "0 <- 1.")));
    let models = |table: &[u16], room: usize| number(Tally::new().models(table, &vec![0; room]).0);
    vec![
        ("ATOM_MATCHES", number(Tally::new().check(&success, &[1; 11], &[3, 1, 0, 0]).0)),
        ("FEW_ATOMS", models(&[17, 0], 1)),
        ("MODELS_ROOM", models(&[16, 0], 0)),
        ("ATOM_HEADED", number(Tally::new().check(&failure, &[1; 7], &[7, 0, 0, 1]).0)),
    ]
}

#[test]
fn questions() {
    let expected = named(&[of_tables(), of_steps_and_sets(), of_texts(), of_requests()].concat());
    assert_eq!(values("gambrolt_question"), expected);
    assert!(expected.iter().map(|(_, number)| *number).eq(1..=32), "a number is missing or stands twice");
}

/// Each question has one message, and no message is said twice.
#[test]
fn messages() {
    let mut said = Vec::new();
    for (name, _) in values("gambrolt_question") {
        let messages: Vec<&str> = HEADER.split(&format!("case GAMBROLT_{name}: return ")).skip(1).collect();
        assert_eq!(messages.len(), 1, "{name}");
        said.push(messages[0].lines().next().unwrap());
    }
    said.sort_unstable();
    said.dedup();
    assert_eq!(said.len(), 32);
}

/// The kind of the first step on a program.
#[test]
fn kinds() {
    let first = |program: &str| u64::from(Tally::new().reduce(&words(&parse(2, program)), &[1; 20], &[0; 40]).2[0]);
    let expected = [
        ("TAUTOLOGY", first("0 <- 0.")),
        ("CONTRADICTION", first("0. 1. 0 <- 1, ~1.")),
        ("SUCCESS", first("0. 1 <- 0.")),
        ("NO_HEAD", first("0 <- ~1.")),
        ("BLOCKED", first("0. 1 <- ~0.")),
        ("FAILURE", first("0 <- 1.")),
        ("LOOP", first("0 <- 1. 1 <- 0.")),
        ("SUBSUMED", first("0|1. 0|1.")),
        ("EXCLUDED", first("0|1. <- 0.")),
    ];
    assert_eq!(values("gambrolt_kind"), named(&expected));
    assert!(expected.iter().map(|(_, number)| *number).eq(1..=9));
}

#[test]
fn limits() {
    let limit = |name: &str| {
        let (_, rest) = HEADER.split_once(&format!("#define GAMBROLT_MAX_{name} ")).unwrap();
        rest.split_whitespace().next().unwrap().parse::<usize>().unwrap()
    };
    let names = ["ATOMS", "CLAUSES", "WORDS", "LIST", "SET", "MODELS", "TEXT"];
    // the subsets of 16 things of which half of them are in: the middle of Pascal's triangle's row 16
    let halves = (1..=8).fold(1, |subsets, i| subsets * (8 + i) / i);
    assert_eq!(names.map(limit), [1024, 2048, 8192, 32760, 16, halves, 65536]);
    assert_eq!(HEADER.matches("#define GAMBROLT_MAX_").count(), names.len());
}
