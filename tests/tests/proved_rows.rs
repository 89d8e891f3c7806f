//! The rows of `crates/claims/proofs/Refusals.antt`, `OpenSteps.antt`, `Requests.antt` and `ExclusionRows.antt`, in their order: the literal implementation of the documents and the library
//! give the values that are proved there.
#![deny(warnings)]
use gambrolt_tests::compare::Tally;
use gambrolt_tests::independent::{Answer, Refused};

fn no(number: u64, place: u64) -> Answer {
    Err(Refused { number, place })
}

/// 0 <- 1. and 0. 0., with two atoms.
const RULE: [u16; 7] = [2, 1, 1, 1, 0, 0, 1];
const TWICE: [u16; 10] = [2, 2, 1, 0, 0, 0, 1, 0, 0, 0];

#[test]
fn tables() {
    let check = |words: &[u16]| Tally::new().check_table(words);
    assert_eq!(check(&[0]), no(1, 0));
    assert_eq!(check(&[0; 8193]), no(1, 0));
    assert_eq!(check(&[0; 8192]), no(8, 2));
    assert_eq!(check(&[1024, 0]), Ok(0));
    assert_eq!(check(&[1025, 2049]), no(2, 0));
    assert_eq!(check(&[0, 2049]), no(3, 1));
    assert_eq!(check(&[2, 1]), no(4, 2));
    assert_eq!(check(&[2, 2, 1, 0, 0, 1, 0, 0]), no(4, 6));
    assert_eq!(check(&[2, 1, 65535, 1, 0]), no(5, 2));
    assert_eq!(check(&[2, 1, 1, 0, 0, 2]), no(6, 5));
    assert_eq!(check(&[2, 1, 1, 0, 0, 65535]), no(6, 5));
    assert_eq!(check(&[2, 1, 2, 0, 0, 1, 1]), no(7, 6));
    assert_eq!(check(&[3, 1, 0, 0, 3, 0, 2, 1]), no(7, 7));
    assert_eq!(check(&[2, 1, 2, 0, 0, 5, 5]), no(6, 5));
    assert_eq!(check(&[2, 1, 1, 1, 0, 1, 0]), Ok(0));
    assert_eq!(check(&[2, 2, 2, 0, 0, 1, 0]), no(7, 6));
    assert_eq!(check(&[2, 0, 0, 0]), no(8, 2));
}

#[test]
fn marks() {
    assert_eq!(Tally::new().check(&RULE, &[1; 6], &[]).0, no(9, 0));
    assert_eq!(Tally::new().reduce(&RULE, &[1; 6], &[]).0, no(9, 0));
    let reduced = |marks: &[u8], out: &[u16]| Tally::new().reduced_table(&RULE, marks, out).0;
    assert_eq!(reduced(&[1; 6], &[]), no(9, 0));
    assert_eq!(Tally::new().check(&[2, 0, 0], &[], &[]).0, no(8, 2));
    assert_eq!(reduced(&[1, 0, 1, 1, 1, 0, 1], &[]), no(10, 1));
    assert_eq!(reduced(&[1, 1, 1, 0, 1, 0, 1], &[]), no(10, 3));
    assert_eq!(reduced(&[1, 1, 1, 1, 1, 0, 2], &[]), no(10, 6));
    assert_eq!(reduced(&[1, 1, 1, 1, 1, 0, 1], &[9; 6]), Ok(6));
    assert_eq!(reduced(&[1, 1, 1, 1, 1, 1, 2], &[]), no(10, 6));
    assert_eq!(reduced(&[1, 1, 0, 1, 1, 1, 0], &[0, 0]), Ok(2));
    assert_eq!(reduced(&[1; 7], &[9; 6]), no(18, 0));
    assert_eq!(reduced(&[1; 7], &[9; 7]), Ok(7));
}

#[test]
fn lists() {
    let check = |list: &[u16]| Tally::new().check(&RULE, &[5; 7], list).0;
    let twice = |list: &[u16]| Tally::new().check(&TWICE, &[1; 10], list).0;
    assert_eq!(check(&[9, 9, 9]), no(11, 0));
    assert_eq!(check(&[0; 32764]), no(11, 0));
    assert_eq!(check(&[0; 32760]), no(12, 0));
    assert_eq!(check(&[0, 9, 9, 9]), no(12, 0));
    assert_eq!(check(&[6, 0, 0, 1, 10, 0, 0, 0]), no(12, 1));
    assert_eq!(check(&[6, 0, 0, 1, 9, 0, 0, 0]), no(13, 1));
    assert_eq!(check(&[6, 1, 9, 9]), no(13, 0));
    assert_eq!(check(&[6, 0, 0, 1, 6, 0, 0, 1]), no(13, 1));
    assert_eq!(check(&[8, 0, 1, 9]), no(14, 0));
    assert_eq!(check(&[8, 0, 0, 9]), no(14, 0));
    assert_eq!(check(&[6, 0, 1, 9]), no(14, 0));
    assert_eq!(twice(&[8, 0, 1, 0, 8, 1, 0, 9]), no(14, 1));
    assert_eq!(check(&[6, 0, 0, 2]), no(15, 0));
    assert_eq!(twice(&[8, 0, 1, 1]), no(15, 0));
    assert_eq!(check(&[1, 0, 0, 0]), no(16, 0));
    assert_eq!(check(&[6, 0, 0, 1]), Ok(1));
    let reduce = |room: usize| Tally::new().reduce(&RULE, &[5; 7], &vec![9; room]).0;
    assert_eq!(reduce(11), no(17, 0));
    assert_eq!(reduce(12), Ok(1));
}

#[test]
fn sets() {
    let test = |set: &[u16]| Tally::new().test(&RULE, set);
    assert_eq!(test(&[9; 17]), no(19, 0));
    assert_eq!(test(&[0, 2]), no(20, 1));
    assert_eq!(test(&[1, 1, 9]), no(21, 1));
    assert_eq!(test(&[1, 0]), no(21, 1));
    assert_eq!(test(&[2; 16]), no(20, 0));
}

#[test]
fn texts() {
    let read = |text: &str, room: usize| Tally::new().read_text(text.as_bytes(), &vec![7; room]).0;
    assert_eq!(read(&"0".repeat(65537), 0), no(22, 0));
    assert_eq!(read(&"0".repeat(65536), 8191), no(23, 0));
    let reads = |text: &str| read(text, 8192);
    assert_eq!(reads(""), no(24, 0));
    assert_eq!(reads("atoms=0\n"), no(24, 8));
    assert_eq!(reads("atoms=0\nclauses=0"), no(24, 8));
    assert_eq!(reads("atoms=2\nclauses=1\npos=\n"), no(24, 18));
    assert_eq!(reads("atoms=02\n"), no(25, 0));
    assert_eq!(reads("atoms=0\nclauses=\n"), no(25, 8));
    assert_eq!(reads("atoms=1,2\n"), no(25, 0));
    assert_eq!(reads("atoms=2\nclauses=1\nhead=1,\n"), no(25, 18));
    assert_eq!(reads("atoms=1025\n"), no(2, 0));
    assert_eq!(reads("atoms=0\nclauses=2049\n"), no(3, 8));
    let numbers = |count: u16| (0..count).map(|atom| atom.to_string()).collect::<Vec<_>>().join(",");
    let clause = |h, p, q| format!("head={}\npos={}\nneg={}\n", numbers(h), numbers(p), numbers(q));
    let full = clause(1024, 1024, 1024);
    let nearly = format!("atoms=1024\nclauses=4\n{full}{full}{}head=\n", clause(1024, 1011, 0));
    assert_eq!(reads(&nearly), no(26, 32076));
    assert_eq!(reads("atoms=2\nclauses=1\nhead=2\n"), no(6, 18));
    assert_eq!(reads("atoms=2\nclauses=1\nhead=\npos=2,0\n"), no(6, 24));
    assert_eq!(reads("atoms=2\nclauses=1\nhead=\npos=\nneg=9\n"), no(6, 29));
    assert_eq!(reads("atoms=2\nclauses=1\nhead=\npos=\nneg=\n\n"), no(27, 34));
    assert_eq!(reads("atoms=2\nclauses=1\nhead=\npos=\nneg=\n"), Ok(5));
    let write = |room: usize| Tally::new().write_text(&[0, 0], &vec![9; room]).0;
    assert_eq!(write(17), no(28, 0));
    assert_eq!(write(18), Ok(18));
}

/// The reducer writes this list for the table.
fn writes(words: &[u16], list: &[u16]) {
    let (answer, _, after) = Tally::new().reduce(words, &vec![0; words.len()], &[0; 64]);
    assert_eq!((answer, &after[..list.len()]), (Ok(list.len() as u64 / 4), list));
    assert!(after[list.len()..].iter().all(|&word| word == 0));
}

/// `Requests.antt`, slip 1.
#[test]
fn successes() {
    let check = |words: &[u16], list: &[u16]| Tally::new().check(words, &vec![1; words.len()], list).0;
    let success = [2, 2, 1, 0, 0, 1, 1, 1, 0, 0, 1];
    let rules = [3, 2, 1, 1, 0, 0, 1, 1, 1, 0, 2, 0];
    let disjunctive = [3, 2, 2, 0, 0, 0, 1, 1, 1, 0, 2, 0];
    assert_eq!(check(&[2, 2, 1, 0, 0, 0, 1, 1, 0, 1, 0], &[3, 1, 0, 0]), Ok(1));
    assert_eq!(check(&success, &[3, 1, 0, 0]), no(29, 0));
    assert_eq!(check(&success, &[3, 1, 0, 1]), Ok(1));
    writes(&success, &[3, 1, 0, 1]);
    assert_eq!(check(&rules, &[3, 1, 0, 1]), no(29, 0));
    assert_eq!(check(&rules, &[3, 1, 0, 0]), no(16, 0));
    assert_eq!(check(&disjunctive, &[3, 1, 0, 0]), no(16, 0));
    assert_eq!(check(&disjunctive, &[3, 1, 0, 2]), no(16, 0));
    assert_eq!(check(&[2, 2, 0, 0, 0, 1, 1, 0, 0, 1], &[3, 1, 0, 1]), no(16, 0));
    assert_eq!(check(&[2, 2, 1, 0, 0, 1, 1, 1, 0, 0, 0], &[3, 1, 0, 1]), no(16, 0));
    assert_eq!(check(&success, &[3, 1, 0, 2]), no(15, 0));
    assert_eq!(check(&[0, 2, 0, 0, 0, 0, 0, 0], &[3, 0, 1, 0]), no(15, 0));
    assert_eq!(check(&success, &[3, 1, 1, 0]), no(14, 0));
    assert_eq!(check(&[2, 2, 1, 0, 0, 1, 1, 0, 1, 0, 1], &[5, 1, 0, 0]), Ok(1));
    assert_eq!(check(&[2, 2, 1, 0, 0, 1, 1, 0, 0, 1], &[8, 0, 1, 0]), Ok(1));
    let both = [3, 3, 1, 0, 0, 0, 1, 0, 0, 1, 1, 2, 0, 2, 0, 1];
    assert_eq!(check(&both, &[3, 2, 0, 0, 3, 2, 1, 0]), no(29, 1));
    writes(&both, &[3, 2, 0, 0, 3, 2, 1, 1]);
}

/// `Requests.antt`, slip 2.
#[test]
fn circles() {
    let cycle = |words: &[u16]| Tally::new().cycle(words);
    assert_eq!(cycle(&[2, 2, 1, 0, 1, 0, 1, 1, 0, 1, 1, 0]), Ok(0));
    assert_eq!(cycle(&[1, 1, 1, 0, 1, 0, 0]), Ok(0));
    assert_eq!(cycle(&[2, 2, 1, 1, 0, 0, 1, 1, 1, 0, 1, 0]), Ok(1));
    assert_eq!(cycle(&[2, 1, 1, 1, 1, 0, 0, 1]), Ok(1));
    assert_eq!(cycle(&[3, 2, 2, 1, 0, 0, 1, 2, 1, 1, 0, 2, 1]), Ok(1));
    assert_eq!(cycle(&[3, 2, 1, 1, 1, 0, 1, 2, 1, 1, 1, 1, 0, 2]), Ok(1));
    assert_eq!(cycle(&[2, 2, 1, 1, 0, 0, 1, 1, 0, 1, 1, 0]), Ok(0));
    assert_eq!(cycle(&[3, 3, 1, 1, 0, 0, 1, 1, 1, 0, 1, 2, 1, 0, 1, 2, 0]), Ok(0));
    assert_eq!(cycle(&[3, 4, 1, 1, 0, 0, 1, 1, 0, 1, 1, 0, 1, 1, 0, 1, 2, 1, 1, 0, 2, 0]), Ok(1));
    assert_eq!(cycle(&[2, 3, 0, 1, 0, 0, 1, 1, 0, 0, 1, 1, 0, 0, 1]), Ok(0));
}

/// The list of the table's stable models, in a slice of six words.
fn listed(words: &[u16], models: &[u16]) {
    let (answer, out) = Tally::new().models(words, &[9; 6]);
    assert_eq!((answer, out), (Ok(models.len() as u64), [models, &[9; 6][models.len()..]].concat()));
}

/// `Requests.antt`, slip 3.
#[test]
fn models() {
    listed(&[2, 2, 1, 0, 1, 0, 1, 1, 0, 1, 1, 0], &[1, 2]);
    listed(&[4, 2, 2, 0, 0, 0, 1, 2, 0, 0, 2, 3], &[5, 6, 9, 10]);
    listed(&[3, 2, 1, 0, 0, 0, 1, 0, 0, 2], &[5]);
    listed(&[3, 0], &[0]);
    listed(&[0, 0], &[0]);
    listed(&[2, 2, 1, 1, 0, 0, 1, 1, 1, 0, 1, 0], &[0]);
    listed(&[2, 1, 1, 0, 1, 0, 1], &[1]);
    listed(&[2, 3, 2, 0, 0, 0, 1, 1, 1, 0, 0, 1, 1, 1, 0, 1, 0], &[3]);
    listed(&[1, 1, 1, 0, 1, 0, 0], &[]);
    listed(&[1, 1, 0, 0, 0], &[]);
    listed(&[1, 2, 1, 0, 0, 0, 0, 1, 0, 0], &[]);
    let count = |words: &[u16], room: usize| Tally::new().models(words, &vec![9; room]).0;
    let either = [2, 1, 2, 0, 0, 0, 1];
    assert_eq!(count(&either, 2), Ok(2));
    assert_eq!(count(&either, 1), no(31, 0));
    assert_eq!(count(&either, 0), no(31, 0));
    assert_eq!(count(&[1, 1, 0, 0, 0], 0), Ok(0));
    assert_eq!(count(&[17, 0], 6), no(30, 0));
    assert_eq!(count(&[17, 0], 0), no(30, 0));
    assert_eq!(count(&[17, 0, 0], 6), no(8, 2));
}

/// A table's text, in a slice of 64 bytes that were dots.
fn written(words: &[u16], text: &str) {
    let (answer, bytes) = Tally::new().write_text(words, &[b'.'; 64]);
    assert_eq!(answer, Ok(text.len() as u64));
    assert_eq!(String::from_utf8(bytes).unwrap(), format!("{text:.<64}"));
}

/// Slip 4: texts with numbers at both ends of each case. The digits of a number alone are lines of the program `cases`.
#[test]
fn numbers() {
    written(&[9, 0], "atoms=9\nclauses=0\n");
    written(&[10, 0], "atoms=10\nclauses=0\n");
    written(&[99, 0], "atoms=99\nclauses=0\n");
    written(&[100, 0], "atoms=100\nclauses=0\n");
    written(&[999, 0], "atoms=999\nclauses=0\n");
    written(&[1000, 0], "atoms=1000\nclauses=0\n");
    let atoms = [1024, 1, 7, 0, 0, 9, 10, 99, 100, 999, 1000, 1023];
    written(&atoms, "atoms=1024\nclauses=1\nhead=9,10,99,100,999,1000,1023\npos=\nneg=\n");
    let clauses = |m: u16, room: usize| {
        let words = [vec![0, m], vec![0; 3 * usize::from(m)]].concat();
        Tally::new().write_text(&words, &vec![b'.'; room]).0
    };
    assert_eq!(clauses(9, 162), Ok(162));
    assert_eq!(clauses(10, 179), Ok(179));
    assert_eq!(clauses(9, 161), no(28, 0));
    assert_eq!(clauses(10, 178), no(28, 0));
    assert_eq!(clauses(99, 1603), Ok(1603));
    assert_eq!(clauses(100, 1620), Ok(1620));
}

/// The text is read as this table.
fn reads_as(text: &str, words: &[u16]) {
    let (answer, table) = Tally::new().read_text(text.as_bytes(), &[7; 8192]);
    assert_eq!((answer, &table[..words.len()]), (Ok(words.len() as u64), words));
}

/// Slip 5: lists in any order, with repeats.
#[test]
fn text_lists() {
    let clause = |n: u16, h: &str, p: &str, q: &str| format!("atoms={n}\nclauses=1\nhead={h}\npos={p}\nneg={q}\n");
    reads_as(&clause(3, "1,0,1", "", ""), &[3, 1, 2, 0, 0, 0, 1]);
    reads_as(&clause(3, "0,1", "", ""), &[3, 1, 2, 0, 0, 0, 1]);
    reads_as(&clause(4, "3,2,1,0", "2,1", "3,0"), &[4, 1, 4, 2, 2, 0, 1, 2, 3, 1, 2, 0, 3]);
    reads_as(&clause(3, "2,2,2", "0,0", "1,1,1"), &[3, 1, 1, 1, 1, 2, 0, 1]);
    reads_as(&clause(1, &vec!["0"; 1000].join(","), "", ""), &[1, 1, 1, 0, 0, 0]);
    reads_as(&clause(2, "", &vec!["1"; 8193].join(","), ""), &[2, 1, 0, 1, 0, 1]);
    let reads = |text: &str| Tally::new().read_text(text.as_bytes(), &[7; 8192]).0;
    assert_eq!(reads("atoms=1,1\n"), no(25, 0));
    assert_eq!(reads("atoms=1\nclauses=1,1\n"), no(25, 8));
    assert_eq!(reads(&clause(2, "2,0", "", "")), no(6, 18));
    assert_eq!(reads(&clause(3, "0", "9999,9999,9999", "")), no(6, 25));
    assert_eq!(reads("atoms=3\nclauses=1\nhead=9999,01\n"), no(25, 18));
    let after = |first: u16| [first].into_iter().chain(0..8187).map(|x| x.to_string()).collect::<Vec<_>>().join(",");
    assert_eq!(reads(&clause(3, &after(8186), "", "")), no(6, 18));
    assert_eq!(reads(&clause(3, &after(8187), "", "")), no(26, 18));
}

/// `Requests.antt`, slip 6.
#[test]
fn failures() {
    let check = |words: &[u16], list: &[u16]| Tally::new().check(words, &vec![1; words.len()], list).0;
    let rule = [2, 1, 1, 1, 0, 0, 1];
    assert_eq!(check(&rule, &[7, 0, 0, 1]), no(32, 0));
    assert_eq!(check(&rule, &[6, 0, 0, 1]), Ok(1));
    writes(&rule, &[6, 0, 0, 1]);
    assert_eq!(check(&rule, &[7, 0, 0, 0]), no(16, 0));
    let three_atoms = [3, 1, 1, 1, 0, 0, 1];
    assert_eq!(check(&three_atoms, &[7, 0, 0, 2]), no(32, 0));
    assert_eq!(check(&three_atoms, &[7, 0, 0, 3]), no(15, 0));
    assert_eq!(check(&three_atoms, &[7, 0, 1, 1]), no(14, 0));
    assert_eq!(check(&three_atoms, &[7, 1, 0, 1]), no(13, 0));
    assert_eq!(check(&three_atoms, &[6, 0, 0, 2]), no(16, 0));
    assert_eq!(check(&three_atoms, &[1, 0, 0, 2]), no(16, 0));
    let ring = [2, 2, 1, 1, 0, 0, 1, 1, 1, 0, 1, 0];
    assert_eq!(check(&ring, &[7, 0, 0, 1, 7, 1, 0, 0]), no(32, 1));
    assert_eq!(check(&ring, &[7, 0, 0, 1, 6, 1, 0, 0]), Ok(2));
    assert_eq!(check(&ring, &[7, 1, 0, 0, 7, 0, 0, 1]), no(32, 1));
    writes(&ring, &[7, 0, 0, 1, 6, 1, 0, 0]);
    assert_eq!(check(&[2, 2, 1, 0, 0, 1, 1, 1, 0, 0, 1], &[7, 1, 0, 1]), no(16, 0));
    let itself = [1, 1, 1, 1, 0, 0, 0];
    assert_eq!(check(&itself, &[7, 0, 0, 0]), Ok(1));
    writes(&itself, &[1, 0, 0, 0]);
    let negative = [2, 1, 1, 0, 1, 0, 1];
    assert_eq!(check(&negative, &[4, 0, 0, 1]), Ok(1));
    assert_eq!(check(&negative, &[7, 0, 0, 1]), no(32, 0));
    let two_heads = [3, 2, 2, 1, 0, 0, 1, 2, 1, 1, 0, 2, 0];
    assert_eq!(check(&two_heads, &[7, 0, 0, 2]), Ok(1));
    assert_eq!(check(&two_heads, &[7, 1, 0, 0]), Ok(1));
    assert_eq!(check(&two_heads, &[7, 0, 0, 2, 7, 1, 0, 0]), no(32, 1));
}

/// `Requests.antt`, slip 7.
#[test]
fn equal_clauses() {
    let check = |words: &[u16], list: &[u16]| Tally::new().check(words, &vec![1; words.len()], list).0;
    writes(&TWICE, &[8, 1, 0, 0]);
    assert_eq!(check(&TWICE, &[8, 0, 1, 0]), Ok(1));
    assert_eq!(check(&TWICE, &[8, 1, 0, 0]), Ok(1));
    let empty = [0, 2, 0, 0, 0, 0, 0, 0];
    writes(&empty, &[5, 1, 0, 0]);
    assert_eq!(check(&empty, &[5, 0, 1, 0]), Ok(1));
    assert_eq!(check(&empty, &[5, 1, 0, 0]), Ok(1));
    assert_eq!(check(&empty, &[8, 0, 1, 0]), Ok(1));
    assert_eq!(check(&empty, &[8, 1, 0, 0]), Ok(1));
    // 0. 0. 0., three empty clauses, and 0. before two
    writes(&[1, 3, 1, 0, 0, 0, 1, 0, 0, 0, 1, 0, 0, 0], &[8, 1, 0, 0, 8, 2, 0, 0]);
    writes(&[0, 3, 0, 0, 0, 0, 0, 0, 0, 0, 0], &[5, 1, 0, 0, 5, 2, 0, 0]);
    writes(&[1, 3, 1, 0, 0, 0, 0, 0, 0, 0, 0, 0], &[5, 0, 1, 0, 5, 2, 1, 0]);
    // 0|1. <- 0. <- 0.
    writes(&[2, 3, 2, 0, 0, 0, 1, 0, 1, 0, 0, 0, 1, 0, 0], &[8, 2, 1, 0, 9, 1, 0, 0]);
    // 0. 1 <- 0. 1., then 1. 0. 1 <- 0.
    writes(&[2, 3, 1, 0, 0, 0, 1, 1, 0, 1, 0, 1, 0, 0, 1], &[3, 1, 0, 0, 8, 2, 1, 0]);
    writes(&[2, 3, 1, 0, 0, 1, 1, 0, 0, 0, 1, 1, 0, 1, 0], &[3, 2, 1, 0, 8, 2, 0, 0]);
    // 0|1. 0. 0|1., then 0|1. 0|1. 0.
    writes(&[2, 3, 2, 0, 0, 0, 1, 1, 0, 0, 0, 2, 0, 0, 0, 1], &[8, 0, 1, 0, 8, 2, 1, 0]);
    writes(&[2, 3, 2, 0, 0, 0, 1, 2, 0, 0, 0, 1, 1, 0, 0, 0], &[8, 0, 2, 0, 8, 1, 2, 0]);
    // 0 <- ~1, ~2. 0 <- ~1. 1 <- ~0. 2 <- ~0.
    writes(&[3, 4, 1, 0, 2, 0, 1, 2, 1, 0, 1, 0, 1, 1, 0, 1, 1, 0, 1, 0, 1, 2, 0], &[8, 0, 1, 0]);
    // 1 <- ~0. 0|1. 1 <- ~0. 1.
    let third = [2, 4, 1, 0, 1, 1, 0, 2, 0, 0, 0, 1, 1, 0, 1, 1, 0, 1, 0, 0, 1];
    writes(&third, &[8, 0, 3, 0, 8, 1, 3, 0, 4, 2, 0, 0, 8, 3, 2, 0]);
}

/// 0|1. <- 0.
const EXCLUDING: [u16; 11] = [2, 2, 2, 0, 0, 0, 1, 0, 1, 0, 0];
/// <- 0. 0 <- 1. 1 <- ~2. 2 <- ~1.
const CHAIN: [u16; 21] = [3, 4, 0, 1, 0, 0, 1, 1, 0, 0, 1, 1, 0, 1, 1, 2, 1, 0, 1, 2, 1];
/// 0|1. 0 <- 0, ~0. <- 0.
const CONTRADICTING: [u16; 17] = [2, 3, 2, 0, 0, 0, 1, 1, 1, 1, 0, 0, 0, 0, 1, 0, 0];
/// 0. <- 0. 2 <- ~1.
const NEGATIVE: [u16; 15] = [3, 3, 1, 0, 0, 0, 0, 1, 0, 0, 1, 0, 1, 2, 1];
/// 0 <- 1, ~2. <- 0. 1|3. 2 <- 1.
const THROUGH_NEGATIVE: [u16; 22] = [4, 4, 1, 1, 1, 0, 1, 2, 0, 1, 0, 0, 2, 0, 0, 1, 3, 1, 1, 0, 2, 1];
/// <- 2. 1|2 <- 0. <- 1. 0|2|3.
const THROUGH_TWO_HEADS: [u16; 22] = [4, 4, 0, 1, 0, 2, 2, 1, 0, 1, 2, 0, 0, 1, 0, 1, 3, 0, 0, 0, 2, 3];
/// <- 0. 0|1. 2 <- 1.
const SHRINKS: [u16; 16] = [3, 3, 0, 1, 0, 0, 2, 0, 0, 0, 1, 1, 1, 0, 2, 1];

/// `ExclusionRows.antt`, slip 8.
#[test]
fn exclusions() {
    let checked = |words: &[u16], list: &[u16], answer: Answer, marks: &[u8]| {
        assert_eq!(Tally::new().check(words, &vec![7; words.len()], list), (answer, marks.to_vec()));
    };
    // "It deletes kept clauses with a in the positive body and drops a from the heads and negative bodies of the other kept ones": from a head; the target goes, which has it in its body: 0|1. <- 0.
    checked(&EXCLUDING, &[9, 1, 0, 0], Ok(1), &[1, 1, 1, 1, 1, 0, 1, 0, 1, 1, 1]);
    // each effect once, in one step: two clauses deleted, a head and a negative literal dropped: <- 0. 0|1. 2 <- 0. 2 <- ~0.
    checked(
        &[3, 4, 0, 1, 0, 0, 2, 0, 0, 0, 1, 1, 1, 0, 2, 0, 1, 0, 1, 2, 0],
        &[9, 0, 0, 0],
        Ok(1),
        &[1, 1, 0, 1, 1, 1, 1, 1, 1, 0, 1, 0, 1, 1, 1, 1, 1, 1, 1, 1, 0],
    );
    // the atom need not be in the target: D is 1 and 0, and the target stays: <- 0. 0 <- 1. 1 <- ~2. 2 <- ~1.
    checked(&CHAIN, &[9, 0, 0, 1], Ok(1), &[1, 1, 1, 1, 1, 1, 0, 1, 1, 1, 1, 1, 1, 1, 0, 1, 1, 1, 1, 1, 0]);
    // a clause that is gone keeps its marks: 0|1. 0 <- 0, ~0. <- 0.
    checked(&CONTRADICTING, &[1, 1, 0, 0, 9, 2, 0, 0], Ok(2), &[1, 1, 1, 1, 1, 0, 1, 0, 1, 1, 1, 1, 1, 0, 1, 1, 1]);
    // of a clause that it deletes the first word's mark alone goes, so that these are the same: 0|1. 0 <- 0, ~0. <- 0.
    checked(&CONTRADICTING, &[9, 2, 0, 0], Ok(1), &[1, 1, 1, 1, 1, 0, 1, 0, 1, 1, 1, 1, 1, 0, 1, 1, 1]);
    // head and negative literal of one clause; what is left of it is empty: <- 0. 0 <- ~0.
    checked(&[1, 2, 0, 1, 0, 0, 1, 0, 1, 0, 0], &[9, 0, 0, 0], Ok(1), &[1, 1, 0, 1, 1, 1, 1, 1, 1, 0, 0]);
    // "the atom a occurs in a kept clause": D has 0, but 1 occurs in none: 0. <- 0.
    checked(&[2, 2, 1, 0, 0, 0, 0, 1, 0, 0], &[9, 1, 0, 1], no(16, 0), &[1; 10]);
    // 1 is in a negative body alone; the heads of facts are in every D: 0. <- 0. 2 <- ~1.
    checked(&NEGATIVE, &[9, 1, 0, 1], Ok(1), &[1, 1, 1, 1, 1, 1, 1, 1, 1, 1, 1, 1, 1, 1, 0]);
    // and in a head alone: 0. <- 0. 1|2.
    let head_alone = [3, 3, 1, 0, 0, 0, 0, 1, 0, 0, 2, 0, 0, 1, 2];
    checked(&head_alone, &[9, 1, 0, 1], Ok(1), &[1, 1, 1, 1, 1, 1, 1, 1, 1, 1, 1, 1, 1, 0, 1]);
    // an atom that a step dropped occurs no more: 0. <- 0. 2 <- ~1.
    checked(&NEGATIVE, &[9, 1, 0, 1, 9, 1, 0, 1], no(16, 1), &[1, 1, 1, 1, 1, 1, 1, 1, 1, 1, 1, 1, 1, 1, 0]);
    // "no negative atoms": D does not go through clause 0, and {1, 2} is stable: 0 <- 1, ~2. <- 0. 1|3. 2 <- 1.
    checked(&THROUGH_NEGATIVE, &[9, 1, 0, 1], no(16, 0), &[1; 22]);
    // "one head atom": nor through a clause with two, and {1, 2} is stable: 0|2 <- 1. <- 0. 1|3.
    checked(&[4, 3, 2, 1, 0, 0, 2, 1, 0, 1, 0, 0, 2, 0, 0, 1, 3], &[9, 1, 0, 1], no(16, 0), &[1; 17]);
    // "Heads are read as left everywhere": clause 1 as left has one head atom, <- 2. 1|2 <- 0. <- 1. 0|2|3.
    checked(
        &THROUGH_TWO_HEADS,
        &[9, 0, 0, 2, 9, 2, 0, 0],
        Ok(2),
        &[1, 1, 0, 1, 1, 1, 0, 1, 1, 1, 0, 1, 1, 1, 1, 1, 1, 1, 1, 0, 0, 1],
    );
    // and two without the step before: <- 2. 1|2 <- 0. <- 1. 0|2|3.
    checked(&THROUGH_TWO_HEADS, &[9, 2, 0, 0], no(16, 0), &[1; 22]);
    // a clause that lost its last head atom is a constraint: <- 0. 0 <- 1. 1|2.
    checked(
        &[3, 3, 0, 1, 0, 0, 1, 1, 0, 0, 1, 2, 0, 0, 1, 2],
        &[9, 0, 0, 0, 9, 1, 0, 1],
        Ok(2),
        &[1, 1, 0, 1, 1, 1, 0, 1, 1, 0, 1, 1, 1, 1, 0, 1],
    );
    // "a kept constraint with at least one positive and no negative atom": a target with a negative atom, 0|1. <- 0, ~1.
    checked(&[2, 2, 2, 0, 0, 0, 1, 0, 1, 1, 0, 1], &[9, 1, 0, 0], no(16, 0), &[1; 12]);
    // without a positive atom, 0|1. <- .
    checked(&[2, 2, 2, 0, 0, 0, 1, 0, 0, 0], &[9, 1, 0, 0], no(16, 0), &[1; 10]);
    // with a head: 0|1. 1 <- 0.
    checked(&[2, 2, 2, 0, 0, 0, 1, 1, 1, 0, 1, 0], &[9, 1, 0, 0], no(16, 0), &[1; 12]);
    // 13 before 14, 0|1. <- 0.
    checked(&EXCLUDING, &[9, 2, 1, 2], no(13, 0), &[1; 11]);
    // "the partner is unused": 14 before 15, 0|1. <- 0.
    checked(&EXCLUDING, &[9, 1, 1, 2], no(14, 0), &[1; 11]);
    // 15: 0|1. <- 0.
    checked(&EXCLUDING, &[9, 1, 0, 2], no(15, 0), &[1; 11]);
    // "Question 12 allows 9": 0|1. <- 0.
    checked(&EXCLUDING, &[10, 1, 0, 0], no(12, 0), &[1; 11]);
    // a disjunctive fact that lost an atom is a partner of kind 3; <- 0. 0|1. 2 <- 1.
    checked(&SHRINKS, &[9, 0, 0, 0, 3, 2, 1, 1], Ok(2), &[1, 1, 0, 1, 1, 1, 1, 1, 1, 0, 1, 1, 1, 1, 1, 0]);
    // 29 reads its head as left, <- 0. 0|1. 2 <- 1.
    checked(&SHRINKS, &[9, 0, 0, 0, 3, 2, 1, 0], no(29, 1), &[1, 1, 0, 1, 1, 1, 1, 1, 1, 0, 1, 1, 1, 1, 1, 1]);
    // and 32 the kept heads: <- 0. 0|1 <- 1. 0|1.
    checked(
        &[2, 3, 0, 1, 0, 0, 2, 1, 0, 0, 1, 1, 2, 0, 0, 0, 1],
        &[9, 0, 0, 0, 7, 1, 0, 0],
        no(32, 1),
        &[1, 1, 0, 1, 1, 1, 1, 1, 1, 0, 1, 1, 1, 1, 1, 0, 1],
    );
    // "The reducer tries it after 8": 9,0,0,0 makes clause 1 a constraint, which excludes 1; then 2 is a fact: <- 0. 0 <- 1. 1 <- ~2. 2 <- ~1. leaves 2.
    writes(&CHAIN, &[9, 0, 0, 0, 9, 1, 0, 1, 5, 2, 3, 0]);
    // 8 before 9: the second constraint goes by the first: 0|1. <- 0. <- 0, 1. leaves 1.
    writes(&[2, 3, 2, 0, 0, 0, 1, 0, 1, 0, 0, 0, 2, 0, 0, 1], &[8, 2, 1, 0, 9, 1, 0, 0]);
    // a head that shrinks to a fact opens a success, and the constraint excludes 0 then: 0|1. 2|3. <- 0, 2. <- 3. leaves 1. 2.
    writes(&[4, 4, 2, 0, 0, 0, 1, 2, 0, 0, 2, 3, 0, 2, 0, 0, 2, 0, 1, 0, 3], &[9, 3, 0, 3, 3, 2, 1, 2, 9, 2, 0, 0]);
    // kind 9 opens 8 and 6: 1 is in no head any more: 1 <- 0. 0|2. 1|2. <- 1. leaves 2.
    writes(&[3, 4, 1, 1, 0, 1, 0, 2, 0, 0, 0, 2, 2, 0, 0, 1, 2, 0, 1, 0, 1], &[9, 3, 0, 0, 8, 2, 1, 0, 6, 3, 0, 1]);
    // of two constraints the first one's atom, then the second has no head for its atom: 0|3. 1|3. <- 1. <- 0. leaves 3.
    writes(&[4, 4, 2, 0, 0, 0, 3, 2, 0, 0, 1, 3, 0, 1, 0, 1, 0, 1, 0, 0], &[9, 2, 0, 1, 8, 0, 1, 0, 6, 3, 0, 0]);
    // an empty clause is left, by which the rest is blocked: <- 0. 0 <- ~0. 1|2. leaves the empty clause
    writes(&[3, 3, 0, 1, 0, 0, 1, 0, 1, 0, 0, 2, 0, 0, 1, 2], &[9, 0, 0, 0, 5, 2, 1, 0]);
    // kind 9 opens 4 and 6: 1 <- 0. <- 1. 0|3. 2 <- 0. 4 <- ~2. leaves 3. 4.
    writes(
        &[5, 5, 1, 1, 0, 1, 0, 0, 1, 0, 1, 2, 0, 0, 0, 3, 1, 1, 0, 2, 0, 1, 0, 1, 4, 2],
        &[9, 1, 0, 0, 4, 4, 0, 2, 6, 1, 0, 1],
    );
    // and 5: 0|1|2. <- 0. 3 <- ~1, ~2. leaves 1|2.
    writes(&[4, 3, 3, 0, 0, 0, 1, 2, 0, 1, 0, 0, 1, 0, 2, 3, 1, 2], &[9, 1, 0, 0, 5, 2, 0, 0]);
    // no atom alone leads to both: 0|1. 2|3. <- 0, 2. leaves 0|1. 2|3. <- 0, 2.
    writes(&[4, 3, 2, 0, 0, 0, 1, 2, 0, 0, 2, 3, 0, 2, 0, 0, 2], &[]);
    // D does not go through a negative atom: of the atoms only 0 is excluded: 0 <- 1, ~2. <- 0. 1|3. 2 <- 1. leaves <- 1, ~2. 1|3. 2 <- 1.
    writes(&THROUGH_NEGATIVE, &[9, 1, 0, 0]);
}

/// `OpenSteps.antt`: the lists that the reducer has to write.
#[test]
fn open_steps() {
    writes(&[3, 4, 1, 0, 0, 0, 1, 0, 1, 1, 0, 1, 1, 0, 2, 1, 1, 1, 0, 1, 2], &[5, 1, 0, 0, 7, 2, 0, 1, 6, 3, 0, 2]);
    writes(&[2, 3, 2, 0, 0, 0, 1, 0, 1, 0, 0, 0, 2, 0, 0, 1], &[8, 2, 1, 0, 9, 1, 0, 0]);
    writes(&[3, 3, 1, 0, 0, 0, 1, 1, 0, 1, 0, 1, 0, 1, 2, 1], &[3, 1, 0, 0, 5, 2, 1, 0]);
    writes(&[2, 3, 1, 1, 0, 1, 0, 1, 0, 0, 0, 1, 0, 0, 0], &[3, 0, 1, 0, 8, 2, 1, 0]);
    writes(&[3, 1, 1, 2, 0, 0, 1, 2], &[6, 0, 0, 1]);
    writes(&[3, 2, 2, 0, 0, 0, 1, 1, 0, 2, 2, 0, 1], &[5, 1, 0, 0]);
    writes(&[1, 2, 0, 0, 0, 1, 0, 1, 0, 0], &[5, 1, 0, 0]);
    writes(
        &[4, 4, 1, 0, 0, 0, 1, 1, 1, 1, 0, 2, 1, 1, 0, 3, 3, 1, 1, 0, 2, 3],
        &[1, 2, 0, 3, 3, 1, 0, 0, 6, 3, 0, 3, 4, 1, 0, 2],
    );
}
