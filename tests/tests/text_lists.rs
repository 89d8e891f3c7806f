//! Slip 5: lists in text, in any order and with repeats. The answers were worked out by hand; the literal implementation of
//! the documents and the library give the same, in all of the memory that is lent to them.
#![deny(warnings)]
use gambrolt_tests::compare::Tally;
use gambrolt_tests::independent::{Answer, Refused};
use gambrolt_tests::make::texts::repeats;

fn refused(number: u64, place: u64) -> Answer {
    Err(Refused { number, place })
}

/// The answer, and the words written. What lies past them is as it was: all of the slice where the text is refused.
fn read(text: &str) -> (Answer, Vec<u16>) {
    let before: Vec<u16> = (0..9000).map(|place: u16| place.wrapping_mul(40503)).collect();
    let (answer, mut after) = Tally::new().read_text(text.as_bytes(), &before);
    let written = answer.unwrap_or(0) as usize;
    assert!(after[written..] == before[written..], "words past those written are changed");
    after.truncate(written);
    (answer, after)
}

fn answer(text: &str) -> Answer {
    read(text).0
}

/// The text is taken and gives these words, whose text is the canonical one; and that gives the words again.
fn reads(text: &str, words: &[u16], canonical: &str) {
    assert_eq!(read(text), (Ok(words.len() as u64), words.to_vec()));
    let (bytes, out) = Tally::new().write_text(words, &vec![9; canonical.len()]);
    assert_eq!((bytes, &out[..]), (Ok(canonical.len() as u64), canonical.as_bytes()));
    assert_eq!(read(canonical), read(text));
}

/// A clause of three atoms.
fn clause(head: &str, pos: &str, neg: &str) -> String {
    format!("atoms=3\nclauses=1\nhead={head}\npos={pos}\nneg={neg}\n")
}

fn joined(numbers: impl Iterator<Item = u16>) -> String {
    numbers.map(|number| number.to_string()).collect::<Vec<_>>().join(",")
}

#[test]
fn orders() {
    reads(&clause("2,1,0", "", ""), &[3, 1, 3, 0, 0, 0, 1, 2], &clause("0,1,2", "", ""));
    reads(&clause("", "2,0", "1,0"), &[3, 1, 0, 2, 2, 0, 2, 0, 1], &clause("", "0,2", "0,1"));
    reads(
        &clause("1,0,2", "2,0,1", "1,2,0"),
        &[3, 1, 3, 3, 3, 0, 1, 2, 0, 1, 2, 0, 1, 2],
        &clause("0,1,2", "0,1,2", "0,1,2"),
    );
    let all = |head: &str| format!("atoms=1024\nclauses=1\nhead={head}\npos=\nneg=\n");
    let words: Vec<u16> = [1024, 1, 1024, 0, 0].into_iter().chain(0..1024).collect();
    reads(&all(&joined((0..1024).rev())), &words, &all(&joined(0..1024)));
    reads(&all(&joined((0..1024).map(|i| i * 5 % 1024))), &words, &all(&joined(0..1024)));
}

#[test]
fn repeated_atoms() {
    reads(&clause("1,1", "", ""), &[3, 1, 1, 0, 0, 1], &clause("1", "", ""));
    reads(&clause("", "0,0,0", "2,2"), &[3, 1, 0, 1, 1, 0, 2], &clause("", "0", "2"));
    reads(&clause(&vec!["1"; 1000].join(","), "", ""), &[3, 1, 1, 0, 0, 1], &clause("1", "", ""));
    reads(&clause("", "", &vec!["2,0"; 1000].join(",")), &[3, 1, 0, 0, 2, 0, 2], &clause("", "", "0,2"));
    let two = |head: &str| format!("atoms=2\nclauses=1\nhead={head}\npos=\nneg=\n");
    reads(&two("1,0,1"), &[2, 1, 2, 0, 0, 0, 1], &two("0,1"));
    assert_eq!(read(&two("1,0,1")), read(&two("0,1")));
    assert_ne!(read(&two("1,0,1")), read(&two("1,1")));
}

/// More numbers in a line than a table has words.
#[test]
fn ten_thousand_numbers() {
    reads(&clause(&vec!["0"; 20_000].join(","), "", ""), &[3, 1, 1, 0, 0, 0], &clause("0", "", ""));
    reads(&clause("", &vec!["2,1"; 8193].join(","), ""), &[3, 1, 0, 2, 0, 1, 2], &clause("", "1,2", ""));
    let long = vec!["9999"; 8193].join(",");
    assert_eq!(answer(&clause(&long, "", "")), refused(6, 18), "one number is kept");
}

#[test]
fn numbers_not_below() {
    assert_eq!(answer(&clause("3,3,3", "", "")), refused(6, 18));
    assert_eq!(answer(&clause("9999,9999", "", "")), refused(6, 18));
    assert_eq!(answer(&clause("0,9999,0", "", "")), refused(6, 18));
    assert_eq!(answer(&clause("", "2,3,1", "")), refused(6, 24));
    assert_eq!(answer(&clause("1,0", "", "9999,2,9999")), refused(6, 32));
    assert_eq!(answer(&clause("9999,9999,", "", "")), refused(25, 18), "25 on the whole value");
    assert_eq!(answer(&clause("1,0,x", "", "")), refused(25, 18));
    assert_eq!(answer(&clause("1,1,02", "", "")), refused(25, 18));
    assert_eq!(answer(&clause("1,0", "1,1,10000", "")), refused(25, 27));
}

/// "the first two values are one number each"
#[test]
fn first_two_values() {
    assert_eq!(answer("atoms=1,1\nclauses=0\n"), refused(25, 0));
    assert_eq!(answer("atoms=2,1\nclauses=0\n"), refused(25, 0));
    assert_eq!(answer("atoms=1\nclauses=1,1\nhead=\npos=\nneg=\n"), refused(25, 8));
    assert_eq!(answer("atoms=1\nclauses=0,0\n"), refused(25, 8));
    assert_eq!(answer("atoms=1\nclauses=1,0\n"), refused(25, 8));
}

/// Texts of three atoms, whose line behind these lines may keep so many numbers: as many are refused by 6 there, one more by
/// 26, however often and in whatever order the numbers stand.
fn limit(clauses: u16, before: &str, most: u16) {
    let first = format!("atoms=3\nclauses={clauses}\n{before}");
    let place = first.rfind('\n').unwrap() as u64 + 1;
    let answer = |list: &str| answer(&format!("{first}{list}\n"));
    let falling = joined((0..most).rev());
    assert_eq!(answer(&joined(0..most)), refused(6, place));
    assert_eq!(answer(&falling), refused(6, place));
    assert_eq!(answer(&format!("{falling},{}", joined(0..5000))), refused(6, place));
    assert_eq!(answer(&format!("{falling},{}", vec!["9"; 12_000].join(","))), refused(6, place));
    assert_eq!(answer(&joined(0..most + 1)), refused(26, place));
    assert_eq!(answer(&format!("{most},{falling}")), refused(26, place));
    assert_eq!(answer(&format!("{falling},{most}")), refused(26, place));
    assert_eq!(answer(&format!("{falling},{},9999", joined(0..5000))), refused(26, place));
    assert_eq!(answer(&joined(0..10_000)), refused(26, place));
    assert_eq!(answer(&joined((0..10_000).rev())), refused(26, place));
    assert_eq!(answer(&format!("{},", joined((0..10_000).rev()))), refused(25, place), "25 before 26");
}

/// "question 26 counts what is kept", numbers that are not below the number of atoms too; a clause's counts at its head
/// line.
#[test]
fn words_so_far() {
    limit(1, "head=", 8192 - 5);
    limit(1, "head=2,1,0,2\npos=", 8192 - 5 - 3);
    limit(1, "head=2,0,2\npos=1,1\nneg=", 8192 - 5 - 2 - 1);
    limit(2, "head=0,0\npos=\nneg=\nhead=", 8192 - 5 - 1 - 3);
}

/// Seven heads of all 1,024 atoms, each twice, and one of so many, from the last on; then the lines behind it.
fn twice(last: u16, lines: &str) -> String {
    let all = format!("head={},{}\npos=\nneg=\n", joined((0..1024).rev()), joined(0..1024)).repeat(7);
    format!("atoms=1024\nclauses=8\n{all}head={}\n{lines}", joined((0..last).rev()))
}

/// 15,334 numbers, of which 8,166 are kept: 8,192 words.
#[test]
fn a_full_table() {
    let mut words = vec![1024, 8];
    for count in [1024, 1024, 1024, 1024, 1024, 1024, 1024, 998] {
        words.extend([count, 0, 0]);
        words.extend(0..count);
    }
    assert_eq!(read(&twice(998, "pos=\nneg=\n")), (Ok(8192), words));
    let place = twice(998, "").len() as u64;
    assert_eq!(answer(&twice(998, "pos=\nneg=0,0\n")), refused(26, place + 5));
    assert_eq!(answer(&twice(998, "pos=0,0\nneg=\n")), refused(26, place));
    assert_eq!(answer(&twice(997, "pos=1023,1023\nneg=\n")), Ok(8192));
    assert_eq!(answer(&twice(997, "pos=1024,1024\nneg=\n")), refused(6, place - 4));
    assert_eq!(answer(&twice(998, "pos=\nneg=\n\n")), refused(27, place + 10));
}

/// A hundred clauses of 22 bytes behind 20: a refusal at the last line, which begins at 2,215, and behind it.
#[test]
fn refused_late() {
    let lines = "head=1,0\npos=2,2\nneg=\n".repeat(100);
    let text = |last: &str| format!("atoms=3\nclauses=100\n{}{last}", lines.strip_suffix("neg=\n").unwrap());
    assert_eq!(answer(&text("")), refused(24, 2215));
    assert_eq!(answer(&text("neg=2,0")), refused(24, 2215));
    assert_eq!(answer(&text("neg=2,0,\n")), refused(25, 2215));
    assert_eq!(answer(&text("neg=3\n")), refused(6, 2215));
    assert_eq!(answer(&text("neg=2,3,2\n")), refused(6, 2215));
    assert_eq!(answer(&text("neg=2,0\n\n")), refused(27, 2223));
    assert_eq!(answer(&text("neg=2,0\n")), Ok(2 + 100 * 6 + 2));
}

/// 65,536 bytes, all of them used; one more is 22, and a line that is not there is 24 at the text's end.
#[test]
fn bytes_of_a_text() {
    assert_eq!(read(&repeats(65536, 1, "pos=\nneg=\n")), (Ok(6), vec![10, 1, 1, 0, 0, 0]));
    assert_eq!(read(&repeats(65535, 1, "pos=\nneg=\n")), (Ok(6), vec![1, 1, 1, 0, 0, 0]));
    assert_eq!(answer(&repeats(65537, 1, "pos=\nneg=\n")), refused(22, 0));
    assert_eq!(answer(&repeats(65536, 1, "pos=\nneg=\n\n")), refused(27, 65535));
    assert_eq!(answer(&repeats(65536, 1, "")), refused(24, 65536));
    assert_eq!(answer(&repeats(65536, 1, "pos=0,0\n")), refused(24, 65536));
    assert_eq!(answer(&repeats(65536, 2, "pos=\nneg=\n")), refused(24, 65536));
    assert_eq!(answer(&repeats(65536, 1, "p")), refused(24, 65535));
    assert_eq!(answer(&repeats(65536, 1, "pos=\nneg=10\n")), refused(6, 65529));
    assert_eq!(answer(&repeats(65536, 1, "pos=\nneg=0,\n")), refused(25, 65529));
}
