//! Document 01's own examples, asked of its literal implementation alone.
use gambrolt_tests::independent::program::{parse, words, Set};
use gambrolt_tests::independent::stable::{is_stable, models};
use gambrolt_tests::independent::steps::{Left, Step};
use gambrolt_tests::independent::{cycle, list, reduce, reduced, stable, table, text, Answer, Refused};

fn refused(number: u64, place: u64) -> Answer {
    Err(Refused { number, place })
}

fn set(atoms: &[u16]) -> Set {
    atoms.iter().copied().collect()
}

/// The reducer's steps.
fn steps(atoms: u16, program: &str) -> Vec<[u16; 4]> {
    let table = words(&parse(atoms, program));
    let (answer, _, list) = reduce::reduce(&table, &vec![9; table.len()], &[0; 1000]);
    list.chunks(4).take(answer.unwrap() as usize).map(|step| step.try_into().unwrap()).collect()
}

fn check(atoms: u16, program: &str, list: &[u16]) -> Answer {
    let table = words(&parse(atoms, program));
    list::check(&table, &vec![9; table.len()], list).0
}

#[test]
fn the_table_in_words() {
    assert_eq!(words(&parse(4, "0|1 <- 2, ~3.")), [4, 1, 2, 1, 1, 0, 1, 2, 3]);
    assert_eq!(table::Table::read(&[4, 1, 2, 1, 1, 0, 1, 2, 3]).unwrap().program(), parse(4, "0|1 <- 2, ~3."));
    assert_eq!(words(&parse(2, "<- .")), [2, 1, 0, 0, 0]);
}

#[test]
fn questions_of_a_table() {
    let check = table::check_table;
    assert_eq!(check(&[]), refused(1, 0));
    assert_eq!(check(&[2]), refused(1, 0));
    assert_eq!(check(&[0; 8193]), refused(1, 0));
    assert_eq!(check(&[1025, 0]), refused(2, 0));
    assert_eq!(check(&[1024, 0]), Ok(0));
    assert_eq!(check(&[1, 2049]), refused(3, 1));
    assert_eq!(check(&[2, 1]), refused(4, 2));
    assert_eq!(check(&[2, 2, 0, 0, 0, 0, 0]), refused(4, 5));
    assert_eq!(check(&[2, 1, 65535, 1, 0]), refused(5, 2));
    assert_eq!(check(&[2, 1, 1, 0, 0, 2]), refused(6, 5));
    assert_eq!(check(&[2, 1, 2, 0, 0, 1, 1]), refused(7, 6));
    assert_eq!(check(&[2, 1, 1, 1, 0, 1, 0]), Ok(0));
    assert_eq!(check(&[2, 0, 7]), refused(8, 2));
}

#[test]
fn stable_sets() {
    let stable = |program: &str, atoms: &[u16]| is_stable(&parse(2, program), &set(atoms));
    assert_eq!(stable::test(&[0, 0], &[]), Ok(1));
    assert_eq!(stable::test(&[0, 1, 0, 0, 0], &[]), Ok(0));
    assert!(stable("0|1. 0 <- 1. 1 <- 0.", &[0, 1]));
    assert!(!stable("0|1. 0 <- 1. 1 <- 0.", &[0]));
    assert!(!stable("0 <- 1. 0 <- ~1. 1 <- 0.", &[0, 1]));
    assert!(stable("0 <- ~1. 1 <- ~0.", &[0]));
    assert!(!stable("0 <- ~1. 1 <- ~0.", &[0, 1]));
    assert_eq!(models(&parse(2, "0 <- ~1. 1 <- ~0.")), [set(&[0]), set(&[1])]);
    assert_eq!(models(&parse(3, "0|1. <- 0.")), [set(&[1])]);
}

#[test]
fn questions_of_a_set() {
    let twenty = [20, 0];
    assert_eq!(stable::test(&twenty, &[0; 17]), refused(19, 0));
    assert_eq!(stable::test(&twenty, &(0..16).collect::<Vec<_>>()), Ok(0));
    assert_eq!(stable::test(&twenty, &[3, 20]), refused(20, 1));
    assert_eq!(stable::test(&twenty, &[3, 4, 4]), refused(21, 2));
}

/// Slip 3 of document 02.
#[test]
fn lists_of_models() {
    let list = |atoms: u16, program: &str, room: usize| stable::list(&words(&parse(atoms, program)), &vec![9; room]);
    assert_eq!(list(2, "0 <- ~1. 1 <- ~0.", 3), (Ok(2), vec![1, 2, 9]));
    assert_eq!(list(2, "0 <- ~1. 1 <- ~0.", 1), (refused(31, 0), vec![9]));
    assert_eq!(list(2, "0|1. 0 <- 1. 1 <- 0.", 1), (Ok(1), vec![3]));
    assert_eq!(list(2, "0 <- 1. 0 <- ~1. 1 <- 0.", 0), (Ok(0), vec![]));
    // {0, 1}, {0, 2} and {3}: the words 3, 5 and 8
    assert_eq!(list(4, "3 <- ~0. 0 <- ~3. 1|2 <- 0.", 4), (Ok(3), vec![3, 5, 8, 9]));
    assert_eq!(list(0, "", 1), (Ok(1), vec![0]));
    assert_eq!(list(1, "0 <- ~0.", 1), (Ok(0), vec![9]));
    assert_eq!(list(17, "", 0), (refused(30, 0), vec![]));
    assert_eq!(stable::list(&[17, 0, 0], &[]).0, refused(8, 2));
}

#[test]
fn cycles() {
    let cycle = |program: &str| cycle::cycle(&words(&parse(4, program))).unwrap();
    assert_eq!(cycle("0 <- 0."), 1);
    assert_eq!(cycle("0 <- 0, ~1."), 1);
    assert_eq!(cycle("0 <- 1. 1 <- 2. 2 <- 3."), 0);
    assert_eq!(cycle("0 <- 1. 1 <- 2. 2|0 <- 3. 3 <- 1."), 1);
    assert_eq!(cycle("<- 0. 0."), 0);
    // negative literals lead nowhere
    assert_eq!(cycle("0 <- ~0."), 0);
    assert_eq!(cycle("0 <- ~1. 1 <- ~0."), 0);
    assert_eq!(cycle("0 <- 1. 1 <- ~2. 2|0 <- 3. 3 <- 1."), 0);
    assert_eq!(cycle("0 <- 1. 1 <- ~2. 2 <- 3. 3 <- 1."), 0);
}

#[test]
fn the_reducers_steps() {
    assert_eq!(steps(2, "0 <- 1. 1 <- 0."), [[7, 0, 0, 1], [6, 1, 0, 0]]);
    assert_eq!(steps(2, "0 <- 1."), [[6, 0, 0, 1]]);
    assert_eq!(steps(2, "0. 0."), [[8, 1, 0, 0]], "slip 7 for document 01's 8,0,1,0");
    assert_eq!(steps(2, "0 <- ~0."), [[0; 4]; 0]);
    assert_eq!(steps(4, "0. 1 <- 0, ~2. 3 <- 3. 2 <- 3."), [[1, 2, 0, 3], [3, 1, 0, 0], [6, 3, 0, 3], [4, 1, 0, 2]]);
}

#[test]
fn traps() {
    assert_eq!(steps(3, "0|1. 2 <- 0."), [[0; 4]; 0], "a disjunctive fact is used for success");
    assert_eq!(steps(2, "0 <- 0. 1 <- 0."), [[1, 0, 0, 0], [6, 1, 0, 0]], "a head is looked up in a deleted clause");
    assert_eq!(steps(2, "0 <- 1, ~0. 1 <- ~0."), [[0; 4]; 0], "negative atoms count in the reach");
}

#[test]
fn checked_lists() {
    assert_eq!(check(2, "0 <- 1.", &[7, 0, 0, 1]), refused(32, 0));
    assert_eq!(check(2, "0.", &[8, 0, 0, 0]), refused(14, 0));
    assert_eq!(check(2, "<- .", &[5, 0, 0, 0]), refused(14, 0));
    assert_eq!(check(2, "0 <- 1. 1 <- 0.", &[7, 0, 0, 1, 6, 1, 0, 0]), Ok(2));
    assert_eq!(check(2, "0 <- 1. 1 <- 0.", &[7, 0, 0, 1, 7, 0, 0, 1]), refused(13, 1));
    assert_eq!(check(2, "0.", &[0, 0, 0, 0]), refused(12, 0));
    assert_eq!(check(2, "0 <- 0.", &[1, 0, 0, 2]), refused(15, 0));
    assert_eq!(check(2, "0 <- 0.", &[1, 0, 0, 1]), refused(16, 0));
    assert_eq!(check(2, "0. 0.", &[8, 0, 1, 1]), refused(15, 0));
    assert_eq!(check(2, "0 <- 0.", &[1, 0, 1, 0]), refused(14, 0));
    assert_eq!(check(2, "0.", &[1, 0, 0]), refused(11, 0));
    assert_eq!(check(2, "0.", &[0; 32764]), refused(11, 0));
}

/// Slip 1 of document 02. A partner with one head atom that is no fact, a disjunctive fact, the empty clause; 15 comes before 29, and 29 before 16.
#[test]
fn a_success_names_its_atom() {
    assert_eq!(check(2, "0. 1 <- 0.", &[3, 1, 0, 0]), Ok(1));
    assert_eq!(check(2, "1. 0 <- 1.", &[3, 1, 0, 0]), refused(29, 0));
    assert_eq!(check(2, "1. 0 <- 1.", &[3, 1, 0, 1]), Ok(1));
    assert_eq!(steps(2, "1. 0 <- 1."), [[3, 1, 0, 1]]);
    assert_eq!(check(3, "0 <- 1. 2 <- 0.", &[3, 1, 0, 1]), refused(29, 0));
    assert_eq!(check(3, "0 <- 1. 2 <- 0.", &[3, 1, 0, 0]), refused(16, 0));
    assert_eq!(check(3, "0|1. 2 <- 0.", &[3, 1, 0, 0]), refused(16, 0));
    assert_eq!(check(2, "<- . 0 <- 1.", &[3, 1, 0, 1]), refused(16, 0));
    assert_eq!(check(2, "1. 0 <- 0.", &[3, 1, 0, 1]), refused(16, 0));
    assert_eq!(check(2, "1. 0 <- 1.", &[3, 1, 0, 2]), refused(15, 0));
    assert_eq!(check(0, "<- . <- .", &[3, 0, 1, 0]), refused(15, 0));
    assert_eq!(check(2, "1. 0 <- ~1.", &[5, 1, 0, 0]), Ok(1), "29 is asked of kind 3 only");
}

/// Slip 6 of document 02: an atom in a kept head or not, in the target's positive body or not; a head that goes. 14 and 15 come
/// before 32, and 32 before 16.
#[test]
fn a_failure_is_no_loop() {
    assert_eq!(check(2, "0 <- 1.", &[7, 0, 0, 1]), refused(32, 0));
    assert_eq!(check(2, "0 <- 1.", &[6, 0, 0, 1]), Ok(1));
    assert_eq!(check(2, "0 <- 1.", &[7, 0, 0, 0]), refused(16, 0), "in a head, and not in the body");
    assert_eq!(check(3, "0 <- 1.", &[7, 0, 0, 2]), refused(32, 0), "in no head, and not in the body");
    assert_eq!(check(3, "0 <- 1.", &[6, 0, 0, 2]), refused(16, 0), "32 is asked of kind 7 alone");
    assert_eq!(check(3, "0 <- 1.", &[1, 0, 0, 2]), refused(16, 0), "32 is asked of kind 7 alone");
    assert_eq!(check(2, "0 <- 1.", &[7, 0, 0, 2]), refused(15, 0));
    assert_eq!(check(2, "0 <- 1.", &[7, 0, 1, 1]), refused(14, 0));
    assert_eq!(check(2, "0 <- 1.", &[7, 1, 0, 1]), refused(13, 0));
    assert_eq!(check(2, "1. 0 <- 1.", &[7, 1, 0, 1]), refused(16, 0), "in a head, and in the reach");
    assert_eq!(check(1, "0 <- 0.", &[7, 0, 0, 0]), Ok(1), "the target's own head is a kept head");
    assert_eq!(check(2, "0 <- 1. 1 <- 0.", &[7, 0, 0, 1, 7, 1, 0, 0]), refused(32, 1), "the head of clause 0 is gone");
    assert_eq!(check(2, "0 <- 1. 1 <- 0.", &[7, 0, 0, 1, 6, 1, 0, 0]), Ok(2));
    assert_eq!(check(2, "0 <- ~1.", &[7, 0, 0, 1]), refused(32, 0), "in no positive body");
    assert_eq!(check(1, "<- 0.", &[7, 0, 0, 0]), refused(32, 0), "a constraint");
    assert_eq!(check(1, "<- .", &[7, 0, 0, 0]), refused(32, 0), "the empty clause");
}

/// Slip 7 of document 02: equal as given, equal by a drop, empty, beside a third that is within both, and within without being
/// equal. The checker takes either order.
#[test]
fn the_earlier_of_equal_clauses_stays() {
    assert_eq!(steps(1, "0. 0."), [[8, 1, 0, 0]]);
    assert_eq!(steps(1, "0. 0. 0."), [[8, 1, 0, 0], [8, 2, 0, 0]]);
    assert_eq!(steps(2, "0. 1 <- 0. 1."), [[3, 1, 0, 0], [8, 2, 1, 0]]);
    assert_eq!(steps(2, "1. 0. 1 <- 0."), [[3, 2, 1, 0], [8, 2, 0, 0]]);
    assert_eq!(steps(0, "<- . <- ."), [[5, 1, 0, 0]]);
    assert_eq!(steps(1, "0. <- . <- ."), [[5, 0, 1, 0], [5, 2, 1, 0]]);
    assert_eq!(steps(2, "0|1. 0|1. 0."), [[8, 0, 2, 0], [8, 1, 2, 0]]);
    assert_eq!(steps(2, "0|1. 0."), [[8, 0, 1, 0]]);
    for step in [[8, 0, 1, 0], [8, 1, 0, 0]] {
        assert_eq!(check(2, "0. 0.", &step), Ok(1));
        assert_eq!(check(2, "0 <- 1, ~1. 0 <- 1, ~1.", &step), Ok(1));
    }
    for step in [[5, 0, 1, 0], [5, 1, 0, 0], [8, 0, 1, 0], [8, 1, 0, 0]] {
        assert_eq!(check(0, "<- . <- .", &step), Ok(1));
    }
}

/// Which steps are passed over, of those that apply: kind 5 or 8, the target the lower number, all three parts equal as left.
#[test]
fn steps_passed_over() {
    let over = |atoms: u16, program: &str, list: &[u16]| -> Vec<[u16; 4]> {
        let words = words(&parse(atoms, program));
        let (_, marks) = list::check(&words, &vec![1; words.len()], list);
        let table = table::Table::read(&words).unwrap();
        let left = Left::new(&table, &marks);
        let open = reduce::applicable(&left).into_iter();
        open.filter(|&step| reduce::passed_over(&left, step)).map(|step| step.words()).collect()
    };
    assert_eq!(over(1, "0. 0. 0.", &[]), [[8, 0, 1, 0], [8, 0, 2, 0], [8, 1, 2, 0]]);
    assert_eq!(over(1, "0. 0. 0.", &[8, 0, 1, 0]), [[8, 1, 2, 0]]);
    assert_eq!(over(0, "<- . <- .", &[]), [[5, 0, 1, 0], [8, 0, 1, 0]]);
    assert_eq!(over(2, "0. 1 <- 0. 1.", &[]), [[0; 4]; 0]);
    assert_eq!(over(2, "0. 1 <- 0. 1.", &[3, 1, 0, 0]), [[8, 1, 2, 0]]);
    assert_eq!(over(2, "1. 0. 1 <- 0.", &[3, 2, 1, 0]), [[8, 0, 2, 0]]);
    assert_eq!(over(2, "0|1. 0. 0 <- ~1. 0 <- 1.", &[]), [[0; 4]; 0]);
    // kind 3 has a partner too, and is never passed over: of 0 <- 0. and 0. the parts differ
    assert_eq!(over(2, "0 <- 0. 0 <- 0. 0.", &[]), [[8, 0, 1, 0]]);
}

/// Slip 8 of document 02: each effect, what D goes through, and the reducer's lists.
#[test]
fn atoms_that_cannot_be() {
    let left = |atoms: u16, program: &str, list: &[u16]| {
        let table = words(&parse(atoms, program));
        let (answer, marks) = list::check(&table, &vec![1; table.len()], list);
        answer.map(|_| table::Table::read(&table).unwrap().program_left(&marks))
    };
    assert_eq!(left(3, "<- 0. 0|1. 2 <- 0. 2 <- ~0.", &[9, 0, 0, 0]), Ok(parse(3, "1. 2.")));
    assert_eq!(left(3, "<- 0. 0 <- 1. 1 <- ~2. 2 <- ~1.", &[9, 0, 0, 1]), Ok(parse(3, "<- 0. <- ~2. 2.")));
    assert_eq!(check(2, "0. <- 0.", &[9, 1, 0, 1]), refused(16, 0), "in no kept clause");
    assert_eq!(check(4, "0 <- 1, ~2. <- 0. 1|3. 2 <- 1.", &[9, 1, 0, 1]), refused(16, 0), "a negative atom");
    assert_eq!(check(4, "0|2 <- 1. <- 0. 1|3.", &[9, 1, 0, 1]), refused(16, 0), "two head atoms");
    assert_eq!(models(&parse(4, "0 <- 1, ~2. <- 0. 1|3. 2 <- 1.")), [set(&[1, 2]), set(&[3])]);
    assert_eq!(models(&parse(4, "0|2 <- 1. <- 0. 1|3.")), [set(&[1, 2]), set(&[3])]);
    assert_eq!(check(2, "0|1. <- 0.", &[9, 1, 1, 0]), refused(14, 0));
    assert_eq!(check(2, "0|1. <- 0.", &[9, 1, 0, 2]), refused(15, 0));
    assert_eq!(check(2, "0|1. <- 0.", &[10, 1, 0, 0]), refused(12, 0));
    assert_eq!(steps(3, "<- 0. 0 <- 1. 1 <- ~2. 2 <- ~1."), [[9, 0, 0, 0], [9, 1, 0, 1], [5, 2, 3, 0]]);
    assert_eq!(steps(2, "0|1. <- 0. <- 0, 1."), [[8, 2, 1, 0], [9, 1, 0, 0]]);
}

/// The steps that the reducer chooses among are those that the questions let through, of all four words near the program's.
#[test]
fn choices_are_all_that_pass() {
    for program in [
        "1. 0 <- 1. 0|1. 0 <- 0, ~1. <- .",
        "0. 0 <- 0, 1, ~2. 1 <- ~0. 2 <- 2.",
        "<- 1. 1 <- 2, ~1. 2 <- 1. 2.",
        "0|2. 1 <- 0, 2. 0 <- 1.",
        "0 <- 1. 1 <- 0. 0 <- 2. <- 1, 2.",
        "<- 0. 0 <- 1. 1 <- ~2. 2|0. <- 1, 2.",
    ] {
        let words = words(&parse(3, program));
        let table = table::Table::read(&words).unwrap();
        let left = Left::new(&table, &vec![1; words.len()]);
        let all = (0..5 * 5 * 5 * 11u16).map(|k| Step::new(k / 125, k / 25 % 5, k / 5 % 5, k % 5));
        let passed: Vec<Step> = all.filter(|&step| list::questions(&left, step, 0).is_ok()).collect();
        assert_eq!(reduce::applicable(&left), passed, "{program}");
    }
}

#[test]
fn marks_left() {
    let table = words(&parse(2, "0. 1 <- 0."));
    let (answer, marks) = list::check(&table, &[7; 13], &[3, 1, 0, 0, 8, 1, 0, 0]);
    assert_eq!((answer, &marks[..]), (refused(16, 1), &[1, 1, 1, 1, 1, 1, 1, 1, 1, 1, 0, 7, 7][..]));
    let (answer, marks) = list::check(&table, &[7; 12], &[10, 0, 0, 0]);
    assert_eq!((answer, &marks[..]), (refused(12, 0), &[1, 1, 1, 1, 1, 1, 1, 1, 1, 1, 1, 7][..]));
    assert_eq!(list::check(&table, &[7; 10], &[]), (refused(9, 0), vec![7; 10]));
}

#[test]
fn reduced_tables() {
    let table = words(&parse(2, "0. 1 <- 0."));
    let marks = [1, 1, 0, 1, 1, 1, 1, 1, 1, 1, 0];
    let (answer, out) = reduced::reduced_table(&table, &marks, &[5; 7]);
    assert_eq!((answer, &out[..]), (Ok(6), &[2, 1, 1, 0, 0, 1, 5][..]));
    assert_eq!(reduced::reduced_table(&table, &marks, &[5; 5]), (refused(18, 0), vec![5; 5]));
    for place in [0, 1, 3, 4, 7, 8] {
        let mut marks = [1; 11];
        marks[place] = 0;
        assert_eq!(reduced::reduced_table(&table, &marks, &[5; 11]).0, refused(10, place as u64));
    }
    assert_eq!(reduced::reduced_table(&table, &[2; 11], &[5; 11]).0, refused(10, 0));
    assert_eq!(reduced::reduced_table(&table, &[1; 10], &[5; 11]).0, refused(9, 0));
}

#[test]
fn texts() {
    let sample =
        "atoms=4\nclauses=4\nhead=0\npos=\nneg=\nhead=1\npos=0\nneg=2\nhead=3\npos=3\nneg=\nhead=2\npos=3\nneg=\n";
    let table = words(&parse(4, "0. 1 <- 0, ~2. 3 <- 3. 2 <- 3."));
    let (answer, read) = text::read_text(sample.as_bytes(), &[7; 8192]);
    assert_eq!((answer, &read[..table.len()]), (Ok(table.len() as u64), &table[..]));
    assert!(read[table.len()..].iter().all(|&word| word == 7));
    let (answer, written) = text::write_text(&table, &[7; 100]);
    assert_eq!(&written[..answer.unwrap() as usize], sample.as_bytes());
    assert_eq!(text::write_text(&table, &[7; 10]), (refused(28, 0), vec![7; 10]));
}

#[test]
fn questions_of_a_text() {
    let read = |text: &str| text::read_text(text.as_bytes(), &[0; 8192]).0;
    assert_eq!(text::read_text(&[0; 65537], &[0; 8192]).0, refused(22, 0));
    assert_eq!(text::read_text(b"", &[0; 8191]).0, refused(23, 0));
    assert_eq!(read(""), refused(24, 0));
    assert_eq!(read("atoms=2clauses=1\n"), refused(25, 0));
    assert_eq!(read("atoms=02\n"), refused(25, 0));
    assert_eq!(read("atoms=12345\n"), refused(25, 0));
    assert_eq!(read("atoms=\n"), refused(25, 0));
    assert_eq!(read("atoms=1025\n"), refused(2, 0));
    assert_eq!(read("atoms=2\nclauses=1"), refused(24, 8));
    assert_eq!(read("atoms=2\nclauses=2049\n"), refused(3, 8));
    assert_eq!(read("atoms=2\nclauses=1\nhead=1,\n"), refused(25, 18));
    assert_eq!(read("atoms=2\nclauses=1\nhead=2\n"), refused(6, 18));
    assert_eq!(read("atoms=2\nclauses=1\nhead=0,1\npos=\nneg=\n"), Ok(7));
    assert_eq!(read("atoms=2\nclauses=0\n\n"), refused(27, 18));
    let long = |count: u16| (0..count).map(|number| number.to_string()).collect::<Vec<_>>().join(",");
    assert_eq!(read(&format!("atoms=2\nclauses=1\nhead={}\n", long(8188))), refused(26, 18));
    assert_eq!(read(&format!("atoms=2\nclauses=1\nhead={}\n", long(8187))), refused(6, 18));
}

/// Slip 5 of document 02.
#[test]
fn lists_in_any_order() {
    let read = |lines: &str| {
        let (answer, table) = text::read_text(format!("atoms=3\nclauses=1\n{lines}").as_bytes(), &[7; 8192]);
        answer.map(|words| table[..words as usize].to_vec())
    };
    let no = |number: u64, place: u64| Err(Refused { number, place });
    assert_eq!(read("head=1,0,1\npos=2,2\nneg=2,1,0\n"), Ok(vec![3, 1, 2, 1, 3, 0, 1, 2, 0, 1, 2]));
    assert_eq!(read("head=0,1\npos=2\nneg=0,1,2\n"), Ok(vec![3, 1, 2, 1, 3, 0, 1, 2, 0, 1, 2]));
    assert_eq!(read("head=1,0,3\npos=\nneg=\n"), no(6, 18));
    assert_eq!(read("head=1,0,01\npos=\nneg=\n"), no(25, 18), "25 on the whole value");
    let long = |again: u16| (0..8187).rev().chain(0..again).map(|x: u16| x.to_string()).collect::<Vec<_>>().join(",");
    assert_eq!(read(&format!("head={}\n", long(1000))), no(6, 18), "26 counts what is kept");
    assert_eq!(read(&format!("head={},8187\n", long(0))), no(26, 18));
    let first = |text: &str| text::read_text(text.as_bytes(), &[7; 8192]).0;
    assert_eq!(first("atoms=1,1\n"), refused(25, 0));
    assert_eq!(first("atoms=1\nclauses=1,1\n"), refused(25, 8));
}
