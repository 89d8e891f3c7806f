//! Document 01's examples, asked of the library: those that are run and compared, with the values that it gives.
#![deny(warnings)]
use gambrolt_tests::compare::{counted, Tally};
use gambrolt_tests::independent::program::{parse, words, Clause, Program};
use gambrolt_tests::independent::table::Table;
use gambrolt_tests::independent::{Answer, Refused};
use gambrolt_tests::library;
use gambrolt_tests::make::shapes::SHAPES;
use gambrolt_tests::rescan::Reducer;

fn refused(number: u64, place: u64) -> Answer {
    Err(Refused { number, place })
}

/// The words of a program as document 01 writes it.
fn table(atoms: u16, program: &str) -> Vec<u16> {
    words(&parse(atoms, program))
}

/// The reducer's steps, and the marks that they leave; as many marks are 0 as there are steps, or more where one is of kind 9,
/// and the list's other words stay.
fn reduce(table: &[u16]) -> (Vec<[u16; 4]>, Vec<u8>) {
    let (steps, marks, list) = library::reduce(table, &vec![7; table.len()], &vec![9; 4 * table.len()]);
    let (made, rest) = list.split_at(4 * steps as usize);
    counted(made, &marks);
    assert!(rest.iter().all(|&word| word == 9));
    (made.chunks(4).map(|step| step.try_into().unwrap()).collect(), marks)
}

fn steps(table: &[u16]) -> Vec<[u16; 4]> {
    reduce(table).0
}

/// The table that the reducer's marks leave.
fn reduced(table: &[u16]) -> Vec<u16> {
    let (written, mut out) = library::reduced_table(table, &reduce(table).1, table);
    out.truncate(written as usize);
    out
}

/// The first `facts` atoms are facts, and the last atom has all others as conditions.
fn conditions(atoms: u16, facts: u16) -> Vec<u16> {
    let fact = |atom: u16| Clause { head: [atom].into(), ..Clause::default() };
    let mut clauses: Vec<Clause> = (0..facts).map(fact).collect();
    clauses.push(Clause { head: [atoms - 1].into(), pos: (0..atoms - 1).collect(), ..Clause::default() });
    words(&Program { atoms, clauses })
}

/// The library and a second reducer make these steps, and the checker takes them. The literal reducer takes half a minute for a
/// thousand steps at a thousand clauses; there the rescanning one is asked.
fn reduced_by(table: &[u16], expected: &[[u16; 4]]) {
    assert_eq!(steps(table), expected);
    let read = Table::read(table).unwrap();
    if table.len() < 2000 {
        let room = vec![9; 4 * read.clauses_and_literals()];
        let (answer, _, list) = Tally::new().reduce(table, &vec![7; table.len()], &room);
        assert_eq!((answer, &list[..4 * expected.len()]), (Ok(expected.len() as u64), &expected.concat()[..]));
    } else {
        assert_eq!(Reducer::new(&read.program()).run(), expected);
    }
    assert_eq!(check(table, &expected.concat()), Ok(expected.len() as u64));
}

/// The checker's answer, whose marks at 0 are counted as the steps that it takes.
fn check(table: &[u16], list: &[u16]) -> Answer {
    let (answer, marks) = Tally::new().check(table, &vec![7; table.len()], list);
    counted(&list[..4 * answer.unwrap_or_else(|refused| refused.place) as usize], &marks);
    answer
}

#[test]
fn three_hundred_conditions_and_299_facts() {
    let table = conditions(301, 299);
    let successes: Vec<[u16; 4]> = (0..299).map(|fact| [3, 299, fact, fact]).collect();
    reduced_by(&table, &[&successes[..], &[[6, 299, 0, 299]]].concat());
    assert_eq!(check(&table, &(0..299).flat_map(|fact| [3, 299, fact, 0]).collect::<Vec<_>>()), refused(29, 1));
    assert_eq!(check(&table, &[&successes[..], &[[3, 299, 0, 0]]].concat().concat()), refused(16, 299));
    assert_eq!(check(&table, &[&successes[..], &[[5, 298, 299, 0]]].concat().concat()), refused(16, 299));
    let facts = parse(301, &(0..299).map(|i| format!("{i}.")).collect::<String>());
    assert_eq!(reduced(&table), words(&facts), "300 never becomes a fact");
}

#[test]
fn three_hundred_conditions_and_300_facts() {
    let table = conditions(301, 300);
    let successes: Vec<[u16; 4]> = (0..300).map(|fact| [3, 300, fact, fact]).collect();
    reduced_by(&table, &successes);
    assert_eq!(check(&table, &[&successes[..], &[[8, 300, 300, 0]]].concat().concat()), refused(14, 300));
    let facts = parse(301, &(0..301).map(|i| format!("{i}.")).collect::<String>());
    assert_eq!(reduced(&table), words(&facts), "300 becomes a fact");
}

#[test]
fn a_thousand_conditions() {
    reduced_by(&conditions(1001, 1000), &(0..1000).map(|fact| [3, 1000, fact, fact]).collect::<Vec<_>>());
}

/// Slip 1 of document 02.
#[test]
fn successes_name_their_atoms() {
    assert_eq!(steps(&table(2, "1. 0 <- 1.")), [[3, 1, 0, 1]]);
    let check = |atoms: u16, program: &str, list: &[u16]| check(&table(atoms, program), list);
    assert_eq!(check(2, "0. 1 <- 0.", &[3, 1, 0, 0]), Ok(1));
    assert_eq!(check(2, "1. 0 <- 1.", &[3, 1, 0, 0]), refused(29, 0));
    assert_eq!(check(2, "1. 0 <- 1.", &[3, 1, 0, 1]), Ok(1));
    assert_eq!(check(3, "0 <- 1. 2 <- 0.", &[3, 1, 0, 1]), refused(29, 0), "one head atom, and no fact");
    assert_eq!(check(3, "0 <- 1. 2 <- 0.", &[3, 1, 0, 0]), refused(16, 0));
    assert_eq!(check(3, "0|1. 2 <- 0.", &[3, 1, 0, 0]), refused(16, 0));
    assert_eq!(check(3, "0|1. 2 <- 0.", &[3, 1, 0, 2]), refused(16, 0), "two head atoms pass 29");
}

/// Slip 6 of document 02.
#[test]
fn failures_are_no_loops() {
    assert_eq!(steps(&table(2, "0 <- 1.")), [[6, 0, 0, 1]]);
    assert_eq!(steps(&table(2, "0 <- 1. 1 <- 0.")), [[7, 0, 0, 1], [6, 1, 0, 0]]);
    let check = |atoms: u16, program: &str, list: &[u16]| check(&table(atoms, program), list);
    assert_eq!(check(2, "0 <- 1.", &[7, 0, 0, 1]), refused(32, 0));
    assert_eq!(check(2, "0 <- 1.", &[6, 0, 0, 1]), Ok(1));
    assert_eq!(check(2, "0 <- 1.", &[7, 0, 0, 0]), refused(16, 0), "in a head, and not in the body");
    assert_eq!(check(3, "0 <- 1.", &[7, 0, 0, 2]), refused(32, 0), "in no head, and not in the body");
    assert_eq!(check(3, "0 <- 1.", &[6, 0, 0, 2]), refused(16, 0), "32 is asked of kind 7 alone");
    assert_eq!(check(2, "1. 0 <- 1.", &[7, 1, 0, 1]), refused(16, 0), "in a head, and in the reach");
    assert_eq!(check(2, "0 <- 1. 1 <- 0.", &[7, 0, 0, 1, 7, 1, 0, 0]), refused(32, 1), "the head of clause 0 is gone");
    assert_eq!(check(2, "0 <- 1. 1 <- 0.", &[7, 0, 0, 1, 6, 1, 0, 0]), Ok(2));
    // rings of two, each taken apart by a loop and the failure behind it
    let rings = table(600, &(0..300).map(|i| format!("{0} <- {1}. {1} <- {0}.", 2 * i, 2 * i + 1)).collect::<String>());
    let ring = |i: u16, kind: u16| [7, 2 * i, 0, 2 * i + 1, kind, 2 * i + 1, 0, 2 * i];
    let rings_with = |last: u16| (0..300).flat_map(|i| ring(i, if i == 299 { last } else { 6 })).collect::<Vec<_>>();
    assert_eq!(self::check(&rings, &rings_with(6)), Ok(600));
    assert_eq!(self::check(&rings, &rings_with(7)), refused(32, 599));
}

/// Slip 7 of document 02.
#[test]
fn the_earlier_of_equal_clauses_stays() {
    assert_eq!(steps(&table(1, "0. 0.")), [[8, 1, 0, 0]]);
    assert_eq!(steps(&table(0, "<- . <- .")), [[5, 1, 0, 0]]);
    // the program that is left has the clauses in the order of the first of each
    assert_eq!(reduced(&table(3, "2. 0|1. 0|1. 2. 0|1.")), table(3, "2. 0|1."));
    assert_eq!(reduced(&table(3, "0|1. 2. 2. 0|1. 2.")), table(3, "0|1. 2."));
    for step in [[8, 0, 1, 0], [8, 1, 0, 0]] {
        assert_eq!(check(&table(1, "0. 0."), &step), Ok(1), "the checker takes either order");
    }
    for step in [[5, 0, 1, 0], [5, 1, 0, 0], [8, 0, 1, 0], [8, 1, 0, 0]] {
        assert_eq!(check(&table(0, "<- . <- ."), &step), Ok(1), "the checker takes either order");
    }
}

/// Slip 8 of document 02.
#[test]
fn atoms_that_cannot_be() {
    let handed_on = table(3, "<- 0. 0 <- 1. 1 <- ~2. 2 <- ~1.");
    assert_eq!(steps(&handed_on), [[9, 0, 0, 0], [9, 1, 0, 1], [5, 2, 3, 0]]);
    assert_eq!(reduced(&handed_on), table(3, "2."));
    assert_eq!(steps(&table(2, "0|1. <- 0. <- 0, 1.")), [[8, 2, 1, 0], [9, 1, 0, 0]]);
    let check = |atoms: u16, program: &str, list: &[u16]| check(&table(atoms, program), list);
    assert_eq!(check(3, "<- 0. 0 <- 1. 1 <- ~2. 2 <- ~1.", &[9, 0, 0, 1]), Ok(1), "the atom is not in the target");
    assert_eq!(check(2, "0. <- 0.", &[9, 1, 0, 1]), refused(16, 0), "in no kept clause");
    assert_eq!(check(4, "0 <- 1, ~2. <- 0. 1|3. 2 <- 1.", &[9, 1, 0, 1]), refused(16, 0), "through a negative atom");
    assert_eq!(check(4, "0|2 <- 1. <- 0. 1|3.", &[9, 1, 0, 1]), refused(16, 0), "through two head atoms");
    assert_eq!(check(2, "0|1. <- 0.", &[9, 1, 1, 0]), refused(14, 0), "the partner is unused");
    assert_eq!(check(2, "0|1. <- 0.", &[10, 1, 0, 0]), refused(12, 0));
    assert_eq!(check(3, "<- 0. 0|1. 2 <- 1.", &[9, 0, 0, 0, 3, 2, 1, 1]), Ok(2), "a disjunction as left is a fact");
}

#[test]
fn limits() {
    let mut tally = Tally::new();
    assert_eq!(tally.check_table(&[1024, 0]), Ok(0));
    assert_eq!(tally.check_table(&[1025, 0]), refused(2, 0));
    assert_eq!(tally.test(&[16, 0], &(0..16).collect::<Vec<_>>()), Ok(0));
    assert_eq!(tally.test(&[17, 0], &(0..17).collect::<Vec<_>>()), refused(19, 0));
    assert_eq!(tally.check_table(&[0; 8193]), refused(1, 0));
    assert_eq!(tally.check_table(&[0; 8192]), refused(8, 2));
    assert_eq!(tally.check_table(&[0, 2048]), refused(4, 2));
    assert_eq!(tally.check_table(&[0, 2049]), refused(3, 1));
}

#[test]
fn traps() {
    assert_eq!(steps(&table(3, "0|1. 2 <- 0.")), [[0; 4]; 0], "a disjunctive fact is used for success");
    assert_eq!(
        steps(&table(2, "0 <- 0. 1 <- 0.")),
        [[1, 0, 0, 0], [6, 1, 0, 0]],
        "a head is looked up in a deleted clause"
    );
    assert_eq!(steps(&table(2, "0 <- 1, ~0. 1 <- ~0.")), [[0; 4]; 0], "negative atoms count in the reach");
}

#[test]
fn the_sample() {
    let text =
        "atoms=4\nclauses=4\nhead=0\npos=\nneg=\nhead=1\npos=0\nneg=2\nhead=3\npos=3\nneg=\nhead=2\npos=3\nneg=\n";
    let (answer, read) = Tally::new().read_text(text.as_bytes(), &[0; 8192]);
    let read = &read[..answer.unwrap() as usize];
    assert_eq!(read, table(4, "0. 1 <- 0, ~2. 3 <- 3. 2 <- 3."));
    assert_eq!(steps(read), [[1, 2, 0, 3], [3, 1, 0, 0], [6, 3, 0, 3], [4, 1, 0, 2]]);
    assert_eq!(reduced(read), table(4, "0. 1."));
    let (answer, out) = Tally::new().write_text(&reduced(read), &[0; 100]);
    let written = String::from_utf8(out[..answer.unwrap() as usize].to_vec()).unwrap();
    assert_eq!(written, "atoms=4\nclauses=2\nhead=0\npos=\nneg=\nhead=1\npos=\nneg=\n");
}

#[test]
fn small_programs() {
    assert_eq!(steps(&table(2, "0 <- 1. 1 <- 0.")), [[7, 0, 0, 1], [6, 1, 0, 0]]);
    assert_eq!(steps(&table(2, "0 <- 1.")), [[6, 0, 0, 1]]);
    assert_eq!(steps(&table(2, "0. 0.")), [[8, 1, 0, 0]], "slip 7 for document 01's 8,0,1,0");
    assert_eq!(steps(&table(2, "0 <- ~0.")), [[0; 4]; 0]);
    let check = |program: &str, list: &[u16]| Tally::new().check(&table(2, program), &[7; 20], list).0;
    assert_eq!(check("0 <- 1.", &[7, 0, 0, 1]), refused(32, 0));
    assert_eq!(check("0.", &[8, 0, 0, 0]), refused(14, 0));
    assert_eq!(check("<- .", &[5, 0, 0, 0]), refused(14, 0));
    let test = |program: &str, set: &[u16]| Tally::new().test(&table(2, program), set);
    assert_eq!(test("", &[]), Ok(1));
    assert_eq!(test("<- .", &[]), Ok(0));
    assert_eq!(test("0|1. 0 <- 1. 1 <- 0.", &[0, 1]), Ok(1));
    assert_eq!(test("0|1. 0 <- 1. 1 <- 0.", &[0]), Ok(0));
    assert_eq!(test("0 <- 1. 0 <- ~1. 1 <- 0.", &[0, 1]), Ok(0));
    assert_eq!(test("0 <- ~1. 1 <- ~0.", &[0]), Ok(1));
    assert_eq!(test("0 <- ~1. 1 <- ~0.", &[0, 1]), Ok(0));
    assert_eq!(Tally::new().cycle(&table(2, "0 <- ~1. 1 <- ~0.")), Ok(0));
}

/// The header says how much stack a call takes at most.
#[test]
fn a_stack_of_192_kilobytes() {
    let calls = || {
        let reduced = |name: &str| {
            let shape = SHAPES.iter().find(|shape| shape.name == name).unwrap();
            let table = shape.table(shape.full);
            let (steps, marks, list) = library::reduce(&table, &vec![0; table.len()], &vec![0; 32760]);
            assert_eq!(library::check(&table, &marks, &list[..4 * steps as usize]).0, steps);
            library::reduced_table(&table, &marks, &table);
            table
        };
        reduced("disjunctions that constraints make facts");
        let table = reduced("random sparse");
        assert_eq!(library::test(&table, &(0..16).collect::<Vec<_>>()), 0);
        assert_eq!(library::cycle(&table), 1);
        let pairs = words(&parse(16, "0|1. 2|3. 4|5. 6|7. 8|9. 10|11. 12|13. 14|15."));
        assert_eq!(library::models(&pairs, &vec![0; 12870]).0, 256);
        let (bytes, text) = library::write_text(&table, &vec![0; 65536]);
        assert_eq!(library::read_text(&text[..bytes as usize], &vec![0; 8192]).0, table.len() as u64);
        let unordered = b"atoms=2\nclauses=1\nhead=1,0,1\npos=\nneg=\n";
        assert_eq!(library::read_text(unordered, &vec![0; 8192]).0, 7);
    };
    std::thread::Builder::new().stack_size(192 << 10).spawn(calls).unwrap().join().unwrap();
}
