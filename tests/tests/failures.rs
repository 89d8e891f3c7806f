//! Slip 6: a failure is kind 6, and nothing else is answered otherwise than before. What was before is the literal implementation
//! of the documents without question 32.
#![deny(warnings)]
use gambrolt_tests::compare::Tally;
use gambrolt_tests::independent::list::{check, check_by, first_questions};
use gambrolt_tests::independent::program::{words, Program};
use gambrolt_tests::independent::reduce::{list_by, passed_over, smallest, smallest_by};
use gambrolt_tests::independent::steps::{Left, Step};
use gambrolt_tests::independent::table::Table;
use gambrolt_tests::independent::{ask, Answer, Refused};
use gambrolt_tests::library;
use gambrolt_tests::make::programs::{any_size, circular, every, program, MIDDLE};
use gambrolt_tests::make::{lists, tables};
use gambrolt_tests::random::Random;

/// 12 to 15, 29 and 16.
fn questions_before(left: &Left, step: Step, number: usize) -> Result<(), Refused> {
    first_questions(left, step, number)?;
    ask(left.condition(step), 16, number)
}

fn check_before(words: &[u16], list: &[u16]) -> (Answer, Vec<u8>) {
    check_by(questions_before, words, &vec![7; words.len()], list)
}

/// The reducer's choice among the steps whose condition holds, whatever 32 says of them.
fn smallest_before(left: &Left) -> Option<Step> {
    smallest_by(|left, step| left.condition(step) && !passed_over(left, step), left)
}

/// The list that the reducer writes now and the list that it wrote before are the same. How many loops and failures it has.
fn same_list(program: &Program) -> [usize; 2] {
    let words = words(program);
    let now = list_by(&words, smallest);
    assert_eq!(now, list_by(&words, smallest_before), "{program:?}");
    [7, 6].map(|kind| now.iter().filter(|step| step[0] == kind).count())
}

#[test]
fn lists_of_small_programs() {
    let mut with = [0, 0];
    for (atoms, clauses) in [(0, 3), (1, 4), (2, 1), (2, 2), (3, 1), (2, 3), (3, 2)] {
        for program in every(atoms, clauses) {
            let [loops, failures] = same_list(&program);
            with = [with[0] + usize::from(loops > 0), with[1] + usize::from(failures > 0)];
        }
    }
    println!("programs with a loop and with a failure: {with:?}");
    assert!(with[0].min(with[1]) > 1_000);
}

#[test]
fn lists_of_larger_programs() {
    let mut made = [0, 0];
    for seed in 0..8_000 {
        let mut random = Random::new(seed);
        let size = if seed < 100 { MIDDLE } else { any_size(&mut random) };
        let make = if seed % 4 == 0 { program } else { circular };
        let [loops, failures] = same_list(&make(&mut random, size));
        made = [made[0] + loops, made[1] + failures];
    }
    println!("loops and failures made: {made:?}");
    assert!(made[0].min(made[1]) > 1_000);
}

/// How many lists were answered as before, and how many not; of these, how many had been taken at that step, and how many
/// refused there by 16.
#[derive(Debug, Default)]
struct Answers {
    same: u64,
    taken: u64,
    by_16: u64,
}

impl Answers {
    /// Only a loop step on an atom in no kept head has another answer, and it is 32.
    fn compare(&mut self, words: &[u16], list: &[u16]) {
        let (now, marks) = check(words, &vec![7; words.len()], list);
        let (before, marks_before) = check_before(words, list);
        let shown = format!("{words:?}, {list:?}: {before:?}, and now {now:?}");
        let Err(Refused { number: 32, place }) = now else {
            assert_eq!((now, marks), (before, marks_before), "{shown}");
            self.same += 1;
            return;
        };
        let end = 4 * place as usize;
        assert_eq!(check_before(words, &list[..end]), (Ok(place), marks.clone()), "{shown}");
        assert!(list[end] == 7 && !headed(words, &marks, list[end + 3]), "{shown}");
        match before {
            Err(Refused { number: 16, place: at }) if at == place => self.by_16 += 1,
            _ => {
                assert!(before.unwrap_or_else(|refused| refused.place) > place, "{shown}");
                self.taken += 1;
            }
        }
    }
}

/// Whether a clause that the marks keep has the atom in its head.
fn headed(words: &[u16], marks: &[u8], atom: u16) -> bool {
    let left = Table::read(words).unwrap().program_left(marks);
    left.clauses.iter().any(|clause| clause.head.contains(&atom))
}

/// Every step whose words are below these limits.
fn steps(kinds: u16, clauses: u16, atoms: u16) -> Vec<[u16; 4]> {
    let partners = |kind, target| (0..clauses).map(move |partner| [kind, target, partner]);
    let firsts = (0..kinds).flat_map(|kind| (0..clauses).flat_map(move |target| partners(kind, target)));
    firsts.flat_map(|[kind, target, partner]| (0..atoms).map(move |atom| [kind, target, partner, atom])).collect()
}

#[test]
fn steps_of_small_programs() {
    let (mut answers, steps) = (Answers::default(), steps(11, 3, 3));
    for program in every(2, 2) {
        let words = words(&program);
        steps.iter().for_each(|step| answers.compare(&words, step));
    }
    println!("{answers:?}");
    assert!(answers.same.min(answers.taken).min(answers.by_16) > 1_000);
}

#[test]
fn random_lists() {
    let mut answers = Answers::default();
    for seed in 0..20_000 {
        let mut random = Random::new(seed);
        let size = any_size(&mut random);
        let table = tables::mostly_sound(&mut random, size);
        let list = lists::list(&mut random, &table);
        answers.compare(&table, &list);
        let table = tables::circular(&mut random, size);
        if let Some((list, _)) = lists::around_loop(&mut random, &Table::read(&table).unwrap()) {
            answers.compare(&table, &list);
        }
    }
    println!("{answers:?}");
    assert!(answers.same.min(answers.taken).min(answers.by_16) > 1_000);
}

/// The library's list of each small program is that of before, and behind it every step is refused. Each step by itself is
/// answered as the documents say.
#[test]
fn the_librarys_lists() {
    let (steps, mut taken) = (steps(11, 3, 3), 0);
    for program in every(2, 2) {
        let words = words(&program);
        let expected = list_by(&words, smallest_before).concat();
        let fresh = vec![7; words.len()];
        let (made, marks, list) = library::reduce(&words, &fresh, &[9; 60]);
        assert_eq!((4 * made as usize, &list[..expected.len()]), (expected.len(), &expected[..]), "{program:?}");
        for step in &steps {
            taken += u64::from(Tally::new().check(&words, &fresh, step).0.is_ok());
            let (answer, left) = Tally::new().check(&words, &fresh, &[&expected, &step[..]].concat());
            assert_eq!((answer.unwrap_err().place, &left), (made, &marks), "{program:?}, {step:?}");
        }
    }
    println!("steps taken: {taken}");
    assert!(taken > 1_000);
}
