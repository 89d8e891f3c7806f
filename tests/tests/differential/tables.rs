//! Tables, what marks leave of them, and the cycle answer.
use gambrolt_tests::compare::Tally;
use gambrolt_tests::independent::program::{words, Clause};
use gambrolt_tests::independent::table::Table;
use gambrolt_tests::make::programs::any_size;
use gambrolt_tests::make::{marks, tables};
use gambrolt_tests::random::Random;

pub fn damaged(random: &mut Random, tally: &mut Tally) {
    let size = any_size(random);
    let table = tables::damaged(random, size);
    tally.check_table(&table);
    tally.cycle(&table);
}

pub fn reduced(random: &mut Random, tally: &mut Tally) {
    let size = any_size(random);
    let table = tables::mostly_sound(random, size);
    let marks = marks::leaving(random, &table);
    let long = random.words(table.len() + 5);
    let (answer, _) = tally.reduced_table(&table, &marks, &long);
    if let Ok(written) = answer {
        let written = written as usize;
        let room = random.pick(&[written - 1, written, written + 1]);
        tally.reduced_table(&table, &marks, &long[..room]);
    }
}

/// The cycle answer, also where the negative literals are taken away, which changes nothing, and where they are positive,
/// which may close a circle.
pub fn circles(random: &mut Random, tally: &mut Tally) {
    let size = any_size(random);
    let table = tables::mostly_sound(random, size);
    let answer = tally.cycle(&table);
    let Ok(read) = Table::read(&table) else { return };
    let mut with = |change: fn(&mut Clause)| {
        let mut program = read.program();
        program.clauses.iter_mut().for_each(change);
        tally.cycle(&words(&program))
    };
    let stripped = with(|clause| clause.neg.clear());
    let joined = with(|clause| clause.pos.append(&mut clause.neg));
    assert_eq!(stripped, answer, "{table:?}");
    match (answer, joined) {
        (Ok(1), Ok(1)) => tally.circles.positive += 1,
        (Ok(0), Ok(1)) => tally.circles.negative += 1,
        (Ok(0), Ok(0)) => tally.circles.none += 1,
        _ => panic!("{answer:?} and {joined:?} of {table:?}"),
    }
}
