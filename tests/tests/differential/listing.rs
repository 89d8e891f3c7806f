//! The list of stable models.
use gambrolt_tests::compare::Tally;
use gambrolt_tests::independent::program::{words, Clause, Set};
use gambrolt_tests::independent::stable::{models, word};
use gambrolt_tests::independent::table::Table;
use gambrolt_tests::independent::Refused;
use gambrolt_tests::library;
use gambrolt_tests::make::programs::{any_size, Size, TINY};
use gambrolt_tests::make::tables;
use gambrolt_tests::random::Random;

const FEW: Size = Size { atoms: 6, clauses: 9, part: 2 };
const EIGHT: Size = Size { atoms: 8, clauses: 14, part: 3 };
const TEN: Size = Size { atoms: 10, clauses: 16, part: 3 };

/// Ten atoms have at most 252 stable models, and these words hold more.
const LONG: usize = 300;

/// A sound table of few atoms, of clauses of any kind or of those that leave a choice.
fn sound(random: &mut Random, size: Size) -> Vec<u16> {
    if random.once_in(2) {
        tables::choices(random, size)
    } else {
        tables::table(random, size)
    }
}

pub fn listed(random: &mut Random, tally: &mut Tally) {
    let size = random.pick(&[TINY, FEW]);
    let mut table = sound(random, size);
    if random.once_in(3) {
        tables::damage(random, &mut table);
    }
    around_the_count(random, tally, &table);
}

pub fn listed_to_ten(random: &mut Random, tally: &mut Tally) {
    let table = sound(random, TEN);
    around_the_count(random, tally, &table);
}

/// A long slice, then those as long as the list, a word shorter or longer, and of no word.
fn around_the_count(random: &mut Random, tally: &mut Tally, table: &[u16]) {
    let long = random.words(LONG);
    let Ok(count) = tally.models(table, &long).0 else { return };
    let count = count as usize;
    for room in [count.saturating_sub(1), count, count + 1, 0] {
        tally.models(table, &long[..room]);
    }
}

/// A program of few atoms, and the same with its atoms spread over 16: the models are the same, by other names.
pub fn spread(random: &mut Random, tally: &mut Tally) {
    let table = sound(random, FEW);
    let mut program = Table::read(&table).unwrap().program();
    let mut names = Set::new();
    while names.len() < usize::from(program.atoms) {
        names.insert(random.upto(15) as u16);
    }
    let names: Vec<u16> = names.into_iter().collect();
    let renamed = |part: &Set| -> Set { part.iter().map(|&atom| names[usize::from(atom)]).collect() };
    let mut expected: Vec<u16> = models(&program).iter().map(|model| word(&renamed(model))).collect();
    expected.sort_unstable();
    for Clause { head, pos, neg } in &mut program.clauses {
        [head, pos, neg].map(|part| *part = renamed(part));
    }
    program.atoms = 16;
    assert_eq!(by_library(&words(&program)), expected, "{table:?} as {names:?}");
    tally.cases += 1;
}

/// More than 16 atoms are refused by 30 with any slice, also one that is too short; where the table is damaged, 1 to 8 come
/// first.
pub fn many_atoms(random: &mut Random, tally: &mut Tally) {
    let size = any_size(random);
    let mut table = tables::table(random, size);
    let room = random.pick(&[0, 0, 1, LONG]);
    let slice = random.words(room);
    let refused = |number: u64| Err(Refused { number, place: 0 });
    // atoms that are in no head add no stable model, so that the slice is as short as before
    tally.listed.too_short += u64::from(tally.models(&table, &slice).0 == refused(31));
    table[0] = random.pick(&[17, 18, 32, 1024]);
    assert_eq!(tally.models(&table, &slice), (refused(30), slice.clone()), "{table:?}");
    // so many that damage seldom leaves a number that is small and takes long
    table[0] = random.pick(&[40, 1024]);
    for _ in 0..=random.upto(2) {
        tables::damage(random, &mut table);
    }
    tally.models(&table, &slice);
}

/// "A set is listed exactly when the test of demand 2 would say yes": every set of a program's atoms, by the library alone.
pub fn tested(random: &mut Random, tally: &mut Tally) {
    let table = sound(random, EIGHT);
    let listed = by_library(&table);
    for word in 0..1u16 << table[0] {
        let set: Vec<u16> = (0..table[0]).filter(|atom| word >> atom & 1 == 1).collect();
        assert_eq!(library::test(&table, &set), u64::from(listed.contains(&word)), "{table:?}, {set:?}");
        tally.cases += 1;
    }
}

/// Reducing a program leaves the list as it is.
pub fn same_list(random: &mut Random, tally: &mut Tally) {
    let table = sound(random, TEN);
    let fresh = vec![7; table.len()];
    let (steps, left, _) = library::reduce(&table, &fresh, &vec![0; 4 * table.len()]);
    let (written, reduced) = library::reduced_table(&table, &left, &vec![0; table.len()]);
    let reduced = &reduced[..written as usize];
    assert_eq!(by_library(&table), by_library(reduced), "{table:?}");
    tally.cases += 1;
    tally.listed.reduced += u64::from(steps > 0);
}

/// The words that the library lists.
fn by_library(table: &[u16]) -> Vec<u16> {
    let (count, words) = library::models(table, &[0; LONG]);
    assert!(count as usize <= LONG, "refused, {count:x}: {table:?}");
    words[..count as usize].to_vec()
}
