//! The test of a set, and the stable models before and after.
use gambrolt_tests::compare::Tally;
use gambrolt_tests::independent::program::{words, Clause};
use gambrolt_tests::independent::stable::models;
use gambrolt_tests::independent::table::Table;
use gambrolt_tests::independent::Refused;
use gambrolt_tests::make::programs::{any_size, program, Size, TINY};
use gambrolt_tests::make::{lists, marks, sets, tables};
use gambrolt_tests::random::Random;

pub fn tested(random: &mut Random, tally: &mut Tally) {
    let size = any_size(random);
    let table = tables::mostly_sound(random, size);
    let atoms = table.first().copied().unwrap_or(0).min(1024);
    let set = sets::set(random, atoms, 6);
    tally.test(&table, &set);
}

/// Sixteen entries, most of them facts, and seventeen.
pub fn largest_sets(random: &mut Random, tally: &mut Tally) {
    let mut program = program(random, Size { atoms: 12, clauses: 8, part: 3 });
    program.atoms = 20;
    for atom in 0..16 {
        if !random.once_in(12) {
            program.clauses.push(Clause { head: [atom].into(), ..Clause::default() });
        }
    }
    let table = words(&program);
    tally.test(&table, &(0..16).collect::<Vec<_>>());
    tally.test(&table, &(0..17).collect::<Vec<_>>());
}

/// Every set of a small program, before and after, by the definition alone and by the library's test.
pub fn same_models(random: &mut Random, tally: &mut Tally) {
    let table = if random.once_in(2) { tables::exclusions(random, TINY) } else { tables::table(random, TINY) };
    let marks = marks::any(random, table.len() + 1);
    let (_, left, _) = tally.reduce(&table, &marks, &[0; 500]);
    same_stable_sets(tally, &table, &left);
    let list = lists::list(random, &table);
    let (answer, left) = tally.check(&table, &marks, &list);
    if !matches!(answer, Err(Refused { number: 9 | 11, .. })) {
        same_stable_sets(tally, &table, &left);
    }
}

fn same_stable_sets(tally: &mut Tally, table: &[u16], left: &[u8]) {
    let (written, reduced) = tally.reduced_table(table, left, &vec![0; table.len()]);
    let reduced = &reduced[..written.expect("the marks of a list are allowed") as usize];
    let models_of = |table: &[u16]| models(&Table::read(table).unwrap().program());
    let expected = models_of(table);
    assert_eq!(expected, models_of(reduced), "the models changed: {table:?}, marks {left:?}");
    for bits in 0u32..1 << table[0] {
        let set: Vec<u16> = (0..table[0]).filter(|atom| bits >> atom & 1 == 1).collect();
        let stable = u64::from(expected.contains(&set.iter().copied().collect()));
        assert_eq!(tally.test(table, &set), Ok(stable));
        assert_eq!(tally.test(reduced, &set), Ok(stable));
    }
}
