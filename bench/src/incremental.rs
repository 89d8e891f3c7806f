//! The two reducers in C, `incremental.c` tuned and plain, and the rescanning one, compared with the documents' literal
//! implementation before anything is measured.
use gambrolt_tests::independent::program::{words, Program};
use gambrolt_tests::independent::reduce;
use gambrolt_tests::make::programs::{copies, every, exclusions, program, Size, MIDDLE, SMALL, TINY};
use gambrolt_tests::random::Random;
use gambrolt_tests::rescan::Reducer;

extern "C" {
    fn tuned_reduce(table: *const u16, table_len: usize, marks: *mut u8, list: *mut u16) -> usize;
    fn plain_reduce(table: *const u16, table_len: usize, marks: *mut u8, list: *mut u16) -> usize;
}

/// The steps made, with partners by an index. The table is one that passes questions 1 to 8, and the list has room for its
/// clauses and literals.
pub fn tuned(table: &[u16], marks: &mut [u8], list: &mut [u16]) -> usize {
    assert!(marks.len() >= table.len() && list.len() >= 4 * table.len());
    unsafe { tuned_reduce(table.as_ptr(), table.len(), marks.as_mut_ptr(), list.as_mut_ptr()) }
}

/// The same, with every clause tried as a partner.
pub fn plain(table: &[u16], marks: &mut [u8], list: &mut [u16]) -> usize {
    assert!(marks.len() >= table.len() && list.len() >= 4 * table.len());
    unsafe { plain_reduce(table.as_ptr(), table.len(), marks.as_mut_ptr(), list.as_mut_ptr()) }
}

/// Programs of few atoms, so that all kinds meet at the same clauses.
const DENSE: Size = Size { atoms: 5, clauses: 24, part: 3 };
/// How programs are drawn, their size, and how many are compared.
type Draws = (fn(&mut Random, Size) -> Program, Size, u64);

const DRAWS: [Draws; 12] = [
    (program, TINY, 20_000),
    (program, SMALL, 20_000),
    (program, DENSE, 10_000),
    (program, MIDDLE, 200),
    (copies, TINY, 20_000),
    (copies, SMALL, 20_000),
    (copies, DENSE, 10_000),
    (copies, MIDDLE, 200),
    (exclusions, TINY, 20_000),
    (exclusions, SMALL, 20_000),
    (exclusions, DENSE, 10_000),
    (exclusions, MIDDLE, 200),
];

/// Fails where the list, its length or the marks are not the documents'; gives how many programs were compared.
pub fn compared() -> u64 {
    let mut compared = 0;
    for (number, &(draw, size, draws)) in DRAWS.iter().enumerate() {
        for seed in 0..draws {
            same(&draw(&mut Random::new(((number as u64) << 32) + seed), size));
            compared += 1;
        }
    }
    for program in [(0, 4), (1, 3), (2, 2)].into_iter().flat_map(|(atoms, clauses)| every(atoms, clauses)) {
        same(&program);
        compared += 1;
    }
    compared
}

fn same(program: &Program) {
    let table = words(program);
    let (fresh, room) = (vec![7; table.len() + 1], vec![9; 4 * table.len()]);
    let (answer, left, expected) = reduce::reduce(&table, &fresh, &room);
    for reduce in [tuned, plain] {
        let (mut marks, mut list) = (fresh.clone(), room.clone());
        let steps = reduce(&table, &mut marks, &mut list);
        assert_eq!(answer, Ok(steps as u64), "the numbers of steps differ: {table:?}");
        assert!(list == expected, "the lists differ: {table:?}");
        assert!(marks == left, "the marks differ: {table:?}");
    }
    let rescanned = Reducer::new(program).run().concat();
    assert_eq!(rescanned, expected[..4 * answer.unwrap() as usize], "the rescanning reducer differs: {table:?}");
}
