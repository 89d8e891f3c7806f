//! Whole lists of large tables, step for step: the library beside a reducer that looks through everything again after every
//! step. Each shape has half its full size, where that reducer is quick enough, and the longest list its full size.
#![deny(warnings)]
use gambrolt_tests::compare::counted;
use gambrolt_tests::library;
use gambrolt_tests::make::shapes::{Shape, SHAPES};
use gambrolt_tests::random::Random;
use gambrolt_tests::rescan::Reducer;

/// The number of steps. The library's checker takes the list, which leaves the reducer's marks, and refuses any step more.
fn compared(shape: &Shape, size: usize) -> u64 {
    let (name, table) = (shape.name, shape.table(size));
    let (steps, marks, list) = library::reduce(&table, &vec![7; table.len()], &vec![9; 32760]);
    let expected = Reducer::new(&(shape.program)(size)).run();
    assert_eq!(steps, expected.len() as u64, "{name}: the numbers of steps differ");
    let (made, rest) = list.split_at(4 * expected.len());
    assert!(made == expected.concat(), "{name}: the lists differ");
    assert!(rest.iter().all(|&word| word == 9), "{name}: a word past the list was changed");
    counted(made, &marks);
    let fresh = vec![8; table.len()];
    assert!(library::check(&table, &fresh, made) == (steps, marks.clone()), "{name}: the list is not accepted");
    for more in steps_more(&table, made) {
        let (answer, left) = library::check(&table, &fresh, &[made, &more].concat());
        assert!(matches!(answer >> 48, 12..=16 | 29 | 32), "{name}: {more:?} behind the list is taken");
        assert_eq!(answer & 0xffff_ffff_ffff, steps, "{name}: {more:?} behind the list is refused at another step");
        assert!(left == marks, "{name}: {more:?} behind the list changes marks");
    }
    steps
}

/// Steps of all kinds, some of the list's own, and words that name nothing.
fn steps_more(table: &[u16], list: &[u16]) -> Vec<[u16; 4]> {
    let mut random = Random::new(list.len() as u64);
    let mut below = |limit: u16| random.upto(usize::from(limit.max(1)) - 1) as u16;
    let mut steps: Vec<[u16; 4]> = (1..=9).map(|kind| [kind, below(table[1]), 0, 0]).collect();
    steps.extend([3, 5, 8].map(|kind| [kind, below(table[1]), below(table[1]), 0]));
    steps.extend([1, 2, 4, 6, 7, 9, 9, 9].map(|kind| [kind, below(table[1]), 0, below(table[0])]));
    steps.extend([0; 4].map(|_| [3, below(table[1]), below(table[1]), below(table[0])]));
    steps.extend([[0; 4], [65535; 4]]);
    let own = |step: &[u16]| [step[0], step[1], step[2], step[3]];
    steps.extend(list.chunks(4).take(1).chain(list.chunks(4).last()).map(own));
    steps
}

#[test]
fn every_shape_at_half_its_size() {
    for shape in &SHAPES {
        compared(shape, shape.full / 2);
    }
}

#[test]
fn a_list_of_six_thousand_steps() {
    let shape = SHAPES.iter().find(|shape| shape.name == "bodies of twelve that all go").unwrap();
    assert_eq!(compared(shape, shape.full), 6248);
}
