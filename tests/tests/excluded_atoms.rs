//! Slip 8: atoms that can't be. Kind 9, sentence by sentence: what it asks of target, partner and atom, the set D, what it deletes
//! and drops, heads as left everywhere, the reducer's choice after 8, the count of steps, and questions 10, 12 and 17.
#![deny(warnings)]
use gambrolt_tests::compare::{counted, Tally};
use gambrolt_tests::independent::program::{parse, words, Clause, Program, Set};
use gambrolt_tests::independent::reduce::{applicable, list_by, smallest, smallest_by, states};
use gambrolt_tests::independent::stable::models;
use gambrolt_tests::independent::steps::{Left, Step};
use gambrolt_tests::independent::table::Table;
use gambrolt_tests::independent::{Answer, Refused};
use gambrolt_tests::library;
use gambrolt_tests::make::programs::{any_size, every, exclusions, MIDDLE, TINY};
use gambrolt_tests::make::shapes::SHAPES;
use gambrolt_tests::random::Random;
use gambrolt_tests::rescan::Reducer;

fn no(number: u64, place: u64) -> Answer {
    Err(Refused { number, place })
}

/// What the checker says of a list on a program, and the program that its marks leave, which the reduced table has.
fn checked(atoms: u16, program: &str, list: &[u16]) -> (Answer, Program) {
    let table = words(&parse(atoms, program));
    let (answer, marks) = Tally::new().check(&table, &vec![7; table.len()], list);
    let (written, out) = Tally::new().reduced_table(&table, &marks, &table);
    let left = Table::read(&out[..written.unwrap() as usize]).unwrap().program();
    (answer, left)
}

/// The step is taken, and these clauses are left.
fn takes(atoms: u16, program: &str, step: [u16; 4], left: &str) {
    assert_eq!(checked(atoms, program, &step), (Ok(1), parse(atoms, left)), "{program}, {step:?}");
}

/// The step is refused by this question, and the program stays.
fn refuses(atoms: u16, program: &str, step: [u16; 4], number: u64) {
    assert_eq!(checked(atoms, program, &step), (no(number, 0), parse(atoms, program)), "{program}, {step:?}");
}

/// "The target is a kept constraint with at least one positive and no negative atom"
#[test]
fn targets() {
    takes(2, "0|1. <- 0.", [9, 1, 0, 0], "1.");
    takes(3, "0|1. 1 <- 0. <- 0, 1.", [9, 2, 0, 0], "1.");
    refuses(2, "0|1. 1 <- 0.", [9, 1, 0, 0], 16);
    refuses(2, "0|1. <- 0, ~1.", [9, 1, 0, 0], 16);
    refuses(2, "0|1. <- ~1.", [9, 1, 0, 0], 16);
    refuses(2, "0|1. <- .", [9, 1, 0, 0], 16);
    refuses(2, "0|1. <- 0.", [9, 0, 0, 0], 16);
    refuses(2, "0|1. <- 0.", [9, 2, 0, 0], 13);
    // as left: clause 1 loses its head and is a constraint then, clause 2 its negative atom
    let list = [9, 0, 0, 0, 9, 1, 0, 1];
    assert_eq!(checked(3, "<- 0. 0 <- 1. 1|2.", &list), (Ok(2), parse(3, "2.")));
    assert_eq!(checked(3, "<- 0. 0 <- 1. 1|2.", &list[4..]), (no(16, 0), parse(3, "<- 0. 0 <- 1. 1|2.")));
    let list = [9, 0, 0, 0, 9, 1, 0, 1];
    assert_eq!(checked(3, "<- 0. <- 1, ~0. 1|2. 0|2.", &list), (Ok(2), parse(3, "2. 2.")));
    // gone: clause 0 goes with its atom
    assert_eq!(checked(2, "<- 0. 0|1.", &[9, 0, 0, 0, 9, 0, 0, 1]), (no(13, 1), parse(2, "1.")));
}

/// "the partner is unused; the atom a occurs in a kept clause"; 14 and 15 come first, and 12 allows 9 and nothing above.
#[test]
fn partners_and_atoms() {
    refuses(2, "0|1. <- 0.", [9, 1, 1, 0], 14);
    refuses(2, "<- 0. 0|1.", [9, 0, 1, 0], 14);
    refuses(2, "0|1. <- 0.", [9, 1, 2, 0], 14);
    refuses(2, "0|1. <- 0.", [9, 1, 0, 2], 15);
    refuses(2, "0|1. <- 0.", [9, 1, 1, 2], 14);
    refuses(2, "0|1. <- 0.", [9, 2, 1, 2], 13);
    refuses(2, "0|1. <- 0.", [10, 1, 0, 0], 12);
    refuses(2, "0|1. <- 0.", [0, 1, 0, 0], 12);
    refuses(0, "<- .", [9, 0, 0, 0], 15);
    // D of 1 holds the fact 0, and 1 is in no clause
    refuses(2, "0. <- 0.", [9, 1, 0, 1], 16);
    // 1 is in a negative body alone, then in a head alone, then in no kept clause any more
    takes(3, "0. <- 0. 2 <- ~1.", [9, 1, 0, 1], "0. <- 0. 2.");
    takes(3, "0. <- 0. 1|2.", [9, 1, 0, 1], "0. <- 0. 2.");
    assert_eq!(checked(3, "0. <- 0. 2 <- ~1.", &[9, 1, 0, 1, 9, 1, 0, 1]).0, no(16, 1));
    // neither 29 nor 32 is asked: the partner word 0 names a clause with one other head atom, and the atom is in no head
    takes(3, "2. <- 0. 1 <- ~0.", [9, 1, 0, 0], "2. 1.");
}

/// The members of D are told apart by constraints: 9 on `<- x.` is taken exactly where D of the atom has x.
fn derives(atoms: u16, program: &str, atom: u16, derived: &[u16]) {
    for x in 0..atoms {
        let with_constraint = format!("{program} <- {x}.");
        let target = parse(atoms, program).clauses.len() as u16;
        let answer = checked(atoms, &with_constraint, &[9, target, 0, atom]).0;
        assert_eq!(answer == Ok(1), derived.contains(&x), "{with_constraint}, atom {atom}: {answer:?}");
    }
}

/// "Let D be the smallest set that holds a and the head of each kept clause with one head atom, no negative atoms and all
/// positive atoms in D."
#[test]
fn what_follows_from_an_atom() {
    derives(3, "0|1. 2 <- 1.", 0, &[0]);
    derives(3, "0|1. 2 <- 1.", 1, &[1, 2]);
    // a chain, in clause order and against it, and a circle
    derives(4, "1 <- 0. 2 <- 1. 3 <- 2.", 0, &[0, 1, 2, 3]);
    derives(4, "3 <- 2. 2 <- 1. 1 <- 0.", 0, &[0, 1, 2, 3]);
    derives(4, "3 <- 2. 2 <- 1. 1 <- 0.", 2, &[2, 3]);
    derives(3, "1 <- 0. 2 <- 1. 0 <- 2.", 1, &[0, 1, 2]);
    // all positive atoms, not some; facts are in every D, and count
    derives(4, "2 <- 0, 1. 0|1.", 0, &[0]);
    derives(4, "2 <- 0, 1. 1. 0|3.", 0, &[0, 1, 2]);
    derives(4, "1. 2 <- 1. 0|3.", 0, &[0, 1, 2]);
    // two ways that only together give the third
    derives(5, "1 <- 0. 2 <- 0. 3 <- 1, 2. 4 <- 3, 4.", 0, &[0, 1, 2, 3]);
    // not through negative atoms, through two heads, or backwards
    derives(4, "1 <- 0, ~2. 2|3. 0|3.", 0, &[0]);
    derives(4, "1 <- 0, ~2. 0|3.", 0, &[0]);
    derives(4, "1|2 <- 0. 0|3.", 0, &[0]);
    derives(4, "1|2. 0|3.", 0, &[0]);
    derives(4, "0 <- 1. 0|3.", 0, &[0]);
}

/// D through clauses as left: a head or a negative atom that steps dropped no longer keeps a clause out, and a deleted clause adds
/// nothing.
#[test]
fn what_follows_as_left() {
    // clause 1 becomes 1 <- 0., by the exclusion of 2
    let program = "<- 2. 1|2 <- 0. <- 1. 0|2|3.";
    assert_eq!(checked(4, program, &[9, 2, 0, 0]).0, no(16, 0));
    assert_eq!(checked(4, program, &[9, 0, 0, 2, 9, 2, 0, 0]), (Ok(2), parse(4, "<- 1. 3.")));
    let program = "<- 2. 1 <- 0, ~2. <- 1. 0|2|3.";
    assert_eq!(checked(4, program, &[9, 2, 0, 0]).0, no(16, 0));
    assert_eq!(checked(4, program, &[9, 0, 0, 2, 9, 2, 0, 0]), (Ok(2), parse(4, "<- 1. 3.")));
    // by kind 4: 2 is in no head
    assert_eq!(checked(4, "1 <- 0, ~2. <- 1. 0|3.", &[4, 0, 0, 2, 9, 1, 0, 0]), (Ok(2), parse(4, "<- 1. 3.")));
    // clause 1 is gone
    let program = "<- 1. 1 <- 0. <- 0. 0|2. 1|2.";
    assert_eq!(checked(3, program, &[9, 0, 0, 0]).0, Ok(1));
    assert_eq!(checked(3, program, &[8, 1, 2, 0, 9, 0, 0, 0]).0, no(16, 1));
}

/// "It deletes kept clauses with a in the positive body and drops a from the heads and negative bodies of the other kept ones."
#[test]
fn what_a_step_does() {
    // each part alone; the target itself, or not
    takes(3, "<- 0. 0|1. 2 <- 0. 2 <- ~0.", [9, 0, 0, 0], "1. 2.");
    takes(3, "<- 1. 1 <- 0. 0|2.", [9, 0, 0, 0], "<- 1. 2.");
    // in several parts of one clause: with the positive body it is deleted, else it loses both
    takes(3, "<- 0. 0|1 <- 0. 0 <- ~0. 0|1 <- ~0. 1 <- 0, ~0.", [9, 0, 0, 0], "<- . 1.");
    // every clause that has it
    takes(4, "<- 0. 0|1. 0|2. 0|3 <- 1. <- ~0, ~1.", [9, 0, 0, 0], "1. 2. 3 <- 1. <- ~1.");
    // other atoms of the target stay where they stand
    takes(3, "0|2. 1 <- 0. <- 0, 1. 1|2.", [9, 2, 0, 0], "2. 1|2.");
    // a fact that loses its one head atom is the empty clause
    takes(2, "0. <- 0. 1.", [9, 1, 0, 0], "<- . 1.");
}

/// The marks: a deleted clause keeps those of its atoms, and so does one that was gone before.
#[test]
fn marks_of_a_step() {
    let check = |atoms: u16, program: &str, list: &[u16]| {
        let table = words(&parse(atoms, program));
        Tally::new().check(&table, &vec![7; table.len() + 1], list).1
    };
    // words: 2 2 | 2 0 0  0 1 | 0 1 0  0
    assert_eq!(check(2, "0|1. <- 0.", &[9, 1, 0, 0]), [1, 1, 1, 1, 1, 0, 1, 0, 1, 1, 1, 7]);
    // words: 2 3 | 2 0 0  0 1 | 1 1 1  0 0 0 | 0 1 0  0; clause 1 is deleted with 0 in each part
    let marks = check(2, "0|1. 0 <- 0, ~0. <- 0.", &[9, 2, 0, 0]);
    assert_eq!(marks, [1, 1, 1, 1, 1, 0, 1, 0, 1, 1, 1, 1, 1, 0, 1, 1, 1, 7]);
    // the same, with clause 1 gone by kind 1 before
    assert_eq!(check(2, "0|1. 0 <- 0, ~0. <- 0.", &[1, 1, 0, 0, 9, 2, 0, 0]), marks);
    // words: 3 4 | 2 0 0  0 1 | 1 0 1  2 0 | 0 1 0  0 | 1 0 0  2; clause 1 goes by kind 8, and keeps its negative atom
    let marks = check(3, "0|1. 2 <- ~0. <- 0. 2.", &[8, 1, 3, 0, 9, 2, 0, 0]);
    assert_eq!(marks, [1, 1, 1, 1, 1, 0, 1, 0, 1, 1, 1, 1, 0, 1, 1, 1, 1, 1, 1, 1, 7]);
}

/// "Heads are read as left everywhere."
#[test]
fn heads_as_left() {
    let after = |atoms: u16, program: &str, steps: &[[u16; 4]]| checked(atoms, program, &steps.concat()).0;
    let program = "<- 0. 0|1. 2 <- 1. 2 <- ~1. <- 1, ~0. 1|2.";
    let exclusion = [9, 0, 0, 0];
    // kind 1: the atom is no longer in the head; kind 3 and 29: the disjunction has one head atom left, and serves
    assert_eq!(after(3, program, &[[3, 2, 1, 1]]), no(16, 0));
    assert_eq!(after(3, program, &[exclusion, [3, 2, 1, 1]]), Ok(2));
    assert_eq!(after(3, program, &[exclusion, [3, 2, 1, 0]]), no(29, 1));
    // kind 4 and 6: 0 is in no head any more; in negative and positive bodies it is not either
    assert_eq!(after(3, program, &[exclusion, [4, 4, 0, 0]]), no(16, 1));
    // kind 5: the fact blocks by the head that is left
    assert_eq!(after(3, program, &[[5, 3, 1, 0]]), no(16, 0));
    assert_eq!(after(3, program, &[exclusion, [5, 3, 1, 0]]), Ok(2));
    // kind 7 and 32: 0 is in no kept head
    assert_eq!(after(3, program, &[exclusion, [7, 2, 0, 0]]), no(32, 1));
    // kind 8: 1. is within 1|2.
    assert_eq!(after(3, program, &[[8, 5, 1, 0]]), no(16, 0));
    assert_eq!(after(3, program, &[exclusion, [8, 5, 1, 0]]), Ok(2));
    // the reach: after the exclusion clause 1 gives 1 alone, and 2 <- 0. is gone; so 2 is outside it
    let program = "<- 0. 0|1. 2 <- 0. 2 <- 3. 3 <- 2. <- 3.";
    assert_eq!(after(4, program, &[[7, 4, 0, 2]]), no(16, 0));
    assert_eq!(after(4, program, &[exclusion, [7, 4, 0, 2]]), Ok(2));
    // equal as left, in either order
    for step in [[8, 1, 2, 0], [8, 2, 1, 0]] {
        assert_eq!(after(2, "<- 0. 0|1. 1.", &[exclusion, step]), Ok(2));
    }
    // kind 1: 0 <- 0, .. is deleted by the exclusion; 1|0 <- 1. still is a tautology by 1, and none by 0
    assert_eq!(after(2, "<- 0. 0|1 <- 1. 0|1.", &[exclusion, [1, 1, 0, 1]]), Ok(2));
    assert_eq!(after(2, "<- 0. 0|1 <- 1. 0|1.", &[exclusion, [1, 1, 0, 0]]), no(16, 1));
}

/// The reducer makes these steps, of which the count is the number, and these clauses are left. Behind the list every step is
/// refused.
fn reduces(atoms: u16, program: &str, steps: &[[u16; 4]], left: &str) {
    let table = words(&parse(atoms, program));
    let (made, marks, list) = Tally::new().reduce(&table, &vec![7; table.len()], &vec![9; 4 * table.len()]);
    let list: Vec<&[u16]> = list.chunks(4).take(made.unwrap() as usize).collect();
    assert_eq!(list, steps, "{program}");
    counted(&steps.concat(), &marks);
    let (written, out) = Tally::new().reduced_table(&table, &marks, &table);
    assert_eq!(out[..written.unwrap() as usize], words(&parse(atoms, left)), "{program}");
    for step in near_steps(table[1] + 1, atoms + 1) {
        let answer = Tally::new().check(&table, &vec![7; table.len()], &[steps, &[step]].concat().concat()).0;
        assert_eq!(answer.unwrap_err().place, steps.len() as u64, "{program}, {step:?}");
    }
}

/// Every step of kinds 0 to 10 whose other words are below these limits.
fn near_steps(clauses: u16, atoms: u16) -> Vec<[u16; 4]> {
    let partners = |kind, target| (0..clauses).map(move |partner| [kind, target, partner]);
    let firsts = (0..=10).flat_map(|kind| (0..clauses).flat_map(move |target| partners(kind, target)));
    firsts.flat_map(|[kind, target, partner]| (0..atoms).map(move |atom| [kind, target, partner, atom])).collect()
}

/// "The reducer tries it after 8."
#[test]
fn the_reducers_choice() {
    reduces(2, "0|1. <- 0.", &[[9, 1, 0, 0]], "1.");
    // kinds before 9: the constraint goes by failure, the fact by success; of two equal constraints the later by the earlier
    reduces(1, "<- 0.", &[[6, 0, 0, 0]], "");
    reduces(1, "0. <- 0.", &[[3, 1, 0, 0], [5, 0, 1, 0]], "<- .");
    reduces(2, "0|1. <- 0. <- 0, 1.", &[[8, 2, 1, 0], [9, 1, 0, 0]], "1.");
    reduces(2, "<- 0. 0|1. <- 0.", &[[8, 2, 0, 0], [9, 0, 0, 0]], "1.");
    // the smallest target, then the smallest atom, which need not be in the target
    reduces(4, "0|3. 1|3. <- 1. <- 0.", &[[9, 2, 0, 1], [8, 0, 1, 0], [6, 3, 0, 0]], "3.");
    reduces(3, "1 <- 0. 0|2. 1|2. <- 1.", &[[9, 3, 0, 0], [8, 2, 1, 0], [6, 3, 0, 1]], "2.");
    reduces(4, "0|1. 2|3. <- 0, 2. <- 3.", &[[9, 3, 0, 3], [3, 2, 1, 2], [9, 2, 0, 0]], "1. 2.");
    // a rule that loses its head is the next constraint, and comes before the given ones
    let list = [[9, 0, 0, 0], [9, 1, 0, 1], [5, 2, 3, 0]];
    reduces(3, "<- 0. 0 <- 1. 1 <- ~2. 2 <- ~1.", &list, "2.");
    // nothing applies: a negative atom, two heads, two atoms of different disjunctions
    reduces(4, "0|1. 2|3. <- 0, ~2.", &[], "0|1. 2|3. <- 0, ~2.");
    reduces(4, "0|1. 2|3. <- 0, 2.", &[], "0|1. 2|3. <- 0, 2.");
    reduces(4, "0|3. 1|2 <- 0. <- 1, 2.", &[], "0|3. 1|2 <- 0. <- 1, 2.");
}

/// What the drops open: each kind below 9, and 9 again.
#[test]
fn what_a_step_opens() {
    // success, by the fact that is left
    reduces(3, "0|1. <- 0. 2 <- 1.", &[[9, 1, 0, 0], [3, 2, 0, 1]], "1. 2.");
    // no head, failure and loop: 2 goes with its rule, which needs 0
    let list = [[9, 1, 0, 0], [4, 4, 0, 2], [6, 1, 0, 1]];
    reduces(5, "1 <- 0. <- 1. 0|3. 2 <- 0. 4 <- ~2.", &list, "3. 4.");
    let list = [[9, 1, 0, 0], [6, 1, 0, 1], [6, 4, 0, 2]];
    reduces(5, "1 <- 0. <- 1. 0|3. 2 <- 0. 4 <- 2.", &list, "3.");
    let list = [[9, 1, 0, 0], [6, 1, 0, 1], [7, 4, 0, 4], [6, 5, 0, 2]];
    reduces(5, "1 <- 0. <- 1. 0|3. 2 <- 0. 2 <- 4. 4 <- 2.", &list, "3.");
    // blocked, by a fact of one head atom and by one of two
    reduces(3, "0|1. <- 0. 2 <- ~1.", &[[9, 1, 0, 0], [5, 2, 0, 0]], "1.");
    reduces(4, "0|1|2. <- 0. 3 <- ~1, ~2.", &[[9, 1, 0, 0], [5, 2, 0, 0]], "1|2.");
    // blocked, by a clause that loses all it has, and by one that success empties
    reduces(3, "<- 0. 0 <- ~0. 1|2.", &[[9, 0, 0, 0], [5, 2, 1, 0]], "<- .");
    let list = [[9, 0, 0, 0], [3, 2, 3, 1], [5, 1, 2, 0], [5, 3, 2, 0]];
    reduces(2, "<- 0. 0 <- ~1. <- 1. 1 <- ~0.", &list, "<- .");
    // subsumed, by a clause that lost a head atom and by one that lost a negative one
    reduces(3, "0|1. <- 0. 1|2.", &[[9, 1, 0, 0], [8, 2, 0, 0]], "1.");
    let list = [[9, 0, 0, 0], [8, 3, 2, 0]];
    reduces(4, "<- 0. 0|1|2. 3 <- 1, ~0. 3 <- 1, ~2.", &list, "1|2. 3 <- 1.");
}

/// D as an intersection: the atoms in every set that holds this one and is closed under the clauses of one head atom and no
/// negative one.
fn in_every_closed_set(program: &Program, atom: u16) -> Set {
    let definite: Vec<&Clause> = program.clauses.iter().filter(|c| c.head.len() == 1 && c.neg.is_empty()).collect();
    let all: Set = (0..program.atoms).collect();
    let set = |bits: u32| -> Set { all.iter().copied().filter(|atom| bits >> atom & 1 == 1).collect() };
    let closed = |set: &Set| definite.iter().all(|c| !c.pos.is_subset(set) || c.head.is_subset(set));
    let sets = (0..1u32 << program.atoms).map(set).filter(|set| set.contains(&atom) && closed(set));
    sets.fold(all.clone(), |common, set| &common & &set)
}

/// The slip's condition, said of a whole program.
fn may_exclude(program: &Program, target: usize, atom: u16) -> bool {
    let Clause { head, pos, neg } = &program.clauses[target];
    let occurs = program.clauses.iter().any(|c| [&c.head, &c.pos, &c.neg].iter().any(|part| part.contains(&atom)));
    let positive_constraint = head.is_empty() && neg.is_empty() && !pos.is_empty();
    positive_constraint && occurs && pos.is_subset(&in_every_closed_set(program, atom))
}

/// The program without an atom.
fn without(program: &Program, atom: u16) -> Program {
    let others = |part: &Set| part.iter().copied().filter(|&other| other != atom).collect();
    let kept = program.clauses.iter().filter(|clause| !clause.pos.contains(&atom));
    let clauses = kept.map(|c| Clause { head: others(&c.head), pos: c.pos.clone(), neg: others(&c.neg) }).collect();
    Program { atoms: program.atoms, clauses }
}

/// Every step of kind 9 on a program: whether it applies, what it leaves, and that the stable models are the same. How many apply.
fn every_step(program: &Program) -> u64 {
    let words = words(program);
    let table = Table::read(&words).unwrap();
    let given = Left::new(&table, &vec![1; words.len()]);
    let mut taken = 0;
    for (target, atom) in (0..program.clauses.len()).flat_map(|t| (0..program.atoms).map(move |atom| (t, atom))) {
        let step = Step::new(9, target as u16, 0, atom);
        let applies = may_exclude(program, target, atom);
        assert_eq!(given.applies(step), applies, "{program:?}, {step:?}");
        if applies {
            let mut marks = vec![1; words.len()];
            given.make(&table, step, &mut marks);
            assert_eq!(table.program_left(&marks), without(program, atom), "{program:?}, {step:?}");
            assert_eq!(models(&without(program, atom)), models(program), "{program:?}, {step:?}");
            taken += 1;
        }
    }
    taken
}

#[test]
fn steps_of_small_programs() {
    let sizes = [(1, 1), (1, 2), (1, 3), (1, 4), (2, 1), (2, 2), (2, 3), (3, 1), (3, 2)];
    let taken: u64 = sizes.into_iter().flat_map(|(n, m)| every(n, m)).map(|program| every_step(&program)).sum();
    println!("steps of kind 9 that apply: {taken}");
    assert!(taken > 10_000);
}

#[test]
fn steps_of_random_programs() {
    let programs = (0..20_000).map(|seed| exclusions(&mut Random::new(seed), TINY));
    let taken: u64 = programs.map(|program| every_step(&program)).sum();
    println!("steps of kind 9 that apply: {taken}");
    assert!(taken > 5_000);
}

/// Every program of some sizes, and so many random ones.
fn small_programs(random: u64) -> impl Iterator<Item = Program> {
    let all = [(1, 3), (2, 2)].into_iter().flat_map(|(atoms, clauses)| every(atoms, clauses));
    all.chain((0..random).map(|seed| exclusions(&mut Random::new(seed), TINY)))
}

/// The checker's answers to every step of kind 9 on small programs are the slip's, in the order of the questions.
#[test]
fn the_librarys_answers() {
    let mut taken = 0;
    for program in small_programs(1_000) {
        let (words, clauses) = (words(&program), program.clauses.len() as u16);
        for [kind, target, partner, atom] in near_steps(clauses + 1, program.atoms + 1) {
            if kind != 9 {
                continue;
            }
            let answer = Tally::new().check(&words, &vec![7; words.len()], &[kind, target, partner, atom]).0;
            let expected = match () {
                _ if target >= clauses => no(13, 0),
                _ if partner != 0 => no(14, 0),
                _ if atom >= program.atoms => no(15, 0),
                _ if !may_exclude(&program, usize::from(target), atom) => no(16, 0),
                _ => Ok(1),
            };
            assert_eq!(answer, expected, "{program:?}, {target}, {partner}, {atom}");
            taken += u64::from(answer.is_ok());
        }
    }
    println!("steps of kind 9 that were taken: {taken}");
    assert!(taken > 1_000);
}

/// The reducer's choice before the slip.
fn smallest_before(left: &Left) -> Option<Step> {
    smallest_by(|left, step| step.kind != 9 && left.applies(step) && !passed_over(left, step), left)
}

/// Slip 7's steps, as their sentence has them.
fn passed_over(left: &Left, step: Step) -> bool {
    matches!(step.kind, 5 | 8) && step.target < step.partner && left.kept(step.target) == left.kept(step.partner)
}

/// Lists of the reducer: how many have a step of kind 9, and how many another behind one; how many of their steps clear several
/// marks; and how many programs end with a shorter head.
#[derive(Debug, Default)]
struct Lists {
    all: u64,
    with: u64,
    others_behind: u64,
    several_marks: u64,
    shorter_heads: u64,
}

impl Lists {
    /// The list begins with that of before, and goes on with kind 9 where it goes on; no step applies at its end.
    fn compare(&mut self, program: &Program) {
        let words = words(program);
        let (now, before) = (list_by(&words, smallest), list_by(&words, smallest_before));
        assert_eq!(Reducer::new(program).run(), now, "{program:?}");
        assert_eq!(now[..before.len()], before, "{program:?}");
        assert!(now.get(before.len()).is_none_or(|step| step[0] == 9), "{program:?}");
        let states = states(&words, &now);
        let end = states.last().unwrap();
        assert_eq!(applicable(end), [], "{program:?}: {now:?}");
        self.all += 1;
        self.with += u64::from(now.len() > before.len());
        self.others_behind += u64::from(now[before.len()..].iter().any(|step| step[0] != 9));
        let left = |place: usize| states[place].clauses.iter().flatten();
        let size = |place: usize| left(place).map(|c| 1 + c.head.len() + c.pos.len() + c.neg.len()).sum::<usize>();
        let clears = |place: usize| now[place][0] == 9 && size(place) > size(place + 1) + 1;
        self.several_marks += u64::from((0..now.len()).any(clears));
        let shorter = |(given, left): (&Clause, &Option<Clause>)| left.as_ref().is_some_and(|c| c.head != given.head);
        self.shorter_heads += u64::from(program.clauses.iter().zip(&end.clauses).any(shorter));
    }

    fn report(&self) {
        println!("{self:?}");
        assert!(self.with.min(self.all - self.with).min(self.others_behind) > 500);
        assert!(self.several_marks.min(self.shorter_heads) > 500);
    }
}

#[test]
fn lists_of_small_programs() {
    let mut lists = Lists::default();
    for (atoms, clauses) in [(1, 1), (1, 2), (1, 3), (1, 4), (2, 1), (2, 2), (2, 3), (3, 1), (3, 2)] {
        every(atoms, clauses).for_each(|program| lists.compare(&program));
    }
    lists.report();
}

#[test]
fn lists_of_larger_programs() {
    let mut lists = Lists::default();
    for seed in 0..8_000 {
        let mut random = Random::new(seed);
        let size = if seed < 100 { MIDDLE } else { any_size(&mut random) };
        lists.compare(&exclusions(&mut random, size));
    }
    lists.report();
}

/// The library's list of each small program: its steps, their number, the marks, the models that are left, and no step behind it.
#[test]
fn the_librarys_lists() {
    let mut with = 0;
    for program in small_programs(1_000) {
        let (words, expected) = (words(&program), list_by(&words(&program), smallest));
        let fresh = vec![7; words.len()];
        let (made, marks, list) = library::reduce(&words, &fresh, &vec![9; 4 * words.len()]);
        assert_eq!(
            (made as usize, &list[..4 * expected.len()]),
            (expected.len(), &expected.concat()[..]),
            "{program:?}"
        );
        counted(&expected.concat(), &marks);
        let left = Table::read(&words).unwrap().program_left(&marks);
        assert_eq!(models(&left), models(&program), "{program:?}");
        for step in near_steps(words[1] + 1, words[0] + 1) {
            let (answer, after) = library::check(&words, &fresh, &[&expected[..], &[step]].concat().concat());
            assert!(answer >> 48 > 0 && answer & 0xffff_ffff_ffff == made && after == marks, "{program:?}, {step:?}");
        }
        with += u64::from(expected.iter().any(|step| step[0] == 9));
    }
    println!("lists with a step of kind 9: {with}");
    assert!(with > 100);
}

/// "question 10 allows 0 at head atoms": every head atom's mark may be 0, and a count's, n's and m's may not. The clause is written
/// with the heads that are left.
#[test]
fn marks_of_heads() {
    // words: 3 2 | 2 1 1  0 1 2 0 | 0 1 0  1
    let table = words(&parse(3, "0|1 <- 2, ~0. <- 1."));
    let reduced = |gone: &[usize]| {
        let marks: Vec<u8> = (0..table.len()).map(|place| u8::from(!gone.contains(&place))).collect();
        let (answer, out) = Tally::new().reduced_table(&table, &marks, &[9; 14]);
        answer.map(|written| Table::read(&out[..written as usize]).unwrap().program())
    };
    for (gone, left) in [
        (&[5][..], "1 <- 2, ~0. <- 1."),
        (&[6], "0 <- 2, ~0. <- 1."),
        (&[5, 6], "<- 2, ~0. <- 1."),
        (&[5, 6, 7, 8], "<- . <- 1."),
        (&[2, 5], "<- 1."),
        (&[5, 9], "1 <- 2, ~0."),
    ] {
        assert_eq!(reduced(gone), Ok(parse(3, left)), "{gone:?}");
    }
    for place in [0, 1, 3, 4, 10, 11] {
        assert_eq!(reduced(&[5, place]), Err(Refused { number: 10, place: place as u64 }));
    }
    assert_eq!(Tally::new().reduced_table(&table, &[[1; 5], [2; 5]].concat().repeat(2), &[]).0, no(10, 5));
}

/// The text of what is left has the heads that are left.
#[test]
fn texts_of_what_is_left() {
    let table = words(&parse(3, "0|1. <- 0. 2|0|1 <- 1, ~2."));
    let (_, marks) = Tally::new().check(&table, &vec![7; table.len()], &[9, 1, 0, 0]);
    let (written, out) = Tally::new().reduced_table(&table, &marks, &table);
    let (bytes, text) = Tally::new().write_text(&out[..written.unwrap() as usize], &[b'.'; 100]);
    let expected = "atoms=3\nclauses=2\nhead=1\npos=\nneg=\nhead=1,2\npos=1\nneg=2\n";
    assert_eq!((bytes, &text[..expected.len()]), (Ok(expected.len() as u64), expected.as_bytes()));
}

/// "17 counts all literals": heads too.
#[test]
fn room_of_a_list() {
    for (atoms, program, words_needed) in [
        (2, "0|1.", 4 * (1 + 2)),
        (2, "0|1. <- 0.", 4 * (2 + 3)),
        (3, "0 <- 1, ~2.", 4 * (1 + 3)),
        (0, "<- .", 4),
        (3, "", 0),
    ] {
        let table = words(&parse(atoms, program));
        let reduce = |room: usize| Tally::new().reduce(&table, &vec![7; table.len()], &vec![9; room]).0;
        assert!(reduce(words_needed).is_ok(), "{program}");
        if words_needed > 0 {
            assert_eq!(reduce(words_needed - 1), no(17, 0), "{program}");
        }
    }
}

/// The library makes these steps, which follow from the rule, of a shape at full size, and its checker takes them.
fn writes(name: &str, expected: &[[u16; 4]]) {
    let shape = SHAPES.iter().find(|shape| shape.name == name).unwrap();
    let (table, program) = (shape.table(shape.full), (shape.program)(shape.full));
    let fresh = vec![7; table.len()];
    let (steps, marks, list) = library::reduce(&table, &fresh, &vec![9; 32760]);
    let (made, rest) = list.split_at(4 * expected.len());
    assert_eq!(steps, expected.len() as u64);
    let differs = made.chunks(4).zip(expected).find(|(made, expected)| made != expected);
    assert_eq!(differs, None);
    assert!(rest.iter().all(|&word| word == 9));
    counted(made, &marks);
    assert_eq!(library::check(&table, &fresh, made), (steps, marks));
    assert_eq!(Reducer::new(&program).run(), expected);
}

/// Clause k - 1 is k - 1 <- k., and clause 1,001 is <- 0. Each rule that loses its head excludes the next atom; in the end 999 <- ~1000.
/// and 1000 <- ~999. have lost 999, and the second is a fact that blocks the first.
#[test]
fn a_constraint_handed_on() {
    let chain = (1..1000).map(|atom| [9, atom - 1, 0, atom]);
    let list: Vec<[u16; 4]> = [[9, 1001, 0, 0]].into_iter().chain(chain).chain([[5, 999, 1000, 0]]).collect();
    writes("a constraint handed on along a chain", &list);
    // the same behind three clauses more
    let behind: Vec<[u16; 4]> = list
        .iter()
        .map(|&[kind, target, partner, atom]| [kind, target + 3, if kind == 5 { partner + 3 } else { 0 }, atom])
        .collect();
    writes("a chain behind a constraint that never fires", &behind);
}

/// Clause k is k + 1 <- k., clause 599 is 0 <- 599., and clause 1,000 is <- 300, 599. Atom 0 leads to it; clause 599 loses its
/// head, and as <- 599. is within it. The next two atoms are in no head then, and so on from each third atom.
#[test]
fn a_circle_that_cannot_be() {
    let mut list = vec![[9, 1000, 0, 0], [6, 1, 0, 1], [6, 2, 0, 2], [8, 1000, 599, 0]];
    let three = |atom: u16| [[9, 599, 0, atom], [6, atom + 1, 0, atom + 1], [6, atom + 2, 0, atom + 2]];
    list.extend((3..600).step_by(3).flat_map(three));
    writes("a circle of six hundred atoms that can't be", &list);
}

/// Rounds of five clauses, the last round first: c <- d., d <- ~b., the constraint, c <- b., a|b.
#[test]
fn disjunctions_become_facts() {
    let mut list = Vec::new();
    for round in 0..255 {
        let (first, a) = (5 * (254 - round), 4 * round);
        let (b, c, d) = (a + 1, a + 2, a + 3);
        list.extend([[9, first + 2, 0, a], [3, first + 3, first + 4, b]]);
        if round < 254 {
            list.push([3, first - 3, first + 3, c]);
        }
        list.extend([[5, first + 1, first + 4, 0], [6, first, 0, d]]);
    }
    writes("disjunctions that constraints make facts", &list);
}

/// Clause k is <- 1022 - 2k., and of the two atoms of a disjunction the second is a fact then, which no clause mentions.
#[test]
fn constraints_against_the_order() {
    let list: Vec<[u16; 4]> = (0..512).map(|target| [9, target, 0, 1022 - 2 * target]).collect();
    writes("constraints against the order of their atoms", &list);
    // clause 0, then every second one; those between never fire
    let behind: Vec<[u16; 4]> = (0..256).map(|target| [9, 2 * target, 0, 510 - 2 * target]).collect();
    writes("each constraint behind one that never fires", &behind);
}

#[test]
fn a_thousand_constraints_that_never_fire() {
    writes("a thousand constraints that never fire", &[]);
}
