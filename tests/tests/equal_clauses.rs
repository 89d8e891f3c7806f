//! Slip 7: of two equal clauses the earlier stays. "Where target and partner are equal in all three parts as left, the reducer now
//! passes over the step of kind 5 or 8 whose target is the lower number, and takes the smallest step of the rest. .. The checker
//! still takes either order." What was before is the smallest applicable step, passed over or not.
#![deny(warnings)]
use gambrolt_tests::compare::Tally;
use gambrolt_tests::independent::program::{parse, words, Clause, Program};
use gambrolt_tests::independent::reduce::{applicable, list_by, smallest, smallest_applicable, states};
use gambrolt_tests::independent::steps::Left;
use gambrolt_tests::library;
use gambrolt_tests::make::programs::{any_size, copies, every, MIDDLE};
use gambrolt_tests::make::shapes::SHAPES;
use gambrolt_tests::random::Random;
use gambrolt_tests::rescan::Reducer;

/// Whether a step of kind 5 or 8 deletes a clause by a later one that is equal to it.
fn passed_over(state: &Left, &[kind, target, partner, _]: &[u16; 4]) -> bool {
    (kind == 5 || kind == 8) && target < partner && state.kept(target) == state.kept(partner)
}

/// The number of the first step of a list that is passed over.
fn first_passed_over(states: &[Left], list: &[[u16; 4]]) -> Option<usize> {
    states.iter().zip(list).position(|(state, step)| passed_over(state, step))
}

/// The kept clauses in some order that does not hang on their numbers.
fn clauses_left(left: &Left) -> Vec<Vec<u16>> {
    let words = |clause: &Clause| words(&Program { atoms: left.atoms, clauses: vec![clause.clone()] });
    let mut clauses: Vec<Vec<u16>> = left.clauses.iter().flatten().map(words).collect();
    clauses.sort_unstable();
    clauses
}

/// How many programs have the list that they had before, and how many another; of these, how many because of a step of kind 5,
/// and how many because of one of kind 8; how many lists have more steps than before, and how many fewer; and of how many a
/// clause is left that an earlier one was equal to as given, before and now.
#[derive(Debug, Default)]
struct Lists {
    same: u64,
    other: u64,
    blocked: u64,
    subsumed: u64,
    longer: u64,
    shorter: u64,
    later_left: [u64; 2],
}

impl Lists {
    /// The rescanning reducer makes the new list, no step of that is passed over, and at its end no step at all applies. The
    /// clauses left are those that the old list leaves, by whatever numbers.
    fn compare(&mut self, program: &Program) {
        let words = words(program);
        let (now, before) = (list_by(&words, smallest), list_by(&words, smallest_applicable));
        assert_eq!(Reducer::new(program).run(), now, "{program:?}");
        let (states, states_before) = (states(&words, &now), states(&words, &before));
        assert_eq!(first_passed_over(&states, &now), None, "{program:?}: {now:?}");
        let (end, end_before) = (states.last().unwrap(), states_before.last().unwrap());
        assert_eq!(applicable(end), [], "{program:?}: {now:?}");
        assert_eq!(clauses_left(end), clauses_left(end_before), "{program:?}: {now:?}, {before:?}");
        self.longer += u64::from(now.len() > before.len());
        self.shorter += u64::from(now.len() < before.len());
        self.later_left[0] += u64::from(later_is_left(program, end_before));
        self.later_left[1] += u64::from(later_is_left(program, end));
        self.leaves(&now, &before, first_passed_over(&states_before, &before));
    }

    /// The list is the old one up to the first step of that which is passed over, and there has a greater one; where there is
    /// no such step it is the old one.
    fn leaves(&mut self, now: &[[u16; 4]], before: &[[u16; 4]], first: Option<usize>) {
        let Some(first) = first else {
            assert_eq!(now, before);
            self.same += 1;
            return;
        };
        assert_eq!(now[..first], before[..first]);
        assert!(now[first] > before[first], "{now:?}, {before:?}");
        self.other += 1;
        *(if before[first][0] == 5 { &mut self.blocked } else { &mut self.subsumed }) += 1;
    }

    /// Fails where the lists were too much alike, or where the later of clauses that are equal as given is left often.
    fn report(&self) {
        println!("{self:?}");
        assert!(self.same.min(self.other).min(self.blocked).min(self.subsumed) > 1_000);
        assert!(100 * self.later_left[1] < self.later_left[0]);
    }
}

/// Whether a clause is left that an earlier one was equal to as given. That is so where a third deletes the earlier one, and the
/// later is shortened before its turn comes (`what_stays_opens_other_steps`).
fn later_is_left(program: &Program, end: &Left) -> bool {
    let later = |number: usize| program.clauses[..number].contains(&program.clauses[number]);
    (0..program.clauses.len()).any(|number| later(number) && end.kept(number as u16).is_some())
}

#[test]
fn lists_of_small_programs() {
    let mut lists = Lists::default();
    for (atoms, clauses) in [(0, 1), (0, 2), (0, 5), (1, 1), (1, 2), (1, 3), (1, 4), (2, 1), (2, 2), (2, 3), (3, 2)] {
        every(atoms, clauses).for_each(|program| lists.compare(&program));
    }
    lists.report();
}

#[test]
fn lists_of_larger_programs() {
    let mut lists = Lists::default();
    for seed in 0..8_000 {
        let mut random = Random::new(seed);
        let size = if seed < 100 { MIDDLE } else { any_size(&mut random) };
        lists.compare(&copies(&mut random, size));
    }
    lists.report();
}

/// The library's checker and the documents' take the whole list.
fn takes(words: &[u16], list: &[[u16; 4]]) {
    let answer = Tally::new().check(words, &vec![7; words.len()], &list.concat()).0;
    assert_eq!(answer, Ok(list.len() as u64), "{words:?}, {list:?}");
}

/// The library's list of each small program is that of the new choice. Its checker takes the old list too, and at each state of
/// the new one the steps that are passed over, and those with target and partner exchanged.
#[test]
fn the_librarys_lists() {
    let mut taken = [0, 0];
    for program in [(0, 4), (1, 3), (2, 2)].into_iter().flat_map(|(atoms, clauses)| every(atoms, clauses)) {
        let words = words(&program);
        let (now, before) = (list_by(&words, smallest), list_by(&words, smallest_applicable));
        let (steps, _, list) = library::reduce(&words, &vec![7; words.len()], &vec![9; 4 * words.len()]);
        assert_eq!((steps, &list[..4 * now.len()]), (now.len() as u64, &now.concat()[..]), "{program:?}");
        takes(&words, &before);
        for (number, state) in states(&words, &now).iter().enumerate() {
            let open = applicable(state).into_iter().map(|step| step.words());
            for step in open.filter(|step| passed_over(state, step)) {
                let [kind, target, partner, atom] = step;
                takes(&words, &[&now[..number], &[step]].concat());
                takes(&words, &[&now[..number], &[[kind, partner, target, atom]]].concat());
                taken[usize::from(kind == 8)] += 1;
            }
        }
    }
    println!("steps of kind 5 and of kind 8 that are passed over: {taken:?}");
    assert!(taken[0].min(taken[1]) > 100);
}

/// The reducer makes these steps, and these clauses are left.
fn reduces(atoms: u16, program: &str, steps: &[[u16; 4]], left: &str) {
    let table = words(&parse(atoms, program));
    let (made, marks, list) = Tally::new().reduce(&table, &vec![7; table.len()], &vec![9; 4 * table.len()]);
    let list: Vec<&[u16]> = list.chunks(4).take(made.unwrap() as usize).collect();
    assert_eq!(list, steps, "{program}");
    let (written, out) = Tally::new().reduced_table(&table, &marks, &table);
    assert_eq!(out[..written.unwrap() as usize], words(&parse(atoms, left)), "{program}");
}

#[test]
fn equal_facts() {
    // the slip's example; with two atoms it is document 01's, which had 8,0,1,0
    reduces(1, "0. 0.", &[[8, 1, 0, 0]], "0.");
    reduces(2, "0. 0.", &[[8, 1, 0, 0]], "0.");
    // clause 0 is equal to both others and before them; clause 1 goes by clause 0, and so does clause 2
    reduces(1, "0. 0. 0.", &[[8, 1, 0, 0], [8, 2, 0, 0]], "0.");
    reduces(2, "0|1. 0|1.", &[[8, 1, 0, 0]], "0|1.");
    // targets ascending: clause 2 by clause 0, then clause 3 by clause 1
    reduces(2, "0. 1. 0. 1.", &[[8, 2, 0, 0], [8, 3, 1, 0]], "0. 1.");
    reduces(2, "0. 1. 1. 0.", &[[8, 2, 1, 0], [8, 3, 0, 0]], "0. 1.");
    // kind 3 comes first, by the first of the two facts
    reduces(2, "1 <- 0. 0. 0.", &[[3, 0, 1, 0], [8, 2, 1, 0]], "1. 0.");
}

#[test]
fn empty_clauses() {
    // kind 5 before kind 8; that of clause 0 by clause 1 is passed over
    reduces(0, "<- . <- .", &[[5, 1, 0, 0]], "<- .");
    reduces(2, "<- . <- .", &[[5, 1, 0, 0]], "<- .");
    reduces(0, "<- . <- . <- .", &[[5, 1, 0, 0], [5, 2, 0, 0]], "<- .");
    // the fact is no equal of the empty clause behind it, and goes by it; then the second empty clause by the first
    reduces(1, "0. <- . <- .", &[[5, 0, 1, 0], [5, 2, 1, 0]], "<- .");
    reduces(1, "<- . 0. <- .", &[[5, 1, 0, 0], [5, 2, 0, 0]], "<- .");
    reduces(1, "<- . <- . 0.", &[[5, 1, 0, 0], [5, 2, 0, 0]], "<- .");
    // the fact 0 goes, and with it the last head of 0, so that clause 2 becomes the fact 1; then targets 2 and 3
    reduces(2, "0. <- . 1 <- ~0. <- .", &[[5, 0, 1, 0], [4, 2, 0, 0], [5, 2, 1, 0], [5, 3, 1, 0]], "<- .");
    // a clause that is not equal goes by the later one as before
    reduces(1, "0. <- .", &[[5, 0, 1, 0]], "<- .");
}

#[test]
fn equal_rules() {
    // nothing below 8 applies: the disjunction gives heads and reach, and is no fact for 3; then excluding 0 leaves the fact 1
    reduces(2, "0|1. <- 0. <- 0.", &[[8, 2, 1, 0], [9, 1, 0, 0]], "1.");
    reduces(2, "<- 0. 0|1. <- 0. <- 0.", &[[8, 2, 0, 0], [8, 3, 0, 0], [9, 0, 0, 0]], "1.");
    reduces(3, "0|1. 2 <- 0, ~1. 2 <- 0, ~1.", &[[8, 2, 1, 0]], "0|1. 2 <- 0, ~1.");
    // equal clauses that go by other kinds do so one after the other, as before
    reduces(1, "<- 0. <- 0.", &[[6, 0, 0, 0], [6, 1, 0, 0]], "");
    reduces(1, "0 <- 0. 0 <- 0.", &[[1, 0, 0, 0], [1, 1, 0, 0]], "");
    reduces(2, "0. 1 <- ~0. 1 <- ~0.", &[[5, 1, 0, 0], [5, 2, 0, 0]], "0.");
    reduces(2, "0 <- 1. 0. 0 <- 1.", &[[6, 0, 0, 1], [6, 2, 0, 1]], "0.");
}

/// Clauses that become equal to others, the earlier one by a drop, or the later one, or both.
#[test]
fn made_equal_by_a_drop() {
    // clause 1 becomes the fact 1, which is before clause 2
    reduces(2, "0. 1 <- 0. 1.", &[[3, 1, 0, 0], [8, 2, 1, 0]], "0. 1.");
    // clause 2 becomes the fact 1, which is behind clause 0
    reduces(2, "1. 0. 1 <- 0.", &[[3, 2, 1, 0], [8, 2, 0, 0]], "1. 0.");
    reduces(2, "0. 1 <- 0. 1 <- 0.", &[[3, 1, 0, 0], [3, 2, 0, 0], [8, 2, 1, 0]], "0. 1.");
    reduces(2, "0 <- ~1. 0.", &[[4, 0, 0, 1], [8, 1, 0, 0]], "0.");
    reduces(2, "0. 0 <- ~1.", &[[4, 1, 0, 1], [8, 1, 0, 0]], "0.");
    reduces(3, "0 <- ~1. 0 <- ~2.", &[[4, 0, 0, 1], [4, 1, 0, 2], [8, 1, 0, 0]], "0.");
    // a body atom stays: 1 is in a disjunction, 3 a fact
    reduces(4, "1|2. 3. 0 <- 1, 3. 0 <- 1.", &[[3, 2, 1, 3], [8, 3, 2, 0]], "1|2. 3. 0 <- 1.");
    reduces(4, "1|2. 3. 0 <- 1. 0 <- 1, 3.", &[[3, 3, 1, 3], [8, 3, 2, 0]], "1|2. 3. 0 <- 1.");
    // neither is within the other before clause 2 goes, and with it the heads of 0 and 3
    let list = [[8, 2, 3, 0], [4, 0, 0, 0], [4, 1, 0, 3], [8, 1, 0, 0]];
    reduces(4, "2 <- ~0. 2 <- ~3. 0|1|3. 1.", &list, "2. 1.");
    // clauses that become empty: clause 1 by the fact 0, which then goes by it; then clause 2 by clause 1
    reduces(1, "0. <- 0. <- .", &[[3, 1, 0, 0], [5, 0, 1, 0], [5, 2, 1, 0]], "<- .");
    reduces(1, "<- . 0. <- 0.", &[[3, 2, 1, 0], [5, 1, 0, 0], [5, 2, 0, 0]], "<- .");
    reduces(1, "<- ~0. <- .", &[[4, 0, 0, 0], [5, 1, 0, 0]], "<- .");
    reduces(1, "<- . <- ~0.", &[[4, 1, 0, 0], [5, 1, 0, 0]], "<- .");
}

/// Where the list now differs in more than the numbers of equal clauses.
#[test]
fn what_stays_opens_other_steps() {
    // before: clause 0 by clause 2, clause 1 by clause 2, and then 0 is in no head, which shortens clause 2 alone: three steps.
    // Now clause 1 goes by clause 0, 0 is in no head while clauses 0 and 2 are both kept, and both become empty
    let list = [[8, 1, 0, 0], [4, 0, 0, 0], [4, 2, 0, 0], [5, 2, 0, 0]];
    reduces(1, "<- ~0. 0 <- ~0. <- ~0.", &list, "<- .");
    takes(&words(&parse(1, "<- ~0. 0 <- ~0. <- ~0.")), &[[8, 0, 2, 0], [8, 1, 2, 0], [4, 2, 0, 0]]);
    // clauses 0 and 2 are equal, and clause 0 goes by the fact between them, which the empty clause blocks then; so 0 is in no
    // head, and clause 2 becomes empty, before clause 3
    let list = [[5, 0, 1, 0], [5, 1, 3, 0], [4, 2, 0, 0], [5, 3, 2, 0]];
    reduces(1, "<- ~0. 0. <- ~0. <- .", &list, "<- .");
    // clauses 0 and 2 are equal, and clause 0 goes by clause 3, which is within both; so does the only head of 0, and clause 2
    // becomes equal to clause 3, and is before it
    let list = [[8, 0, 3, 0], [8, 1, 3, 0], [4, 2, 0, 0], [8, 3, 2, 0]];
    reduces(2, "1 <- ~0. 0|1. 1 <- ~0. 1.", &list, "1.");
}

/// Two equal clauses, and a third that is within both, in each order.
#[test]
fn a_third_within_both() {
    // target 1: that by clause 2 is passed over, and clause 3 is within it; then target 2 by clause 3
    reduces(3, "1|2. 0 <- 1. 0 <- 1. 0.", &[[8, 1, 3, 0], [8, 2, 3, 0]], "1|2. 0.");
    reduces(3, "1|2. 0 <- 1. 0. 0 <- 1.", &[[8, 1, 2, 0], [8, 3, 2, 0]], "1|2. 0.");
    reduces(3, "1|2. 0. 0 <- 1. 0 <- 1.", &[[8, 2, 1, 0], [8, 3, 1, 0]], "1|2. 0.");
    reduces(2, "0|1. 0|1. 0.", &[[8, 0, 2, 0], [8, 1, 2, 0]], "0.");
    reduces(2, "0|1. 0. 0|1.", &[[8, 0, 1, 0], [8, 2, 1, 0]], "0.");
    reduces(2, "0. 0|1. 0|1.", &[[8, 1, 0, 0], [8, 2, 0, 0]], "0.");
    // the third twice: target 0 by the first of the two, so are targets 1 and 3
    reduces(2, "0|1. 0|1. 0. 0.", &[[8, 0, 2, 0], [8, 1, 2, 0], [8, 3, 2, 0]], "0.");
}

/// One clause is within the other, and they are not equal: the lower number goes by the higher one, as before.
#[test]
fn within_and_not_equal() {
    reduces(2, "0|1. 0.", &[[8, 0, 1, 0]], "0.");
    reduces(3, "1|2. 0 <- 1. 0.", &[[8, 1, 2, 0]], "1|2. 0.");
    reduces(3, "1|2. 0 <- ~1. 0.", &[[8, 1, 2, 0]], "1|2. 0.");
    reduces(3, "1|2. 0|1 <- 2. 0 <- 2.", &[[8, 1, 2, 0]], "1|2. 0 <- 2.");
    reduces(2, "0|1. <- 0, 1. <- 0.", &[[8, 1, 2, 0], [9, 2, 0, 0]], "1.");
    // as many atoms in all, the same heads, or the same bodies: neither is within the other
    for program in ["1|2. 0 <- 1. 0 <- ~1.", "1|2. 0 <- 1, ~2. 0 <- 2, ~1.", "1|2. 0 <- 1. <- 1, ~0.", "0|1. 0|2."] {
        reduces(3, program, &[], program);
    }
}

/// "The checker still takes either order."
#[test]
fn either_order() {
    let takes = |atoms: u16, program: &str, list: &[[u16; 4]]| takes(&words(&parse(atoms, program)), list);
    for step in [[8, 0, 1, 0], [8, 1, 0, 0]] {
        takes(1, "0. 0.", &[step]);
        takes(2, "0. 0.", &[step]);
        takes(2, "<- 0, ~1. <- 0, ~1.", &[step]);
    }
    for step in [[5, 0, 1, 0], [5, 1, 0, 0], [8, 0, 1, 0], [8, 1, 0, 0]] {
        takes(0, "<- . <- .", &[step]);
    }
    // three equal clauses in each order: the first and the second to go, and what is left
    for [first, second, last] in [[0, 1, 2], [0, 2, 1], [1, 0, 2], [1, 2, 0], [2, 0, 1], [2, 1, 0]] {
        for partner in [second, last] {
            takes(1, "0. 0. 0.", &[[8, first, partner, 0], [8, second, last, 0]]);
            takes(0, "<- . <- . <- .", &[[5, first, partner, 0], [8, second, last, 0]]);
        }
    }
    takes(2, "0. 1 <- 0. 1.", &[[3, 1, 0, 0], [8, 1, 2, 0]]);
    takes(2, "1. 0. 1 <- 0.", &[[3, 2, 1, 0], [8, 0, 2, 0]]);
}

/// The table of a shape at full size.
fn full_size(name: &str) -> Vec<u16> {
    let shape = SHAPES.iter().find(|shape| shape.name == name).unwrap();
    shape.table(shape.full)
}

/// The library makes these steps, which follow from the rule, and its checker takes them.
fn writes(table: &[u16], expected: &[[u16; 4]]) {
    let fresh = vec![7; table.len()];
    let (steps, marks, list) = library::reduce(table, &fresh, &vec![9; 32760]);
    assert_eq!(steps, expected.len() as u64);
    let (made, rest) = list.split_at(4 * expected.len());
    let differs = made.chunks(4).zip(expected).find(|(made, expected)| made != expected);
    assert_eq!(differs, None);
    assert!(rest.iter().all(|&word| word == 9));
    assert_eq!(library::check(table, &fresh, made), (steps, marks));
}

/// The library's checker takes as many steps, in any order, as the reducer makes of a table of equal clauses.
fn takes_any_order(table: &[u16], kind: u16) {
    let (fresh, last) = (vec![7; table.len()], table[1] - 1);
    let up: Vec<u16> = (0..last).flat_map(|clause| [kind, clause, clause + 1, 0]).collect();
    let down: Vec<u16> = (1..=last).rev().flat_map(|clause| [kind, clause, clause - 1, 0]).collect();
    let by_the_last: Vec<u16> = (0..last).flat_map(|clause| [kind, clause, last, 0]).collect();
    for list in [up, down, by_the_last] {
        assert_eq!(library::check(table, &fresh, &list).0, u64::from(last));
    }
}

/// As many equal facts as a table has room for.
#[test]
fn two_thousand_equal_facts() {
    let table = full_size("two thousand equal facts");
    assert_eq!((table.len(), table[1]), (2 + 4 * 2047, 2047));
    writes(&table, &(1..2047).map(|target| [8, target, 0, 0]).collect::<Vec<_>>());
    takes_any_order(&table, 8);
}

#[test]
fn two_thousand_empty_clauses() {
    let table = full_size("two thousand empty clauses");
    assert_eq!((table.len(), table[1]), (2 + 3 * 2048, 2048));
    writes(&table, &(1..2048).map(|target| [5, target, 0, 0]).collect::<Vec<_>>());
    takes_any_order(&table, 5);
    takes_any_order(&table, 8);
}

/// The fact 0, and <- 0. as often as there is room for: each becomes empty, then the fact goes by the first of them, and then all
/// others do.
#[test]
fn two_thousand_clauses_that_become_empty() {
    let constraints = "<- 0.".repeat(2046);
    let table = words(&parse(1, &format!("0. {constraints}")));
    assert_eq!(table.len(), 8190);
    let successes = (1..=2046).map(|target| [3, target, 0, 0]);
    let blocked = (2..=2046).map(|target| [5, target, 1, 0]);
    writes(&table, &successes.chain([[5, 0, 1, 0]]).chain(blocked).collect::<Vec<_>>());
}

#[test]
fn a_thousand_facts_twice() {
    let each_twice = (0..1023).map(|fact| [8, 2 * fact + 1, 2 * fact, 0]);
    writes(&full_size("a thousand facts, each twice"), &each_twice.collect::<Vec<_>>());
    let copies = (0..1023).map(|fact| [8, 1023 + fact, fact, 0]);
    writes(&full_size("a thousand facts, then their copies"), &copies.collect::<Vec<_>>());
}

#[test]
fn eight_hundred_equal_rules() {
    let table = full_size("eight hundred equal rules");
    assert_eq!(table[1], 818);
    writes(&table, &(2..818).map(|target| [8, target, 1, 0]).collect::<Vec<_>>());
}

/// Clauses 2 to 482 lose the atom 483, which clause 1 gives as a fact, and clauses 964 to 1,444 the atom 484, which is in no head.
/// Then each of 483 to 1,444 goes by the one of 2 to 482 that it is equal to.
#[test]
fn clauses_that_drops_make_equal() {
    let successes = (2..483).map(|target| [3, target, 1, 483]);
    let in_no_head = (964..1445).map(|target| [4, target, 0, 484]);
    let subsumed = (483..1445).map(|target| [8, target, 2 + (target - 2) % 481, 0]);
    writes(
        &full_size("clauses that drops make equal"),
        &successes.chain(in_no_head).chain(subsumed).collect::<Vec<_>>(),
    );
}
