//! Lists of steps, right, half-right and random.
use crate::independent::reduce::{applicable, smallest};
use crate::independent::steps::{Left, Step};
use crate::independent::table::Table;
use crate::random::Random;

/// A list for a table, which need not be sound.
pub fn list(random: &mut Random, table: &[u16]) -> Vec<u16> {
    let mut list = match Table::read(table) {
        Ok(table) if !random.once_in(4) => half_right(random, &table),
        _ => any_steps(random, table),
    };
    match random.upto(39) {
        0 => drop(list.pop()),
        1 => list.push(0),
        2 => list.extend([1, 0]),
        3 if random.once_in(20) => list.resize(random.pick(&[32760, 32764]), 0),
        _ => {}
    }
    list
}

/// Steps whose words are near those that name something.
fn any_steps(random: &mut Random, table: &[u16]) -> Vec<u16> {
    let mut list = Vec::new();
    for _ in 0..random.upto(3) {
        list.extend(any_step(random, table).words());
    }
    list
}

fn any_step(random: &mut Random, table: &[u16]) -> Step {
    let most = |place: usize| usize::from(table.get(place).copied().unwrap_or(0).min(2048));
    let kind = random.upto(10) as u16;
    let target = random.upto(most(1)) as u16;
    let partner = if random.once_in(2) { 0 } else { random.upto(most(1)) as u16 };
    let atom = if random.once_in(2) { 0 } else { random.upto(most(0)) as u16 };
    Step::new(kind, target, partner, atom)
}

/// A success that applies, with 0, which was the filler of its word, or any atom in the place of its own.
fn renamed(random: &mut Random, left: &Left) -> Option<Step> {
    let successes: Vec<Step> = applicable(left).into_iter().filter(|step| step.kind == 3).collect();
    if successes.is_empty() {
        return None;
    }
    let atom = if random.once_in(2) { 0 } else { random.upto(usize::from(left.atoms)) as u16 };
    Some(Step { atom, ..random.pick(&successes) })
}

/// A loop step on a kept target. Its atom is in no kept head, be it in the target's positive body, or lost to steps before, or
/// any; or it is in one, be it in that body or not.
fn loop_step(random: &mut Random, table: &Table, left: &Left) -> Option<Step> {
    let given = Left::new(table, &vec![1; table.words.len()]);
    let targets = (0..left.clauses.len() as u16).filter(|&target| left.kept(target).is_some());
    let all: Vec<Step> =
        targets.flat_map(|target| (0..left.atoms).map(move |atom| Step::new(7, target, 0, atom))).collect();
    let in_body = |step: &Step| left.kept(step.target).unwrap().pos.contains(&step.atom);
    let groups: [&dyn Fn(&Step) -> bool; 5] = [
        &|step| left.in_no_head(step.atom) && in_body(step),
        &|step| left.in_no_head(step.atom) && !given.in_no_head(step.atom),
        &|step| left.in_no_head(step.atom),
        &|step| !left.in_no_head(step.atom) && in_body(step),
        &|step| !left.in_no_head(step.atom) && !in_body(step),
    ];
    let group = random.pick(&groups);
    let steps: Vec<Step> = all.into_iter().filter(group).collect();
    (!steps.is_empty()).then(|| random.pick(&steps))
}

/// Steps that apply, then such a loop step, where there is one, then at times more; and that step's number.
pub fn around_loop(random: &mut Random, table: &Table) -> Option<(Vec<u16>, usize)> {
    let (mut list, marks) = right(random, table, 8);
    let place = list.len() / 4;
    list.extend(loop_step(random, table, &Left::new(table, &marks))?.words());
    list.extend(right(random, table, 3).0);
    Some((list, place))
}

/// A step of kind 9 on a kept target: any; or the target is a constraint without negative atoms; or the atom is one that steps
/// before dropped somewhere, or leads to all atoms of such a constraint but one; or the partner word is not 0.
fn excluding(random: &mut Random, table: &Table, left: &Left) -> Option<Step> {
    let given = Left::new(table, &vec![1; table.words.len()]);
    let targets = (0..left.clauses.len() as u16).filter(|&target| left.kept(target).is_some());
    let all: Vec<Step> =
        targets.flat_map(|target| (0..left.atoms).map(move |atom| Step::new(9, target, 0, atom))).collect();
    let target = |step: &Step| left.kept(step.target).unwrap();
    let positive_constraint = |step: &Step| target(step).head.is_empty() && target(step).neg.is_empty();
    let missed = |step: &Step| target(step).pos.difference(left.derived_from(step.atom)).count();
    let groups: [&dyn Fn(&Step) -> bool; 6] = [
        &|_| true,
        &|step| positive_constraint(step),
        &|step| positive_constraint(step) && missed(step) == 1,
        &|step| positive_constraint(step) && missed(step) == 0 && !left.occurs(step.atom),
        &|step| missed(step) == 0 && !positive_constraint(step),
        &|step| given.occurs(step.atom) && !left.occurs(step.atom),
    ];
    let some: Vec<_> = groups.into_iter().filter(|group| all.iter().any(group)).collect();
    if some.is_empty() {
        return None;
    }
    let group = random.pick(&some);
    let steps: Vec<Step> = all.into_iter().filter(group).collect();
    let partner = if random.once_in(12) { random.upto(left.clauses.len()) as u16 } else { 0 };
    Some(Step { partner, ..random.pick(&steps) })
}

/// Steps that apply, then one of kind 9 that may, where there is one, then at times more; and that step's number.
pub fn around_exclusion(random: &mut Random, table: &Table) -> Option<(Vec<u16>, usize)> {
    let (mut list, marks) = right(random, table, 8);
    let place = list.len() / 4;
    let left = Left::new(table, &marks);
    let right_ones: Vec<Step> = applicable(&left).into_iter().filter(|step| step.kind == 9).collect();
    let step = match right_ones.is_empty() || random.once_in(2) {
        true => excluding(random, table, &left)?,
        false => random.pick(&right_ones),
    };
    list.extend(step.words());
    list.extend(right(random, table, 3).0);
    Some((list, place))
}

/// One of the list's failures is named a loop.
fn failure_as_loop(random: &mut Random, list: &mut [u16]) {
    let failures: Vec<usize> = (0..list.len()).step_by(4).filter(|&place| list[place] == 6).collect();
    if !failures.is_empty() {
        list[random.pick(&failures)] = 7;
    }
}

/// At most so many steps that apply, each picked among all or the smallest; and the marks that they leave.
fn right(random: &mut Random, table: &Table, most: usize) -> (Vec<u16>, Vec<u8>) {
    let mut marks = vec![1; table.words.len()];
    let mut list = Vec::new();
    let smallest_only = random.once_in(4);
    for _ in 0..random.upto(most) {
        let left = Left::new(table, &marks);
        let open = if smallest_only { smallest(&left).into_iter().collect() } else { applicable(&left) };
        if open.is_empty() {
            break;
        }
        let step = random.pick(&open);
        left.make(table, step, &mut marks);
        list.extend(step.words());
    }
    (list, marks)
}

/// Steps that apply; then, at times, one that is off by a word, or one more.
fn half_right(random: &mut Random, table: &Table) -> Vec<u16> {
    let (mut list, marks) = right(random, table, 12);
    let left = Left::new(table, &marks);
    match random.upto(8) {
        0 => list.extend(any_step(random, table.words).words()),
        1 if !list.is_empty() => {
            let place = random.upto(list.len() - 1);
            list[place] = random.pick(&[list[place].wrapping_add(1), list[place].wrapping_sub(1), 0, 1, 65535]);
        }
        2 => list.extend(renamed(random, &left).iter().flat_map(Step::words)),
        3 => list.extend(loop_step(random, table, &left).iter().flat_map(Step::words)),
        4 => failure_as_loop(random, &mut list),
        5 => list.extend(excluding(random, table, &left).iter().flat_map(Step::words)),
        _ => {}
    }
    list
}
