//! Reducing: 9, 17, then the smallest applicable step that is not passed over, until there is none.
use super::steps::{Left, Step, KINDS};
use super::table::Table;
use super::{ask, Answer};

/// The answer, and the marks and the list afterwards.
pub fn reduce(words: &[u16], marks: &[u8], list: &[u16]) -> (Answer, Vec<u8>, Vec<u16>) {
    let (mut marks, mut list) = (marks.to_vec(), list.to_vec());
    let answer = reduce_on(words, &mut marks, &mut list);
    (answer, marks, list)
}

fn reduce_on(words: &[u16], marks: &mut [u8], list: &mut [u16]) -> Answer {
    let table = Table::read(words)?;
    ask(marks.len() >= words.len(), 9, 0)?;
    ask(list.len() >= 4 * table.clauses_and_literals(), 17, 0)?;
    marks[..words.len()].fill(1);
    let mut steps = 0;
    loop {
        let left = Left::new(&table, marks);
        let Some(step) = smallest(&left) else { return Ok(steps as u64) };
        list[4 * steps..4 * steps + 4].copy_from_slice(&step.words());
        left.make(&table, step, marks);
        steps += 1;
    }
}

/// "the applicable step that is smallest by kind, then target, partner, atom"; slip 7: of the applicable steps some are
/// passed over, and the reducer "takes the smallest step of the rest".
pub fn smallest(left: &Left) -> Option<Step> {
    smallest_by(|left, step| left.applies(step) && !passed_over(left, step), left)
}

/// Slip 7: "Where target and partner are equal in all three parts as left, the reducer now passes over the step of kind 5 or 8
/// whose target is the lower number".
pub fn passed_over(left: &Left, step: Step) -> bool {
    matches!(step.kind, 5 | 8) && step.target < step.partner && equal(left, step)
}

/// Whether a step's target and its partner are kept, and "equal in all three parts as left".
fn equal(left: &Left, step: Step) -> bool {
    match (left.kept(step.target), left.kept(step.partner)) {
        (Some(target), Some(partner)) => {
            target.head == partner.head && target.pos == partner.pos && target.neg == partner.neg
        }
        _ => false,
    }
}

/// The smallest applicable step, passed over or not: what the reducer took before slip 7.
pub fn smallest_applicable(left: &Left) -> Option<Step> {
    smallest_by(Left::applies, left)
}

/// The smallest of the steps that are said to apply.
pub fn smallest_by(applies: fn(&Left, Step) -> bool, left: &Left) -> Option<Step> {
    let clauses = left.clauses.len() as u16;
    let of = |kind: u16, target: u16| left.choices(kind, target).into_iter().find(|&step| applies(left, step));
    let kept = (0..clauses).filter(|&target| left.kept(target).is_some());
    KINDS.into_iter().find_map(|kind| kept.clone().find_map(|target| of(kind, target)))
}

/// The list of a reducer that takes these steps, from all marks 1.
pub fn list_by(words: &[u16], next: fn(&Left) -> Option<Step>) -> Vec<[u16; 4]> {
    let table = Table::read(words).unwrap();
    let (mut marks, mut list) = (vec![1; words.len()], Vec::new());
    loop {
        let left = Left::new(&table, &marks);
        let Some(step) = next(&left) else { return list };
        left.make(&table, step, &mut marks);
        list.push(step.words());
    }
}

/// The program as left before each step of a list, and behind the last.
pub fn states(words: &[u16], list: &[[u16; 4]]) -> Vec<Left> {
    let table = Table::read(words).unwrap();
    let mut marks = vec![1; words.len()];
    let mut states = vec![Left::new(&table, &marks)];
    for &[kind, target, partner, atom] in list {
        states.last().unwrap().make(&table, Step::new(kind, target, partner, atom), &mut marks);
        states.push(Left::new(&table, &marks));
    }
    states
}

/// Every applicable step, those that the reducer passes over among them: "The checker still takes either order."
pub fn applicable(left: &Left) -> Vec<Step> {
    let clauses = left.clauses.len() as u16;
    let steps = KINDS.into_iter().flat_map(|kind| (0..clauses).flat_map(move |target| left.choices(kind, target)));
    steps.filter(|&step| left.applies(step)).collect()
}
