//! Checking a list: 9, 11, then 12 to 15, 29, 32 and 16 step by step.
use super::steps::{has_atom, has_partner, Left, Step, KINDS};
use super::table::Table;
use super::{ask, Answer, Refused};

/// What is asked of one step, whose number is the place.
pub type Questions = fn(&Left, Step, usize) -> Result<(), Refused>;

/// The answer, and the marks afterwards.
pub fn check(words: &[u16], marks: &[u8], list: &[u16]) -> (Answer, Vec<u8>) {
    check_by(questions, words, marks, list)
}

/// The same with these questions of each step.
pub fn check_by(questions: Questions, words: &[u16], marks: &[u8], list: &[u16]) -> (Answer, Vec<u8>) {
    let mut after = marks.to_vec();
    let answer = check_on(questions, words, &mut after, list);
    (answer, after)
}

fn check_on(questions: Questions, words: &[u16], marks: &mut [u8], list: &[u16]) -> Answer {
    let table = Table::read(words)?;
    ask(marks.len() >= words.len(), 9, 0)?;
    ask(list.len().is_multiple_of(4) && list.len() <= 32760, 11, 0)?;
    marks[..words.len()].fill(1);
    for (number, step) in list.chunks(4).enumerate() {
        let step = Step::new(step[0], step[1], step[2], step[3]);
        let left = Left::new(&table, marks);
        questions(&left, step, number)?;
        left.make(&table, step, marks);
    }
    Ok(list.len() as u64 / 4)
}

/// Questions 12 to 15, 29, 32 and 16 of one step. Slip 6: "Such steps get 32, asked after 29 and before 16."
pub fn questions(left: &Left, step: Step, number: usize) -> Result<(), Refused> {
    first_questions(left, step, number)?;
    ask(left.atom_headed(step), 32, number)?;
    ask(left.condition(step), 16, number)
}

/// Questions 12 to 15 and 29 of one step.
pub fn first_questions(left: &Left, step: Step, number: usize) -> Result<(), Refused> {
    ask(KINDS.contains(&step.kind), 12, number)?;
    ask(left.kept(step.target).is_some(), 13, number)?;
    let partner_is_right = match has_partner(step.kind) {
        true => left.kept(step.partner).is_some() && step.partner != step.target,
        false => step.partner == 0,
    };
    ask(partner_is_right, 14, number)?;
    let atom_is_right = match has_atom(step.kind) {
        true => step.atom < left.atoms,
        false => step.atom == 0,
    };
    ask(atom_is_right, 15, number)?;
    ask(left.atom_matches(step), 29, number)
}
