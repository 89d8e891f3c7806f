//! The cycle answer.
use super::program::{Program, Set};
use super::table::Table;
use super::Answer;

pub fn cycle(words: &[u16]) -> Answer {
    let program = Table::read(words)?.program();
    Ok(u64::from((0..program.atoms).any(|atom| led_to(&program, atom).contains(&atom))))
}

/// The atoms that an atom leads to: "when a clause has a in its head and b in its body .. and so on along chains", where
/// "only positive body atoms lead on" (slip 2).
fn led_to(program: &Program, atom: u16) -> Set {
    let mut found = Set::new();
    let mut waiting = vec![atom];
    while let Some(from) = waiting.pop() {
        for clause in program.clauses.iter().filter(|clause| clause.head.contains(&from)) {
            for &to in &clause.pos {
                if found.insert(to) {
                    waiting.push(to);
                }
            }
        }
    }
    found
}
