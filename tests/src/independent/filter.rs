//! The program: what it prints for the text that it reads.
use super::program::words;
use super::table::Table;
use super::{reduce, text, Refused};

/// "A refusal prints only refused= with number and place, joined by a comma".
pub fn output(text: &[u8]) -> String {
    reduced(text).unwrap_or_else(|refused| format!("refused={},{}\n", refused.number, refused.place))
}

/// "prints the reduced program, then steps= with the count, then one line a step: step= with kind, target, partner and atom,
/// joined by commas"
fn reduced(text: &[u8]) -> Result<String, Refused> {
    let (read, slice) = text::read_text(text, &[0; 8192]);
    let given = &slice[..read? as usize];
    let (made, marks, list) = reduce::reduce(given, &vec![1; given.len()], &[0; 32760]);
    let steps = made? as usize;
    let left = words(&Table::read(given)?.program_left(&marks));
    let mut lines = text::render(&Table::read(&left)?);
    lines += &format!("steps={steps}\n");
    for step in list.chunks(4).take(steps) {
        lines += &format!("step={},{},{},{}\n", step[0], step[1], step[2], step[3]);
    }
    Ok(lines)
}
