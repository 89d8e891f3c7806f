//! The reduced table: 9, 10, 18, then the kept clauses with their kept literals.
use super::program;
use super::table::{Span, Table};
use super::{ask, Answer};

/// The answer, and the out slice afterwards.
pub fn reduced_table(words: &[u16], marks: &[u8], out: &[u16]) -> (Answer, Vec<u16>) {
    let mut out = out.to_vec();
    let answer = reduced_on(words, marks, &mut out);
    (answer, out)
}

fn reduced_on(words: &[u16], marks: &[u8], out: &mut [u16]) -> Answer {
    let table = Table::read(words)?;
    ask(marks.len() >= words.len(), 9, 0)?;
    for (place, &mark) in marks[..words.len()].iter().enumerate() {
        ask(mark == 1 || mark == 0 && may_be_gone(&table, place), 10, place)?;
    }
    let reduced = program::words(&table.program_left(marks));
    ask(out.len() >= reduced.len(), 18, 0)?;
    out[..reduced.len()].copy_from_slice(&reduced);
    Ok(reduced.len() as u64)
}

/// "0 only at a clause's first word or a body atom"; slip 8: "question 10 allows 0 at head atoms"
fn may_be_gone(table: &Table, place: usize) -> bool {
    let literal = |span: &Span| [&span.head, &span.pos, &span.neg].iter().any(|part| part.contains(&place));
    table.spans.iter().any(|span| span.first == place || literal(span))
}
