//! Marks, sound and damaged.
use crate::independent::table::Table;
use crate::random::Random;

/// Bytes of any value: as many as the table's words, rarely one too few, often some more.
pub fn any(random: &mut Random, words: usize) -> Vec<u8> {
    let count = match random.upto(19) {
        0 => words.saturating_sub(1),
        1..=9 => words,
        more => words + more - 9,
    };
    random.bytes(count)
}

/// Marks that leave a part of the table's program, at times damaged, with any bytes past the table.
pub fn leaving(random: &mut Random, table: &[u16]) -> Vec<u8> {
    let mut marks = vec![1; table.len()];
    if let Ok(table) = Table::read(table) {
        let places = table.spans.iter().flat_map(|span| [span.first].into_iter().chain(span.head.start..span.neg.end));
        let gone = 1 + random.upto(5);
        for place in places {
            marks[place] = u8::from(!random.once_in(gone));
        }
    }
    if random.once_in(3) && !marks.is_empty() {
        let place = random.upto(marks.len() - 1);
        marks[place] = random.pick(&[0, 0, 0, 0, 2, 255]);
    }
    match random.upto(9) {
        0 => drop(marks.pop()),
        more => marks.extend(random.bytes(more / 3)),
    }
    marks
}
