//! The text form: reading with 22 to 27, writing with 28.
use super::program::Set;
use super::table::Table;
use super::{ask, Answer, Refused};

/// The answer, and the table slice afterwards.
pub fn read_text(text: &[u8], slice: &[u16]) -> (Answer, Vec<u16>) {
    let mut after = slice.to_vec();
    let words = match read(text, slice.len()) {
        Ok(words) => words,
        Err(refused) => return (Err(refused), after),
    };
    after[..words.len()].copy_from_slice(&words);
    (Ok(words.len() as u64), after)
}

fn read(text: &[u8], room: usize) -> Result<Vec<u16>, Refused> {
    ask(text.len() <= 65536, 22, 0)?;
    ask(room >= 8192, 23, 0)?;
    let mut at = 0;
    let atoms = first_line(text, &mut at, "atoms=", 1024, 2)?;
    let clauses = first_line(text, &mut at, "clauses=", 2048, 3)?;
    let mut words = vec![atoms, clauses];
    for _ in 0..clauses {
        let mut counts = Vec::new();
        let mut parts = Vec::new();
        for key in ["head=", "pos=", "neg="] {
            let place = at;
            let kept = list(line(text, &mut at, key)?).ok_or(Refused { number: 25, place: place as u64 })?;
            ask(words.len() + 3 + parts.len() + kept.len() <= 8192, 26, place)?;
            ask(kept.iter().all(|&atom| atom < atoms), 6, place)?;
            counts.push(kept.len() as u16);
            parts.extend(kept);
        }
        words.extend(counts);
        words.extend(parts);
    }
    ask(at == text.len(), 27, at)?;
    Ok(words)
}

/// A line whose value is one number, with the question of its limit.
fn first_line(text: &[u8], at: &mut usize, key: &str, most: u16, limit: u64) -> Result<u16, Refused> {
    let place = *at;
    let value = number(line(text, at, key)?).ok_or(Refused { number: 25, place: place as u64 })?;
    ask(value <= most, limit, place)?;
    Ok(value)
}

/// "24 Is it there with its key, "=" and a line feed?" The value, up to the line feed.
fn line<'a>(text: &'a [u8], at: &mut usize, key: &str) -> Result<&'a [u8], Refused> {
    let missing = Refused { number: 24, place: *at as u64 };
    let rest = text[*at..].strip_prefix(key.as_bytes()).ok_or(missing)?;
    let length = rest.iter().position(|&byte| byte == b'\n').ok_or(missing)?;
    *at += key.len() + length + 1;
    Ok(&rest[..length])
}

/// "A number has one to four digits and no leading zero, save 0 itself."
fn number(value: &[u8]) -> Option<u16> {
    let digits = (1..=4).contains(&value.len()) && value.iter().all(u8::is_ascii_digit);
    let in_form = digits && (value[0] != b'0' || value.len() == 1);
    in_form.then(|| value.iter().fold(0, |sum, digit| 10 * sum + u16::from(digit - b'0')))
}

/// "numbers joined by commas, or nothing"; slip 5: "in any order and repeat an atom. Reading a list sorts it and keeps each
/// atom once".
fn list(value: &[u8]) -> Option<Set> {
    if value.is_empty() {
        return Some(Set::new());
    }
    value.split(|&byte| byte == b',').map(number).collect()
}

/// The answer, and the out slice afterwards.
pub fn write_text(words: &[u16], out: &[u8]) -> (Answer, Vec<u8>) {
    let mut out = out.to_vec();
    let answer = write_on(words, &mut out);
    (answer, out)
}

fn write_on(words: &[u16], out: &mut [u8]) -> Answer {
    let text = render(&Table::read(words)?);
    ask(out.len() >= text.len(), 28, 0)?;
    out[..text.len()].copy_from_slice(text.as_bytes());
    Ok(text.len() as u64)
}

/// "Lines in fixed order: atoms=, clauses=, then head=, pos=, neg= for each clause."
pub fn render(table: &Table) -> String {
    let mut text = format!("atoms={}\nclauses={}\n", table.atoms, table.spans.len());
    for span in &table.spans {
        for (key, part) in [("head", &span.head), ("pos", &span.pos), ("neg", &span.neg)] {
            let atoms: Vec<String> = table.words[part.clone()].iter().map(u16::to_string).collect();
            text += &format!("{key}={}\n", atoms.join(","));
        }
    }
    text
}
