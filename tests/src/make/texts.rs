//! Texts, sound and damaged, their lists as they may come: in any order, with atoms repeated.
use super::programs::{program, Size};
use crate::independent::program::{words, Clause, Program, Set};
use crate::independent::table::Table;
use crate::independent::text::render;
use crate::random::Random;

/// The text of a random program, most often damaged in one to three places; the lists of one in three are canonical.
pub fn text(random: &mut Random, size: Size) -> Vec<u8> {
    let program = program(random, size);
    let mut text = if random.once_in(3) { rendered(&program) } else { loose(random, &program) };
    for _ in 0..random.upto(3) {
        match random.upto(2) {
            0 => damage_bytes(random, &mut text),
            1 => damage_line(random, &mut text),
            _ => add_number(random, &mut text),
        }
    }
    text
}

/// The canonical text of a program.
pub fn rendered(program: &Program) -> Vec<u8> {
    render(&Table::read(&words(program)).unwrap()).into_bytes()
}

/// The text of a program with its lists in any order and with repeats.
pub fn loose(random: &mut Random, program: &Program) -> Vec<u8> {
    let mut text = format!("atoms={}\nclauses={}\n", program.atoms, program.clauses.len());
    for clause in &program.clauses {
        for (key, part) in [("head", &clause.head), ("pos", &clause.pos), ("neg", &clause.neg)] {
            text += &format!("{key}={}\n", joined(&in_any_order(random, part)));
        }
    }
    text.into_bytes()
}

fn joined(numbers: &[u16]) -> String {
    numbers.iter().map(u16::to_string).collect::<Vec<_>>().join(",")
}

/// The atoms as they are, from the last on, all of them again and again, or shuffled with some more of them.
fn in_any_order(random: &mut Random, part: &Set) -> Vec<u16> {
    let mut atoms: Vec<u16> = part.iter().copied().collect();
    match random.upto(4) {
        0 => {}
        1 => atoms.reverse(),
        2 => atoms = atoms.repeat(1 + random.upto(3)),
        _ => {
            let more = if atoms.is_empty() { 0 } else { random.upto(4) };
            atoms.extend((0..more).map(|_| random.pick(&atoms)).collect::<Vec<_>>());
            shuffle(random, &mut atoms);
        }
    }
    atoms
}

fn shuffle(random: &mut Random, numbers: &mut [u16]) {
    for last in (1..numbers.len()).rev() {
        numbers.swap(last, random.upto(last));
    }
}

fn damage_bytes(random: &mut Random, text: &mut Vec<u8>) {
    let place = random.upto(text.len());
    let byte = random.pick(b"0019,,=\n\n\r \t\0-+ahnp\xff");
    match random.upto(5) {
        0 => text.truncate(place),
        1 if place < text.len() => drop(text.remove(place)),
        2 if place < text.len() => text[place] = byte,
        3 if place < text.len() => text[place] = text[place].wrapping_add(1),
        4 => text.push(byte),
        _ => text.insert(place, byte),
    }
}

/// Values at which some question turns.
const VALUES: [&str; 24] = [
    "",
    "0",
    "1",
    "00",
    "02",
    "1023",
    "1024",
    "1025",
    "2048",
    "2049",
    "9999",
    "12345",
    ",",
    "1,",
    "1,,2",
    "0,1,2,3",
    "1,1",
    "1,0",
    "0,1,0",
    "1,0,",
    "1,0,00",
    "1,1,10000",
    "9999,9999",
    "9999,0,9999",
];

/// The lines of a text that is not empty, and the number of one of them.
fn one_line(random: &mut Random, text: &[u8]) -> Option<(Vec<Vec<u8>>, usize)> {
    let lines: Vec<Vec<u8>> = text.split_inclusive(|&byte| byte == b'\n').map(<[u8]>::to_vec).collect();
    let last = lines.len().checked_sub(1)?;
    Some((lines, random.upto(last)))
}

fn damage_line(random: &mut Random, text: &mut Vec<u8>) {
    let Some((mut lines, number)) = one_line(random, text) else { return };
    match random.upto(5) {
        0 => drop(lines.remove(number)),
        1 => lines.insert(number, lines[number].clone()),
        2 => lines.swap(0, number),
        3 => lines[number].make_ascii_uppercase(),
        _ => {
            let key = lines[number].split(|&byte| byte == b'=').next().unwrap().to_vec();
            let value = random.pick(&VALUES);
            lines[number] = [&key, b"=".as_slice(), value.as_bytes(), b"\n"].concat();
        }
    }
    *text = lines.concat();
}

/// A number that may not be below the number of atoms, in front of a line's value, behind it or both.
fn add_number(random: &mut Random, text: &mut Vec<u8>) {
    let Some((mut lines, number)) = one_line(random, text) else { return };
    let Some(from) = lines[number].iter().position(|&byte| byte == b'=').map(|place| place + 1) else { return };
    let added = random.pick(&["0", "1", "3", "4", "8", "9", "1024", "9999"]);
    let value = lines[number].split_off(from);
    let value = value.strip_suffix(b"\n").unwrap_or(&value);
    let (front, behind) = random.pick(&[(true, false), (false, true), (true, true)]);
    let parts = [(front, added.as_bytes()), (!value.is_empty(), value), (behind, added.as_bytes())];
    let parts: Vec<&[u8]> = parts.into_iter().filter(|(there, _)| *there).map(|(_, part)| part).collect();
    lines[number].extend(parts.join(&b','));
    lines[number].push(b'\n');
    *text = lines.concat();
}

/// Numbers of different numbers in a list at which 26 turns, by what stands before the list.
const COUNTS: [usize; 12] = [1, 2, 1000, 1024, 1025, 8183, 8184, 8185, 8186, 8187, 8188, 10000];

/// A text with one long list: so many different numbers, in any order, again and again as far as there is room.
pub fn long(random: &mut Random) -> Vec<u8> {
    let atoms = random.pick(&[3, 1024]);
    let before = random.pick(&["head=", "head=2,0,2\npos=", "head=\npos=1,1\nneg="]);
    let behind = random.pick(&["\n", "\npos=\nneg=\n", "\nneg=0,0\n", ""]);
    let room = random.pick(&[60000, 65000, 65530, 65536, 65537, 65538]);
    let mut text = format!("atoms={atoms}\nclauses=1\n{before}");
    let mut numbers = different(random);
    if random.once_in(2) {
        shuffle(random, &mut numbers);
    } else {
        numbers.reverse();
    }
    let once = joined(&numbers);
    for _ in 0..1 + (room - once.len()) / (once.len() + 1) {
        text += &once;
        text.push(',');
    }
    text.pop();
    text += behind;
    text.into_bytes()
}

/// So many different numbers, ascending; those of a short list often from 0 on.
fn different(random: &mut Random) -> Vec<u16> {
    let count = random.pick(&COUNTS);
    let first = if random.once_in(2) { 0 } else { random.upto(10000 - count) };
    (first as u16..(first + count) as u16).collect()
}

/// A text of so many clauses, each of 33 words, so that 248 of them pass the limit of 8,192 words by 2 + 8,184 and 249 do not.
pub fn wide(clauses: usize, last: Clause) -> Vec<u8> {
    let whole = Clause { head: (0..10).collect(), pos: (0..10).collect(), neg: (0..10).collect() };
    let mut text = format!("atoms=10\nclauses={}\n", clauses + 1).into_bytes();
    let one = rendered(&Program { atoms: 10, clauses: vec![whole] });
    let three_lines = &one["atoms=10\nclauses=1\n".len()..];
    for _ in 0..clauses {
        text.extend(three_lines);
    }
    let one = rendered(&Program { atoms: 10, clauses: vec![last] });
    text.extend(&one["atoms=10\nclauses=1\n".len()..]);
    text
}

/// A text of so many bytes, with the lines behind its first list, which has atom 0 again and again. So many clauses are
/// announced.
pub fn repeats(bytes: usize, clauses: usize, behind: &str) -> String {
    let text =
        |atoms: u16, more: usize| format!("atoms={atoms}\nclauses={clauses}\nhead=0{}\n{behind}", ",0".repeat(more));
    let more = bytes - text(1, 0).len();
    let text = if more.is_multiple_of(2) { text(1, more / 2) } else { text(10, more / 2) };
    assert_eq!(text.len(), bytes);
    text
}
