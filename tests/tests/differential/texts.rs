//! Texts, read and written.
use gambrolt_tests::compare::Tally;
use gambrolt_tests::independent::program::{words, Clause, Program, Set};
use gambrolt_tests::independent::Refused;
use gambrolt_tests::library;
use gambrolt_tests::make::programs::{any_size, near, program, MIDDLE, SMALL, TINY};
use gambrolt_tests::make::{tables, texts};
use gambrolt_tests::random::Random;

/// Texts in which much may be wrong. A slice longer than 8,192 words has something in every word.
pub fn read(random: &mut Random, tally: &mut Tally) {
    let size = any_size(random);
    let text = texts::text(random, size);
    let room = if random.once_in(50) { 8191 } else { 8192 + random.pick(&[0, 1, 3, 2000]) };
    let slice = pattern(random, room);
    let (answer, table) = tally.read_text(&text, &slice);
    if let Ok(words) = answer {
        let (written, out) = tally.write_text(&table[..words as usize], &vec![0; text.len()]);
        let back = written == Ok(text.len() as u64) && out == text;
        assert_eq!(back, canonical(&text), "{}", text.escape_ascii());
        *(if back { &mut tally.texts.canonical } else { &mut tally.texts.unordered }) += 1;
    }
}

/// Words that all differ from their neighbours.
fn pattern(random: &mut Random, room: usize) -> Vec<u16> {
    let (first, by) = (random.draw() as u16, 2 * random.upto(1000) as u16 + 1);
    (0..room).map(|place| first.wrapping_add(by.wrapping_mul(place as u16))).collect()
}

/// Whether every list of a text in form ascends, with no atom repeated.
fn canonical(text: &[u8]) -> bool {
    let text = std::str::from_utf8(text).expect("a text in form");
    let ascends = |line: &str| {
        let (_, value) = line.split_once('=').expect("a line in form");
        let numbers: Vec<u16> = value.split_terminator(',').map(|number| number.parse().unwrap()).collect();
        numbers.windows(2).all(|pair| pair[0] < pair[1])
    };
    text.lines().all(ascends)
}

/// One long list, which 26 or 6 may refuse, or neither.
pub fn long(random: &mut Random, tally: &mut Tally) {
    let slice = pattern(random, 8192 + 1000);
    tally.read_text(&texts::long(random), &slice);
}

/// The table of a text that is taken, and that table's text.
fn read_and_written(tally: &mut Tally, text: &[u8]) -> (Vec<u16>, Vec<u8>) {
    let (words, mut table) = tally.read_text(text, &[7; 8192]);
    table.truncate(words.expect("a text in form") as usize);
    let (bytes, mut out) = tally.write_text(&table, &[9; 65536]);
    out.truncate(bytes.expect("room for every text") as usize);
    (table, out)
}

/// "writing what was read from one returns its bytes", and its lists in any order, with repeats, give the same table.
pub fn in_any_order(random: &mut Random, tally: &mut Tally) {
    let size = random.pick(&[TINY, SMALL, SMALL, MIDDLE]);
    let program = program(random, size);
    let canonical = texts::rendered(&program);
    let both = (words(&program), canonical.clone());
    assert_eq!(read_and_written(tally, &canonical), both, "{}", canonical.escape_ascii());
    for _ in 0..3 {
        let text = texts::loose(random, &program);
        assert_eq!(read_and_written(tally, &text), both, "{}", text.escape_ascii());
    }
}

/// "Two accepted texts give the same table exactly when the writer gives one text for both": texts of one program, or of
/// two that are nearly the same.
pub fn two(random: &mut Random, tally: &mut Tally) {
    let size = any_size(random);
    let one = program(random, size);
    let other = if random.once_in(2) { one.clone() } else { near(random, &one) };
    let (first, second) = (texts::loose(random, &one), texts::loose(random, &other));
    let ((table, text), (other_table, other_text)) =
        (read_and_written(tally, &first), read_and_written(tally, &second));
    let shown = || format!("{}\n{}", first.escape_ascii(), second.escape_ascii());
    assert_eq!(table == other_table, text == other_text, "{}", shown());
    assert_eq!(table == other_table, one == other, "{}", shown());
    *(if one == other { &mut tally.texts.one_table } else { &mut tally.texts.two_tables }) += 1;
}

/// A text with something wrong in its last line, or behind it: the library leaves the whole slice as it was.
pub fn late(random: &mut Random, tally: &mut Tally) {
    let program = program(random, MIDDLE);
    let mut text = texts::loose(random, &program);
    let wrong = random.pick(&["9999", "1,9999,1", "1,0,", "1,1,01", "1 "]);
    match random.upto(2) {
        0 => text.push(b'\n'),
        1 => drop(text.pop()),
        _ => {
            text.pop();
            let value = text.iter().rposition(|&byte| byte == b'=').unwrap() + 1;
            text.splice(value.., format!("{wrong}\n").into_bytes());
        }
    }
    let room = 8192 + random.upto(100);
    let slice = pattern(random, room);
    let answer = tally.read_text(&text, &slice).0;
    assert!(matches!(answer, Err(Refused { number: 3 | 6 | 24 | 25 | 27, .. })), "{}", text.escape_ascii());
    assert!(library::read_text(&text, &slice).1 == slice, "a refused text changes the slice: {}", text.escape_ascii());
}

/// 8,192 words and one more, 65,536 bytes and one more, numbers at or above n on a line that is too long.
pub fn at_the_limits(random: &mut Random, tally: &mut Tally) {
    let slice = random.words(8192);
    let part = |most: u16| (0..most).collect();
    for atoms in 0..=4 {
        let last = Clause { head: part(random.upto(2) as u16), pos: part(1), neg: part(atoms) };
        tally.read_text(&texts::wide(248, last), &slice);
    }
    for length in [65535, 65536, 65537] {
        let mut text = texts::wide(random.upto(300), Clause::default());
        text.resize(length, b'\n');
        tally.read_text(&text, &slice);
    }
}

pub fn written(random: &mut Random, tally: &mut Tally) {
    let size = random.pick(&[TINY, SMALL, SMALL, MIDDLE]);
    let table = tables::mostly_sound(random, size);
    let long = random.bytes(6000);
    let (answer, text) = tally.write_text(&table, &long);
    if let Ok(written) = answer {
        let written = written as usize;
        let less = random.upto(written);
        let room = random.pick(&[written - 1, written, written + 1, less]);
        tally.write_text(&table, &long[..room]);
        let (read, back) = tally.read_text(&text[..written], &vec![0; 8192]);
        assert_eq!((read, &back[..table.len()]), (Ok(table.len() as u64), &table[..]), "reading what was written");
    }
}

/// Numbers on both sides of each end of a number of digits, and the greatest that are read.
const ENDS: [u16; 14] = [0, 1, 8, 9, 10, 98, 99, 100, 998, 999, 1000, 1023, 1024, 2048];

/// A program with so many atoms and clauses, and atoms near the ends, in as many words as a table holds.
fn at_the_ends(random: &mut Random, atoms: u16, clauses: u16) -> Program {
    let below: Vec<u16> = ENDS.into_iter().filter(|&atom| atom < atoms).collect();
    let mut left = 8190 - 3 * usize::from(clauses);
    let mut part = || -> Set {
        let count = if below.is_empty() { 0 } else { random.upto(left.min(4)) };
        let part: Set = (0..count).map(|_| random.pick(&below)).collect();
        left -= part.len();
        part
    };
    let clauses = (0..clauses).map(|_| Clause { head: part(), pos: part(), neg: part() }).collect();
    Program { atoms, clauses }
}

/// Numbers of atoms and of clauses, and atoms, of one to four digits: slices as long as the text, a byte shorter and longer.
pub fn of_every_length(random: &mut Random, tally: &mut Tally) {
    let (atoms, clauses) = (random.pick(&ENDS[..13]), random.pick(&ENDS));
    let table = words(&at_the_ends(random, atoms, clauses));
    let long = random.bytes(43022);
    let (answer, text) = tally.write_text(&table, &long);
    let written = answer.expect("room for every text") as usize;
    assert!(text.starts_with(format!("atoms={atoms}\nclauses={clauses}\n").as_bytes()), "{table:?}");
    for room in [written, written + 1] {
        assert_eq!(tally.write_text(&table, &long[..room]).0, answer);
    }
    let short = long[..written - 1].to_vec();
    assert_eq!(tally.write_text(&table, &short), (Err(Refused { number: 28, place: 0 }), short));
    let (read, back) = tally.read_text(&text[..written], &vec![0; 8192]);
    assert_eq!((read, &back[..table.len()]), (Ok(table.len() as u64), &table[..]), "reading what was written");
}
