//! Texts that are read, with lists ascending, in other orders and with repeats.
use crate::calls;
use crate::timing::best_by_turns;
use gambrolt_tests::independent::text::read_text;
use gambrolt_tests::independent::Refused;
use gambrolt_tests::random::Random;

/// How often each text is read.
const TURNS: usize = 200;

/// The most bytes that a text may have.
const BYTES: usize = 65536;

/// The text's name and bytes.
type Text = (&'static str, String);

pub fn texts() {
    println!("| text | bytes | numbers in lists | answer | ms | ns a byte | a byte / a byte of the first |");
    println!("|---|---|---|---|---|---|---|");
    let all = shapes();
    for shape in &all {
        line(shape, &all[0].1);
    }
}

fn shapes() -> [Text; 9] {
    let falling = |count: u16| (0..count).rev().collect::<Vec<u16>>();
    [
        ("canonical", eight_lists(|atoms| atoms)),
        ("every list descending", eight_lists(|atoms| atoms.into_iter().rev().collect())),
        ("one atom again and again", one_list(&[0], BYTES)),
        ("all atoms descending, again and again", one_list(&falling(1024), BYTES)),
        ("10,000 numbers descending, and again", one_list(&falling(10000), BYTES)),
        ("10,000 numbers shuffled, and again", one_list(&shuffled(10000), BYTES)),
        ("8,187 numbers descending, and again", one_list(&falling(8187), BYTES)),
        ("8,187 numbers shuffled, and again", one_list(&shuffled(8187), BYTES)),
        ("an atom twice on every line", twice_on_every_line()),
    ]
}

fn joined(numbers: impl Iterator<Item = u16>) -> String {
    numbers.map(|number| number.to_string()).collect::<Vec<_>>().join(",")
}

/// Eight heads, of all atoms but the last, in 8,192 words.
fn eight_lists(order: fn(Vec<u16>) -> Vec<u16>) -> String {
    let counts = [1024, 1024, 1024, 1024, 1024, 1024, 1024, 998];
    let head = |count: u16| joined(order((0..count).collect()).into_iter());
    let clauses = counts.map(|count| format!("head={}\npos=\nneg=\n", head(count)));
    format!("atoms=1024\nclauses=8\n{}", clauses.concat())
}

/// One head of these numbers, and of as many of them again, from the first on, as fit into so many bytes.
fn one_list(numbers: &[u16], bytes: usize) -> String {
    let (mut text, behind) =
        (format!("atoms=1024\nclauses=1\nhead={}", joined(numbers.iter().copied())), "\npos=\nneg=\n");
    for number in numbers.iter().cycle().map(|number| format!(",{number}")) {
        if text.len() + number.len() + behind.len() > bytes {
            break;
        }
        text += &number;
    }
    text + behind
}

fn shuffled(count: u16) -> Vec<u16> {
    let (mut numbers, mut random) = ((0..count).collect::<Vec<_>>(), Random::new(5));
    for last in (1..numbers.len()).rev() {
        numbers.swap(last, random.upto(last));
    }
    numbers
}

/// 1,365 clauses of 6 words, each list of which has to be sorted.
fn twice_on_every_line() -> String {
    let clause = "head=1023,1023\npos=1023,1023\nneg=1023,1023\n";
    format!("atoms=1024\nclauses=1365\n{}", clause.repeat(1365))
}

/// How many numbers stand in the lists of a text: as many as commas, and one more for each list that is not empty.
fn numbers(text: &str) -> usize {
    text.matches(',').count() + text.matches('=').count() - 2 - text.matches("=\n").count()
}

/// Document 01's answer, as the call gives it and in words, and the table.
fn expected(text: &str) -> (u64, String, Vec<u16>) {
    let (answer, table) = read_text(text.as_bytes(), &[0; 8192]);
    match answer {
        Ok(words) => (words, format!("{words} words"), table),
        Err(Refused { number, place }) => ((number << 48) + place, format!("refused={number},{place}"), table),
    }
}

/// One line: a text and the first one, by turns.
fn line((name, text): &Text, first: &str) {
    let (mut table, mut other) = ([0; 8192], [0; 8192]);
    let mut this = || calls::read_any(text.as_bytes(), &mut table);
    let mut canonical = || calls::read_any(first.as_bytes(), &mut other);
    let [(time, answer), (alone, _)] = best_by_turns(TURNS, [&mut this, &mut canonical]);
    let (code, shown, after) = expected(text);
    assert!(answer == code && table[..] == after, "{name}: the answer or the table is not document 01's");
    let (bytes, count) = (text.len(), numbers(text));
    let each = |time: f64, text: &str| time * 1e6 / text.len() as f64;
    let (a_byte, ratio) = (each(time, text), each(time, text) / each(alone, first));
    println!("| {name} | {bytes} | {count} | {shown} | {time:.3} | {a_byte:.1} | {ratio:.1} |");
}
