//! The cases of the program `cases`: its stored output is what document 01's literal implementation gives for its stored
//! input, and each call of the library does the same, in all of the memory that is lent to it.
#![deny(warnings)]
use gambrolt_tests::compare::Tally;
use gambrolt_tests::independent::program::{parse, words};
use gambrolt_tests::independent::Answer;

const INPUT: &[u8] = include_bytes!("../../crates/cases/stdin");
const OUTPUT: &[u8] = include_bytes!("../../crates/cases/stdout");

fn lines(text: &'static [u8]) -> Vec<&'static [u8]> {
    let text = text.strip_suffix(b"\n").expect("the last line ends in a line feed");
    text.split(|&byte| byte == b'\n').collect()
}

/// What stands before the first colon, and what stands after it.
fn parts(case: &[u8]) -> (&[u8], &[u8]) {
    let colon = case.iter().position(|&byte| byte == b':');
    colon.map_or((case, &[]), |colon| (&case[..colon], &case[colon + 1..]))
}

/// The words between blanks that are numbers; the call's name is none.
fn numbers(text: &[u8]) -> Vec<u16> {
    let text = std::str::from_utf8(text).expect("numbers");
    text.split(' ').filter(|word| word.starts_with(|c: char| c.is_ascii_digit())).map(|w| w.parse().unwrap()).collect()
}

fn answered(answer: Answer) -> String {
    match answer {
        Ok(value) => format!("taken={value}"),
        Err(refused) => format!("refused={},{}", refused.number, refused.place),
    }
}

fn marks_shown(marks: &[u8]) -> String {
    marks.iter().chain(&[7; 2]).map(u8::to_string).collect()
}

/// The words and two more past them.
fn words_shown(words: &[u16], past: u16) -> String {
    words.iter().chain(&[past; 2]).map(|word| format!("{word},")).collect()
}

/// "In a text a slash stands for a line feed, a tilde for a carriage return, a caret for NUL and an underscore for a tab."
fn text_meant(text: &[u8]) -> Vec<u8> {
    let byte = |&byte: &u8| match byte {
        b'/' => b'\n',
        b'~' => b'\r',
        b'^' => 0,
        b'_' => b'\t',
        byte => byte,
    };
    text.iter().map(byte).collect()
}

fn table(words: &[u16]) -> String {
    let answer = Tally::new().check_table(words);
    let numbers = |_| format!(" table={},{},{}", words[0], words[1], words.len());
    answered(answer) + &answer.map_or(String::new(), numbers)
}

fn list(words: &[u16], rest: &[u16]) -> String {
    let (answer, marks) = Tally::new().check(words, &vec![7; rest[0].into()], &rest[1..]);
    format!("{} marks={}", answered(answer), marks_shown(&marks))
}

fn reduce(words: &[u16], rest: &[u16]) -> String {
    let (answer, marks, list) = Tally::new().reduce(words, &vec![7; rest[0].into()], &vec![9; rest[1].into()]);
    format!("{} marks={} words={}", answered(answer), marks_shown(&marks), words_shown(&list, 9))
}

fn kept(words: &[u16], rest: &[u16]) -> String {
    let marks: Vec<u8> = rest[1..].iter().map(|&mark| mark.try_into().unwrap()).collect();
    let (answer, out) = Tally::new().reduced_table(words, &marks, &vec![9; rest[0].into()]);
    format!("{} words={}", answered(answer), words_shown(&out, 9))
}

fn models(words: &[u16], rest: &[u16]) -> String {
    let (answer, out) = Tally::new().models(words, &vec![9; rest[0].into()]);
    format!("{} words={}", answered(answer), words_shown(&out, 9))
}

fn write(words: &[u16], rest: &[u16]) -> String {
    let (answer, out) = Tally::new().write_text(words, &vec![b'.'; rest[0].into()]);
    let text = String::from_utf8(out).unwrap().replace('\n', "/");
    format!("{} text={text}..", answered(answer))
}

fn parsed(room: u16, text: &[u8]) -> String {
    let (answer, table) = Tally::new().read_text(&text_meant(text), &vec![7; room.into()]);
    format!("{} words={}", answered(answer), words_shown(&table[..answer.unwrap_or(0) as usize], 7))
}

/// The numbers from the first word on, as many more as the second says, up to 65,536: how many, how many bytes, a sum over
/// these, and the last one's. No call of the library writes a number alone.
fn digits(words: &[u16]) -> String {
    let (first, more) = (u32::from(words[0]), u32::from(words[1]));
    let numbers: Vec<String> = (first..=65536.min(first + more)).map(|number| number.to_string()).collect();
    let bytes = numbers.concat().into_bytes();
    let sum = bytes.iter().fold(0, |sum, &byte| (31 * sum + u32::from(byte)) % 65521);
    format!("numbers={} bytes={} sum={sum} text={}..", numbers.len(), bytes.len(), numbers.last().unwrap())
}

/// The line that the program prints for a case.
fn printed(case: &[u8]) -> String {
    let (before, after) = parts(case);
    let words = numbers(before);
    match case.split(|&byte| byte == b' ').next().unwrap() {
        b"table" => table(&words),
        b"cycle" => answered(Tally::new().cycle(&words)),
        b"set" => answered(Tally::new().test(&words, &numbers(after))),
        b"models" => models(&words, &numbers(after)),
        b"list" => list(&words, &numbers(after)),
        b"reduce" => reduce(&words, &numbers(after)),
        b"kept" => kept(&words, &numbers(after)),
        b"write" => write(&words, &numbers(after)),
        b"parse" => parsed(words[0], after),
        b"digits" => digits(&words),
        _ => panic!("no such call: {}", case.escape_ascii()),
    }
}

#[test]
fn every_case() {
    let (input, output) = (lines(INPUT), lines(OUTPUT));
    assert_eq!(input.len(), output.len(), "a line is printed for each line");
    for (line, stored) in input.into_iter().zip(output) {
        let expected = if line.starts_with(b"#") { line.to_vec() } else { printed(line).into_bytes() };
        assert!(stored == expected, "{}\nstored: {}", line.escape_ascii(), stored.escape_ascii());
    }
}

/// A heading "# N atoms: PROGRAM" gives the program of the cases below it.
#[test]
fn headings() {
    let mut program = None;
    for line in lines(INPUT) {
        if let Some(heading) = line.strip_prefix(b"# ") {
            let heading = std::str::from_utf8(heading).unwrap();
            program = heading.split_once(" atoms:").map(|(atoms, text)| words(&parse(atoms.parse().unwrap(), text)));
        } else if let Some(words) = &program {
            assert_eq!(&numbers(parts(line).0), words, "{}", line.escape_ascii());
        }
    }
}
