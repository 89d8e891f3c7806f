//! The program `reduce`, run on texts: it prints what document 01's literal implementation gives. It is run as the program that always ends in 0,
//! as the one with an exit status, and as the one in C that calls the same function.
#![deny(warnings)]
use gambrolt_tests::independent::filter::output;
use gambrolt_tests::independent::text::read_text;
use gambrolt_tests::make::programs::{any_size, exclusions};
use gambrolt_tests::make::texts;
use gambrolt_tests::random::Random;
use std::io::Write;
use std::process::{Command, Stdio};

const PROGRAM: &str = concat!(env!("CARGO_MANIFEST_DIR"), "/../target/bin/reduce");

/// The same function, with its exit status: the program of crate `reduce_status`, and `reduce/main.c` over the library for C.
const WITH_STATUS: &str = concat!(env!("CARGO_MANIFEST_DIR"), "/../build/gambrolt-reduce");
const IN_C: &str = concat!(env!("CARGO_MANIFEST_DIR"), "/../build/gambrolt-reduce-c");

const SAMPLE: &[u8] = include_bytes!("../../examples/sample.txt");

/// The text of the empty program.
const SHORT: &[u8] = b"atoms=0\nclauses=0\n";

/// What a program prints for a text, and its exit status.
fn run(program: &str, text: &[u8]) -> (String, Option<i32>) {
    let mut command = Command::new(program);
    let mut program = command.stdin(Stdio::piped()).stdout(Stdio::piped()).spawn().expect("`make test-lib` builds it");
    // of a text that is too long it reads one byte past the limit, so the rest may not be taken
    let _ = program.stdin.take().unwrap().write_all(text);
    let done = program.wait_with_output().unwrap();
    (String::from_utf8(done.stdout).unwrap(), done.status.code())
}

/// Runs the program, and compares; what it prints.
fn compared(text: &[u8]) -> String {
    let (printed, status) = run(PROGRAM, text);
    assert_eq!(printed, output(text), "{}", text.escape_ascii());
    assert_eq!(status, Some(0));
    printed
}

/// The status of a program with this input and output, as a shell writes them.
fn status(program: &str, redirected: &str) -> Option<i32> {
    let command = format!("exec '{program}' {redirected}");
    Command::new("sh").args(["-c", &command]).stdin(Stdio::null()).stdout(Stdio::null()).status().unwrap().code()
}

#[test]
fn refused_texts() {
    assert_eq!(compared(b""), "refused=24,0\n");
    assert_eq!(compared(b"atoms=4\n"), "refused=24,8\n");
    assert_eq!(compared(b"atoms=04\nclauses=0\n"), "refused=25,0\n");
    assert_eq!(compared(b"atoms=1025\nclauses=0\n"), "refused=2,0\n");
    assert_eq!(compared(b"atoms=4\nclauses=2049\n"), "refused=3,8\n");
    assert_eq!(compared(b"atoms=2\nclauses=1\nhead=2\npos=\nneg=\n"), "refused=6,18\n");
    assert_eq!(compared(b"atoms=2\nclauses=1\nhead=\npos=1,0,2\nneg=\n"), "refused=6,24\n");
    assert_eq!(compared(b"atoms=2\nclauses=1\nhead=\npos=1,0\nneg=0,0,\n"), "refused=25,32\n");
    assert_eq!(compared(b"atoms=1,1\nclauses=0\n"), "refused=25,0\n");
    assert_eq!(compared(b"atoms=0\nclauses=0\n\n"), "refused=27,18\n");
}

/// "a place may have five digits"
#[test]
fn long_texts() {
    let filled = |len: usize| [SHORT, &vec![b'x'; len - SHORT.len()]].concat();
    assert_eq!(compared(&filled(65536)), "refused=27,18\n");
    assert_eq!(compared(&filled(65537)), "refused=22,0\n");
    assert_eq!(compared(&filled(200_000)), "refused=22,0\n");
    let clauses = "head=\npos=\nneg=\n".repeat(2047);
    let cut = format!("atoms=0\nclauses=2048\n{clauses}");
    assert_eq!(compared(cut.as_bytes()), "refused=24,32773\n");
}

#[test]
fn taken_texts() {
    assert_eq!(compared(SHORT), "atoms=0\nclauses=0\nsteps=0\n");
    assert!(compared(SAMPLE).ends_with("steps=4\nstep=1,2,0,3\nstep=3,1,0,0\nstep=6,3,0,3\nstep=4,1,0,2\n"));
    let (mut taken, mut refused) = (0, 0);
    for seed in 0..400 {
        let random = &mut Random::new(seed);
        let size = any_size(random);
        let printed = compared(&texts::text(random, size));
        *(if printed.starts_with("refused=") { &mut refused } else { &mut taken }) += 1;
    }
    assert!(taken > 50 && refused > 50, "{taken} taken, {refused} refused");
}

/// Slip 5: the output is canonical, and the same as for the canonical text.
#[test]
fn lists_in_any_order() {
    let clauses = "head=1,0,1\npos=\nneg=\nhead=2\npos=1,0\nneg=3,3\nhead=3,3\npos=2,2,0\nneg=\n";
    let printed = compared(format!("atoms=4\nclauses=3\n{clauses}").as_bytes());
    let sorted = "head=0,1\npos=\nneg=\nhead=2\npos=0,1\nneg=3\nhead=3\npos=0,2\nneg=\n";
    assert_eq!(printed, format!("atoms=4\nclauses=3\n{sorted}steps=0\n"));
    assert_eq!(compared(format!("atoms=4\nclauses=3\n{sorted}").as_bytes()), printed);
    // a disjunction of one atom is a fact
    let fact = b"atoms=2\nclauses=2\nhead=0,0\npos=\nneg=\nhead=1\npos=0,0\nneg=\n";
    let left = "atoms=2\nclauses=2\nhead=0\npos=\nneg=\nhead=1\npos=\nneg=\nsteps=1\nstep=3,1,0,0\n";
    assert_eq!(compared(fact), left);
}

/// Slip 1: facts 0 to 298 and 300 <- 0 .. 299, with 301 atoms, then with 299 a fact too; the line of each success names its atom.
#[test]
fn success_lines() {
    let conditions = (0..300).map(|atom| atom.to_string()).collect::<Vec<_>>().join(",");
    for facts in [299, 300] {
        let fact = |atom: u16| format!("head={atom}\npos=\nneg=\n");
        let clauses = (0..facts).map(fact).collect::<String>();
        let text = format!("atoms=301\nclauses={}\n{clauses}head=300\npos={conditions}\nneg=\n", facts + 1);
        let success = |fact: u16| format!("step=3,{facts},{fact},{fact}\n");
        let last = if facts == 299 { "step=6,299,0,299\n" } else { "" };
        let lines = format!("steps=300\n{}{last}", (0..facts).map(success).collect::<String>());
        assert!(compared(text.as_bytes()).ends_with(&lines));
    }
}

/// Slip 7: the earlier of equal clauses stays, so that those left are in the order of the first of each.
#[test]
fn equal_clauses() {
    let (one, other) = ("head=1\npos=\nneg=\n", "head=0,2\npos=\nneg=\n");
    for (clauses, left, list) in [
        ([one, one, other, one], [one, other], "steps=2\nstep=8,1,0,0\nstep=8,3,0,0\n"),
        ([one, other, other, one], [one, other], "steps=2\nstep=8,2,1,0\nstep=8,3,0,0\n"),
        ([other, one, one, other], [other, one], "steps=2\nstep=8,2,1,0\nstep=8,3,0,0\n"),
    ] {
        let text = format!("atoms=3\nclauses=4\n{}", clauses.concat());
        assert_eq!(compared(text.as_bytes()), format!("atoms=3\nclauses=2\n{}{list}", left.concat()));
    }
    // lists in another order, and with repeats, are the same clause
    let text = "atoms=2\nclauses=2\nhead=1,0\npos=\nneg=\nhead=0,1,0\npos=\nneg=\n";
    let left = "atoms=2\nclauses=1\nhead=0,1\npos=\nneg=\nsteps=1\nstep=8,1,0,0\n";
    assert_eq!(compared(text.as_bytes()), left);
}

/// Slip 8: the reduced program has the heads that are left, and a step that clears several marks is one line.
#[test]
fn excluded_atoms() {
    // <- 0. 0 <- 1. 1 <- ~2. 2 <- ~1.
    let text =
        "atoms=3\nclauses=4\nhead=\npos=0\nneg=\nhead=0\npos=1\nneg=\nhead=1\npos=\nneg=2\nhead=2\npos=\nneg=1\n";
    let left = "atoms=3\nclauses=1\nhead=2\npos=\nneg=\nsteps=3\nstep=9,0,0,0\nstep=9,1,0,1\nstep=5,2,3,0\n";
    assert_eq!(compared(text.as_bytes()), left);
    // 0|1|2. <- 1. 3 <- 4, ~1. 3|4.
    let text =
        "atoms=5\nclauses=4\nhead=0,1,2\npos=\nneg=\nhead=\npos=1\nneg=\nhead=3\npos=4\nneg=1\nhead=3,4\npos=\nneg=\n";
    let clauses = "head=0,2\npos=\nneg=\nhead=3\npos=4\nneg=\nhead=3,4\npos=\nneg=\n";
    assert_eq!(compared(text.as_bytes()), format!("atoms=5\nclauses=3\n{clauses}steps=1\nstep=9,1,0,1\n"));
    // <- 0. 0 <- ~0.
    let text = "atoms=1\nclauses=2\nhead=\npos=0\nneg=\nhead=0\npos=\nneg=0\n";
    let left = "atoms=1\nclauses=1\nhead=\npos=\nneg=\nsteps=1\nstep=9,0,0,0\n";
    assert_eq!(compared(text.as_bytes()), left);
    let mut with = 0;
    for seed in 0..400 {
        let random = &mut Random::new(seed);
        let size = any_size(random);
        with += u64::from(compared(&texts::rendered(&exclusions(random, size))).contains("\nstep=9,"));
    }
    assert!(with > 50, "{with} lists have a step of kind 9");
}

/// The numbers joined by commas.
fn joined(numbers: impl Iterator<Item = usize>) -> String {
    numbers.map(|number| number.to_string()).collect::<Vec<_>>().join(",")
}

/// The lines of a program up to so many bytes: empty clauses, as many as fit, then atom 0 on as many of their lines as bytes
/// are left. So many clauses more are announced than follow.
fn filled(bytes: usize, more: usize) -> String {
    let lines = |clauses: usize, zeros: usize| {
        let value = |line: usize| if line < zeros { "0" } else { "" };
        let line = |line: usize| format!("{}={}\n", ["head", "pos", "neg"][line % 3], value(line));
        format!("atoms=1\nclauses={}\n{}", clauses + more, (0..3 * clauses).map(line).collect::<String>())
    };
    let clauses = (0..).take_while(|&clauses| lines(clauses, 0).len() <= bytes).last().expect("two lines fit");
    let text = lines(clauses, bytes - lines(clauses, 0).len());
    assert_eq!(text.len(), bytes);
    text
}

/// The longest canonical text that is taken. The keys of a clause give 16 bytes for three words and an atom at most 5 with its comma, so
/// there are 2,048 clauses; the 2,046 words left are atoms of four digits, in as few lists as can be, as the first of a list
/// has no comma: 85 lists of all 24 such atoms, and one of 6.
fn longest() -> String {
    let counts = [vec![24; 85], vec![6], vec![0; 3 * 2048 - 86]].concat();
    let value = |count: usize| joined(1000..1000 + count);
    let line = |(line, &count): (usize, &usize)| format!("{}={}\n", ["head", "pos", "neg"][line % 3], value(count));
    format!("atoms=1024\nclauses=2048\n{}", counts.iter().enumerate().map(line).collect::<String>())
}

/// The text is taken, and with a byte behind it refused by 27 at its length.
fn refused_behind(text: &str) {
    assert!(read_text(text.as_bytes(), &[0; 8192]).0.is_ok() && run(PROGRAM, text.as_bytes()).0.starts_with("atoms="));
    assert_eq!(compared(format!("{text}x").as_bytes()), format!("refused=27,{}\n", text.len()));
}

/// The program refuses the text by this question, at this place.
fn refused(text: &str, number: u64, place: usize) {
    assert_eq!(compared(text.as_bytes()), format!("refused={number},{place}\n"));
}

/// Places of one to five digits, at the ends of each number of digits. The first line's place is 0, the second's 8 to 11, and
/// every other is at least 18.
#[test]
fn places_of_every_length() {
    for (atoms, place) in [(9, 8), (10, 9), (99, 9), (100, 10), (999, 10), (1000, 11)] {
        let first = format!("atoms={atoms}\n");
        refused(&first, 24, place);
        refused(&format!("{first}clauses=00\n"), 25, place);
        refused(&format!("{first}clauses=2049\n"), 3, place);
    }
    for place in [99, 100, 101, 999, 1000, 1001, 9999, 10000, 10001, 20000] {
        let lines = filled(place, 1);
        refused(&lines, 24, place);
        refused(&format!("{lines}head=00\n"), 25, place);
        refused(&format!("{lines}head=1\n"), 6, place);
        refused(&format!("{lines}head=0,0\n"), 24, place + "head=0,0\n".len());
        refused_behind(&filled(place, 0));
    }
    refused_behind(std::str::from_utf8(SHORT).unwrap());
    assert_eq!(longest().len(), 42936);
    assert_eq!(read_text(longest().as_bytes(), &[0; 8192]).0, Ok(8192));
    refused_behind(&longest());
}

/// Places past the longest canonical text, in texts whose first list has an atom thousands of times: up to 65,536, where the
/// longest text ends. A line of 8 bytes begins at 65,528 at the latest, and a byte behind all lines stands at 65,535.
#[test]
fn places_behind_repeats() {
    for place in [9999, 10000, 10001, 42935, 42936, 42937, 65527, 65528] {
        let lines = texts::repeats(place, 2, "pos=\nneg=\n");
        refused(&lines, 24, place);
        refused(&format!("{lines}head=0,\n"), 25, place);
        refused(&format!("{lines}head=10\n"), 6, place);
    }
    for place in [9999, 10000, 10001, 42935, 42936, 42937, 65527, 65534, 65535] {
        refused_behind(&texts::repeats(place, 1, "pos=\nneg=\n"));
        refused(&texts::repeats(place + 1, 1, "p"), 24, place);
    }
    for place in [65534, 65535, 65536] {
        refused(&texts::repeats(place, 1, ""), 24, place);
        refused(&texts::repeats(place, 1, "pos=0,0\n"), 24, place);
        refused(&texts::repeats(place, 2, "pos=\nneg=\n"), 24, place);
    }
    let taken = texts::repeats(65536, 1, "pos=\nneg=\n");
    assert_eq!(compared(taken.as_bytes()), "atoms=10\nclauses=1\nhead=0\npos=\nneg=\nsteps=0\n");
    refused(&format!("{taken}x"), 22, 0);
}

/// Facts, each of the atoms that its value names.
fn facts(values: impl Iterator<Item = String>) -> String {
    values.map(|value| format!("head={value}\npos=\nneg=\n")).collect()
}

/// The step lines of these steps, below their number.
fn steps(steps: impl Iterator<Item = [usize; 4]>) -> String {
    let lines: Vec<String> = steps.map(|step| format!("step={}\n", joined(step.into_iter()))).collect();
    format!("steps={}\n{}", lines.len(), lines.concat())
}

/// The program gives the text back, with no step.
fn unchanged(text: &str) {
    assert_eq!(compared(text.as_bytes()), format!("{text}steps=0\n"));
}

/// The program prints this. The literal implementation takes too long for such a text.
fn prints(text: &str, printed: &str) {
    assert!(run(PROGRAM, text.as_bytes()) == (printed.into(), Some(0)), "{}", &text[..40]);
}

/// Numbers of atoms, of clauses, and atoms of one to four digits, at the ends of each number of digits.
#[test]
fn numbers_of_every_length() {
    for n in [1, 9, 10, 99, 100, 999, 1000, 1024] {
        unchanged(&format!("atoms={n}\nclauses=0\n"));
        unchanged(&format!("atoms={n}\nclauses=1\nhead={}\npos=\nneg=\n", n - 1));
    }
    for m in [9, 10, 99, 100, 999, 1000] {
        unchanged(&format!("atoms=1024\nclauses={m}\n{}", facts((0..m).map(|atom| atom.to_string()))));
    }
    // pairs of neighbours and of next but one, as many as a table holds
    let pairs = (0..1023).map(|atom| [atom, atom + 1]).chain((0..615).map(|atom| [atom, atom + 2]));
    unchanged(&format!("atoms=1024\nclauses=1638\n{}", facts(pairs.map(|pair| joined(pair.into_iter())))));
    // in each part; atom 1 keeps the fact from blocking the last clause
    let ends = "9,10,99,100,999,1000,1023";
    let clauses = format!("head=1,{ends}\npos=\nneg=\nhead=0\npos={ends}\nneg=\nhead=0\npos=\nneg={ends}\n");
    unchanged(&format!("atoms=1024\nclauses=3\n{clauses}"));
}

/// Numbers of steps, and their words, of one to four digits, at the ends of each number of digits.
#[test]
fn steps_of_every_length() {
    let left = "atoms=1024\nclauses=1\nhead=0\npos=\nneg=\n";
    // negative atoms that are in no head
    for count in [0, 9, 10, 99, 100, 999, 1000] {
        let text = format!("atoms=1024\nclauses=1\nhead=0\npos=\nneg={}\n", joined(1..count + 1));
        let lines = steps((1..count + 1).map(|atom| [4, 0, 0, atom]));
        assert_eq!(compared(text.as_bytes()), format!("{left}{lines}"));
    }
    // equal facts, of which the first subsumes all others
    for m in [10, 11, 100, 101] {
        let text = format!("atoms=1024\nclauses={m}\n{}", facts(vec!["0".into(); m].into_iter()));
        let lines = steps((1..m).map(|target| [8, target, 0, 0]));
        assert_eq!(compared(text.as_bytes()), format!("{left}{lines}"));
    }
    // target, partner and atom
    let (ends, given) = ([9, 10, 99, 100, 999, 1000], facts((0..1001).map(|atom| atom.to_string())));
    let text = format!("atoms=1024\nclauses=1002\n{given}head=1001\npos={}\nneg=\n", joined(ends.into_iter()));
    let lines = steps(ends.into_iter().map(|atom| [3, 1001, atom, atom]));
    assert!(compared(text.as_bytes()).ends_with(&format!("head=1001\npos=\nneg=\n{lines}")));
}

/// The longest lists, worked out by hand.
#[test]
fn thousands_of_steps() {
    // 0 <- 1. 1 <- 2. and so on, and the constraint of 0, which is handed on; 999 is one of a disjunction, whose other atom is left
    let rules: String = (1..1000).map(|atom| format!("head={}\npos={atom}\nneg=\n", atom - 1)).collect();
    let text = format!("atoms=1001\nclauses=1001\nhead=\npos=0\nneg=\n{rules}head=999,1000\npos=\nneg=\n");
    let lines = steps((0..1000).map(|atom| [9, atom, 0, atom]));
    prints(&text, &format!("atoms=1001\nclauses=1\nhead=1000\npos=\nneg=\n{lines}"));
    // equal facts
    let text = format!("atoms=1\nclauses=2047\n{}", facts(vec!["0".into(); 2047].into_iter()));
    let lines = steps((1..2047).map(|target| [8, target, 0, 0]));
    prints(&text, &format!("atoms=1\nclauses=1\nhead=0\npos=\nneg=\n{lines}"));
    // empty clauses, of which the first blocks all others
    let text = format!("atoms=0\nclauses=2048\n{}", facts(vec![String::new(); 2048].into_iter()));
    let lines = steps((1..2048).map(|target| [5, target, 0, 0]));
    prints(&text, &format!("atoms=0\nclauses=1\nhead=\npos=\nneg=\n{lines}"));
    // eight clauses that lose their negative atoms, in 8,192 words
    let counts = [1024, 1024, 1024, 1024, 1024, 1024, 1024, 998];
    let clauses: String = counts.iter().map(|&count| format!("head=\npos=\nneg={}\n", joined(0..count))).collect();
    let dropped = (0..8).flat_map(|target| (0..counts[target]).map(move |atom| [4, target, 0, atom]));
    let lines = steps(dropped.chain((1..8).map(|target| [5, target, 0, 0])));
    assert!(lines.starts_with("steps=8173\n"));
    prints(&format!("atoms=1024\nclauses=8\n{clauses}"), &format!("atoms=1024\nclauses=1\nhead=\npos=\nneg=\n{lines}"));
}

/// "22 Are there at most 65,536 bytes?"
#[test]
fn one_byte_too_many() {
    assert_eq!(compared(&[b'x'; 65536]), "refused=24,0\n");
    assert_eq!(compared(&[b'x'; 65537]), "refused=22,0\n");
}

/// 0 done, 1 refused, 2 where reading or writing fails.
fn ends(program: &str) {
    assert_eq!(run(program, SAMPLE), (run(PROGRAM, SAMPLE).0, Some(0)));
    assert_eq!(run(program, SHORT), ("atoms=0\nclauses=0\nsteps=0\n".into(), Some(0)));
    assert_eq!(run(program, b""), ("refused=24,0\n".into(), Some(1)));
    assert_eq!(run(program, &[b'x'; 65537]), ("refused=22,0\n".into(), Some(1)));
    let sample = concat!(env!("CARGO_MANIFEST_DIR"), "/../examples/sample.txt");
    assert_eq!(status(program, &format!("< '{sample}'")), Some(0));
    assert_eq!(status(program, "< /dev/null"), Some(1));
    assert_eq!(status(program, &format!("< '{sample}' > /dev/full")), Some(2));
    assert_eq!(status(program, "< /dev/null > /dev/full"), Some(2));
    assert_eq!(status(program, &format!("< '{sample}' >&-")), Some(2));
    assert_eq!(status(program, "<&-"), Some(2));
    // a directory can be opened, and not read
    assert_eq!(status(program, "< /"), Some(2));
}

#[test]
fn exit_status() {
    ends(WITH_STATUS);
}

/// Of the program in C the same.
#[test]
fn exit_status_in_c() {
    ends(IN_C);
}

/// The program without a status ends in 0, also where reading or writing fails.
#[test]
fn no_status() {
    for redirected in ["< /dev/null", "< /dev/null > /dev/full", "<&-", "< /"] {
        assert_eq!(status(PROGRAM, redirected), Some(0));
    }
}
