//! The stable models of programs of 16 atoms: listed by the library, and counted by the solver clasp where it is installed.
use crate::calls;
use crate::timing::best;
use gambrolt_tests::independent::program::{words, Clause, Program, Set};
use gambrolt_tests::make::programs::one_of_any;
use gambrolt_tests::random::Random;
use std::io::Write;
use std::process::{Command, Stdio};

/// The shape's name, and its clauses.
type Shape = (&'static str, Vec<Clause>);

/// How often each is run.
const RUNS: usize = 5;

/// The words that hold every list.
const ROOM: usize = 12870;

pub fn lists() {
    println!("| shape | words | clauses | stable models | library, ms | clasp, ms |");
    println!("|---|---|---|---|---|---|");
    for shape in shapes() {
        line(shape);
    }
}

fn shapes() -> [Shape; 9] {
    let ten_and_six = [one_of_any(0..10, 4), one_of_any(10..16, 3)].concat();
    [
        ("no clauses", Vec::new()),
        ("idle clauses", behind_idle(Vec::new())),
        ("one of each two, by disjunction", blocks(2, 2)),
        ("one of each two, by negation", pairs_by_negation()),
        ("two of each four", blocks(4, 3)),
        ("six of twelve, two of four", [one_of_any(0..12, 7), one_of_any(12..16, 3)].concat()),
        ("three of each four, behind idle clauses", behind_idle(blocks(4, 2))),
        ("six of each eight, behind idle clauses", behind_idle(blocks(8, 3))),
        ("seven of ten, four of six, behind idle clauses", behind_idle(ten_and_six)),
    ]
}

/// Blocks of so many atoms, and one of any `many` atoms of each: its stable models lack `many - 1` of each block.
fn blocks(size: u16, many: u32) -> Vec<Clause> {
    (0..16 / size).flat_map(|block| one_of_any(block * size..(block + 1) * size, many)).collect()
}

fn pairs_by_negation() -> Vec<Clause> {
    (0..16).map(|atom| Clause { head: [atom].into(), pos: Set::new(), neg: [atom ^ 1].into() }).collect()
}

/// The clauses, behind as many idle ones as a table has room for: an atom from itself, which every set satisfies, the atoms
/// in random order.
fn behind_idle(clauses: Vec<Clause>) -> Vec<Clause> {
    let taken = words(&Program { atoms: 16, clauses: clauses.clone() }).len();
    let mut random = Random::new(16);
    let idle = (0..(8192 - taken) / 5).map(|_| {
        let same: Set = [random.upto(15) as u16].into();
        Clause { head: same.clone(), pos: same, neg: Set::new() }
    });
    idle.chain(clauses).collect()
}

/// One line: a shape by the library and by clasp, which have to find as many stable models.
fn line((name, clauses): Shape) {
    let program = Program { atoms: 16, clauses };
    let (table, mut out) = (words(&program), vec![0; ROOM]);
    let (time, count) = best(RUNS, || calls::models(&table, &mut out));
    let text = aspif(&program);
    let (solving, answered) = best(RUNS, || by_clasp(&text));
    let solver = match answered {
        Some(models) => {
            assert_eq!(models, count, "{name}: the library and clasp differ");
            format!("{solving:.1}")
        }
        None => "not installed".to_string(),
    };
    println!("| {name} | {} | {} | {count} | {time:.1} | {solver} |", table.len(), table[1]);
}

/// The program as clasp reads it; its atoms count from 1.
fn aspif(program: &Program) -> String {
    let mut text = "asp 1 0 0\n".to_string();
    for Clause { head, pos, neg } in &program.clauses {
        let heads = head.iter().map(|atom| format!(" {}", atom + 1)).collect::<String>();
        let positive = pos.iter().map(|atom| format!(" {}", atom + 1));
        let body = positive.chain(neg.iter().map(|atom| format!(" -{}", atom + 1))).collect::<String>();
        text += &format!("1 0 {}{heads} 0 {}{body}\n", head.len(), pos.len() + neg.len());
    }
    text + "0\n"
}

/// The number of stable models that clasp finds; `None` where it can't be started.
fn by_clasp(text: &str) -> Option<usize> {
    let mut command = Command::new("clasp");
    let mut clasp = command.args(["0", "--quiet=2"]).stdin(Stdio::piped()).stdout(Stdio::piped()).spawn().ok()?;
    clasp.stdin.take().unwrap().write_all(text.as_bytes()).expect("clasp reads the program");
    let printed = String::from_utf8(clasp.wait_with_output().expect("clasp ends").stdout).expect("text");
    let models = printed.lines().find_map(|line| line.strip_prefix("Models")).expect("the number of models");
    Some(models.trim_start_matches([' ', ':']).trim().parse().expect("a number"))
}
