//! Full-size tables of several shapes: the library, an incremental reducer in C, plain and tuned, and a rescanning one, in
//! one run, as the tables of docs/BENCHMARKS.md.
#![deny(warnings)]
mod calls;
mod incremental;
mod models;
mod reading;
mod timing;

use gambrolt_tests::independent::program::{words, Clause, Program};
use gambrolt_tests::make::shapes::{Shape, SHAPES};
use gambrolt_tests::rescan::Reducer;
use timing::{best, best_by_turns, once};

/// How often the library and each C program are run.
const TURNS: usize = 25;

fn main() {
    println!("both C programs give the documents' list and marks on {} programs", incremental::compared());
    println!();
    println!("| shape | words | steps | by kind 1 to 9 |");
    println!("|---|---|---|---|");
    for shape in &SHAPES {
        contents(shape);
    }
    println!();
    print!("| shape | library, ms | plain C, ms | library / plain C | tuned C, ms | library / tuned C ");
    println!("| rescanning, ms | rescanning / library |");
    println!("|---|---|---|---|---|---|---|---|");
    for shape in &SHAPES {
        reduction(shape);
    }
    println!();
    println!("| shape | reducing, ms | checking the list, ms | checking / reducing |");
    println!("|---|---|---|---|");
    for shape in &SHAPES {
        checking(shape);
    }
    println!();
    println!("| call | ms |");
    println!("|---|---|");
    largest_test();
    texts();
    println!();
    reading::texts();
    println!();
    println!("| shape | words | ms | ns a word | cycle answer / questions 1 to 8 |");
    println!("|---|---|---|---|---|");
    cycles("a chain through all atoms", chain, 1023);
    cycles("each of 32 atoms leads to each of 32", layers, 122);
    cycles("the same, negative", |size| negated(layers(size)), 122);
    println!();
    models::lists();
}

/// One line: the size of a shape's table, and the steps of its list.
fn contents(shape: &Shape) {
    let table = shape.table(shape.full);
    let (mut marks, mut list) = (vec![0; table.len()], vec![0; 32768]);
    let steps = incremental::tuned(&table, &mut marks, &mut list);
    let mut kinds = [0; 9];
    for step in list.chunks(4).take(steps) {
        kinds[usize::from(step[0]) - 1] += 1;
    }
    println!("| {} | {} | {steps} | {} |", shape.name, table.len(), kinds.map(|count| count.to_string()).join(" "));
}

/// One line: reducing a table of a shape in four ways, which have to give the same list.
fn reduction(shape: &Shape) {
    let (name, table) = (shape.name, shape.table(shape.full));
    let fresh = (vec![0; table.len()], vec![0; 32768]);
    let (mut by_library, mut by_plain, mut by_tuned) = (fresh.clone(), fresh.clone(), fresh);
    let [(library, steps), (plain, plain_steps), (tuned, tuned_steps)] = best_by_turns(
        TURNS,
        [
            &mut || calls::reduce(&table, &mut by_library.0, &mut by_library.1),
            &mut || incremental::plain(&table, &mut by_plain.0, &mut by_plain.1),
            &mut || incremental::tuned(&table, &mut by_tuned.0, &mut by_tuned.1),
        ],
    );
    let (marks, list) = (by_library.0, &by_library.1[..4 * steps]);
    for (c, c_steps, (c_marks, c_list)) in [("plain", plain_steps, by_plain), ("tuned", tuned_steps, by_tuned)] {
        assert_eq!(list, &c_list[..4 * c_steps], "{name}: the lists of the library and {c} C differ");
        assert_eq!(marks, c_marks, "{name}: the marks of the library and {c} C differ");
    }
    let (rescanning, rescanned) = once(|| Reducer::new(&(shape.program)(shape.full)).run());
    assert_eq!(list, rescanned.concat(), "{name}: the lists of the library and the rescanning reducer differ");
    let (to_plain, to_tuned, to_library) = (library / plain, library / tuned, rescanning / library);
    print!("| {name} | {library:.2} | {plain:.2} | {to_plain:.1} | {tuned:.3} | {to_tuned:.1} ");
    println!("| {rescanning:.0} | {to_library:.0} |");
}

/// One line: reducing a table of a shape, and checking the list, by turns.
fn checking(shape: &Shape) {
    let (name, table) = (shape.name, shape.table(shape.full));
    let (mut marks, mut list) = (vec![0; table.len()], vec![0; 32768]);
    let steps = calls::reduce(&table, &mut marks, &mut list);
    let (own, mut checked) = (list[..4 * steps].to_vec(), vec![0; table.len()]);
    let [(reducing, _), (checking, taken)] = best_by_turns(
        TURNS,
        [&mut || calls::reduce(&table, &mut marks, &mut list), &mut || calls::check(&table, &mut checked, &own)],
    );
    assert_eq!((taken, &checked), (steps, &marks), "{name}: the checker does not follow the reducer's list");
    println!("| {name} | {reducing:.2} | {checking:.3} | {:.2} |", checking / reducing);
}

/// Sixteen entries, and as many clauses as there is room for that every smaller set satisfies, before those that it fails.
fn largest_test() {
    let same = |atom: u16| Clause { head: [atom].into(), pos: [atom].into(), ..Clause::default() };
    let fact = |atom: u16| Clause { head: [atom].into(), ..Clause::default() };
    let clauses = (0..1625).map(|i| same(i % 16)).chain((0..16).map(fact)).collect();
    let table = words(&Program { atoms: 16, clauses });
    let set: Vec<u16> = (0..16).collect();
    let (time, stable) = best(3, || calls::test(&table, &set));
    assert_eq!(stable, 1);
    println!("| testing 16 entries, {} words, {} clauses | {time:.2} |", table.len(), table[1]);
}

/// A table whose text has some 40 kB, written and read.
fn texts() {
    let part = |from: u16, count: u16| (from..from + count).collect();
    let clause = Clause { head: part(1000, 8), pos: part(1008, 8), neg: part(1016, 8) };
    let table = words(&Program { atoms: 1024, clauses: vec![clause; 303] });
    let (mut out, mut back) = (vec![0; 65536], vec![0; 8192]);
    let (time, bytes) = best(20, || calls::write_text(&table, &mut out));
    println!("| writing {bytes} bytes of text | {time:.2} |");
    let (time, read) = best(20, || calls::read_text(&out[..bytes], &mut back));
    assert_eq!(&back[..read], table);
    println!("| reading {bytes} bytes of text | {time:.2} |");
}

/// 0 <- 1. 1 <- 2. and so on.
fn chain(size: usize) -> Program {
    let link = |i: u16| Clause { head: [i].into(), pos: [i + 1].into(), ..Clause::default() };
    Program { atoms: 1024, clauses: (0..size as u16).map(link).collect() }
}

/// Heads and bodies of 32 atoms: those of each group of atoms lead to those of the next, over and over.
fn layers(size: usize) -> Program {
    let group = |number: u16| (32 * number..32 * number + 32).collect();
    let clause = |i: u16| Clause { head: group(i % 31), pos: group(i % 31 + 1), ..Clause::default() };
    Program { atoms: 1024, clauses: (0..size as u16).map(clause).collect() }
}

fn negated(mut program: Program) -> Program {
    program.clauses.iter_mut().for_each(|clause| std::mem::swap(&mut clause.pos, &mut clause.neg));
    program
}

/// Three lines: programs without a cycle, so that every chain is followed to its end, of a quarter, a half and all of the size.
fn cycles(name: &str, program: fn(usize) -> Program, full: usize) {
    for size in [full / 4, full / 2, full] {
        let table = words(&program(size));
        let [(time, cyclic), (alone, _)] =
            best_by_turns(400, [&mut || calls::cycle(&table), &mut || calls::check_table(&table)]);
        assert_eq!(cyclic, 0);
        let each = time * 1e6 / table.len() as f64;
        println!("| {name} | {} | {time:.3} | {each:.1} | {:.1} |", table.len(), time / alone);
    }
}
