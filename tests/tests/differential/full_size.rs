//! Tables of all sizes, up to full, of the shapes that are hard for some way of reducing.
use gambrolt_tests::compare::Tally;
use gambrolt_tests::independent::program::Program;
use gambrolt_tests::independent::reduce::smallest;
use gambrolt_tests::independent::steps::Left;
use gambrolt_tests::independent::table::Table;
use gambrolt_tests::library;
use gambrolt_tests::make::shapes::{Shape, SHAPES};
use std::collections::BTreeSet;
use std::sync::atomic::{AtomicUsize, Ordering};
use std::thread;
use std::time::Instant;

/// All shapes, by two threads, the slowest first; how many cases they make.
pub fn all(samples: usize) -> u64 {
    let taken = AtomicUsize::new(0);
    let work = || {
        let mut tally = Tally::new();
        while let Some(shape) = SHAPES.iter().rev().nth(taken.fetch_add(1, Ordering::Relaxed)) {
            reduced(shape, samples, &mut tally);
        }
        tally.cases
    };
    thread::scope(|scope| [(); 2].map(|()| scope.spawn(&work)).map(|worker| worker.join().unwrap()).iter().sum())
}

/// Small tables of a shape step by step; larger ones at some of their steps.
fn reduced(shape: &Shape, samples: usize, tally: &mut Tally) {
    let (start, full) = (Instant::now(), shape.full);
    for size in [1, 2, 12, 40, 100] {
        let table = shape.table(size);
        tally.reduce(&table, &vec![0; table.len()], &vec![0; 4 * table.len()]);
        tally.cycle(&table);
    }
    for size in [full / 8, full / 3, full] {
        let table = shape.table(size);
        let steps = sampled(shape.name, &table, samples, tally);
        let cyclic = cyclic(&(shape.program)(size));
        assert_eq!(library::cycle(&table), u64::from(cyclic), "{}: {size}", shape.name);
        tally.cases += 1;
        tally.write_text(&table, &vec![0; 65536]);
        println!("{}: {} words, {steps} steps, {:.1} s", shape.name, table.len(), start.elapsed().as_secs_f64());
    }
}

/// The library takes its own list and no step more; at each sample the list's next step is the smallest that applies and is not
/// passed over.
fn sampled(name: &str, table: &[u16], samples: usize, tally: &mut Tally) -> usize {
    let fresh = vec![7; table.len()];
    let (answer, left, list) = library::reduce(table, &fresh, &vec![0; 32760]);
    let steps = answer as usize;
    assert!(steps < 8190, "{name}: refused, {answer:x}");
    let list = &list[..4 * steps];
    assert_eq!(library::check(table, &fresh, list), (answer, left.clone()), "{name}: the reducer's list is not taken");
    let read = Table::read(table).unwrap();
    // what every atom derives takes the literal implementation seconds
    let samples = if list.chunks(4).any(|step| step[0] == 9) { samples / 3 } else { samples };
    let places: BTreeSet<usize> = (0..=samples).map(|sample| steps * sample / samples).collect();
    for step in places {
        let (_, marks) = library::check(table, &fresh, &list[..4 * step]);
        let next = smallest(&Left::new(&read, &marks)).map(|step| step.words().to_vec());
        assert_eq!(next.as_deref(), list[4 * step..].chunks(4).next(), "{name}: step {step}");
        tally.cases += 1;
    }
    tally.reduced_table(table, &left, &vec![0; table.len()]);
    steps
}

/// Whether some atom leads back to itself, otherwise than by chains: an atom ends once all positive atoms of its clauses do,
/// and on a cycle none does. For tables that are too large to follow the chains of every atom.
fn cyclic(program: &Program) -> bool {
    let mut open = vec![true; usize::from(program.atoms)];
    loop {
        let mut still = vec![false; open.len()];
        for clause in &program.clauses {
            if clause.pos.iter().any(|&atom| open[usize::from(atom)]) {
                clause.head.iter().for_each(|&atom| still[usize::from(atom)] = true);
            }
        }
        if still == open {
            return open.contains(&true);
        }
        open = still;
    }
}
