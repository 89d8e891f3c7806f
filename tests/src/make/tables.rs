//! Tables, sound and damaged.
use super::programs::{
    choices as choosing, circular as circling, copies as copying, exclusions as excluding, program, Size,
};
use crate::independent::program::words;
use crate::random::Random;

/// The words of a random program.
pub fn table(random: &mut Random, size: Size) -> Vec<u16> {
    words(&program(random, size))
}

/// The words of a random program that leaves choices.
pub fn choices(random: &mut Random, size: Size) -> Vec<u16> {
    words(&choosing(random, size))
}

/// The words of a random program with circles.
pub fn circular(random: &mut Random, size: Size) -> Vec<u16> {
    words(&circling(random, size))
}

/// The words of a random program with many equal clauses.
pub fn copies(random: &mut Random, size: Size) -> Vec<u16> {
    words(&copying(random, size))
}

/// The words of a random program with atoms that can't be.
pub fn exclusions(random: &mut Random, size: Size) -> Vec<u16> {
    words(&excluding(random, size))
}

/// The words of a random program, most often damaged in one to three places.
pub fn damaged(random: &mut Random, size: Size) -> Vec<u16> {
    let mut table = table(random, size);
    for _ in 0..random.upto(3) {
        damage(random, &mut table);
    }
    table
}

/// Words at which some question turns.
const EDGES: [u16; 12] = [0, 1, 2, 3, 4, 1023, 1024, 1025, 2048, 2049, 65534, 65535];

/// Damage in one place.
pub fn damage(random: &mut Random, table: &mut Vec<u16>) {
    let len = table.len();
    let place = random.upto(len);
    match random.upto(7) {
        0 => table.truncate(place),
        1 => table.extend([random.pick(&EDGES)]),
        2 => table.insert(place, random.pick(&EDGES)),
        3 if len > 1 => table.swap(place % len, (place + 1) % len),
        4 if place < len => table[place] = table[place].wrapping_add(1),
        5 if place < len => table[place] = table[place].wrapping_sub(1),
        6 if place < len => drop(table.remove(place)),
        _ if place < len => table[place] = random.pick(&EDGES),
        _ => table.clear(),
    }
    if random.once_in(200) {
        table.resize(random.pick(&[8191, 8192, 8193, 9000]), 0);
    }
}

/// A sound table, rarely a damaged one.
pub fn mostly_sound(random: &mut Random, size: Size) -> Vec<u16> {
    if random.once_in(20) {
        damaged(random, size)
    } else {
        table(random, size)
    }
}
