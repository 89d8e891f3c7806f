//! Sets of atoms, sound and damaged.
use super::programs::part;
use crate::random::Random;

/// Ascending atoms, at most `most` of them; at times damaged.
pub fn set(random: &mut Random, atoms: u16, most: usize) -> Vec<u16> {
    let count = random.upto(most);
    let mut set: Vec<u16> = part(random, atoms, count).into_iter().collect();
    if random.once_in(4) {
        let (place, len) = (random.upto(set.len()), set.len());
        let number = random.upto(usize::from(atoms) + 1) as u16;
        match random.upto(2) {
            0 if place < len => set[place] = number,
            1 if len > 1 => set.swap(0, place % (len - 1) + 1),
            _ => set.insert(place, number),
        }
    }
    set
}
