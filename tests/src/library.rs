//! The exports of libgambrolt.a. Each slice is lent as a copy between guard values, and comes back as the call left it.
use std::fmt::Debug;

/// The functions themselves.
pub mod exports {
    extern "C" {
        pub fn gambrolt_check_table(table: *const u16, table_len: usize) -> u64;
        pub fn gambrolt_check(
            table: *const u16,
            table_len: usize,
            marks: *mut u8,
            marks_len: usize,
            list: *const u16,
            list_len: usize,
        ) -> u64;
        pub fn gambrolt_reduce(
            table: *const u16,
            table_len: usize,
            marks: *mut u8,
            marks_len: usize,
            list: *mut u16,
            list_len: usize,
        ) -> u64;
        pub fn gambrolt_reduced_table(
            table: *const u16,
            table_len: usize,
            marks: *const u8,
            marks_len: usize,
            out: *mut u16,
            out_len: usize,
        ) -> u64;
        pub fn gambrolt_test(table: *const u16, table_len: usize, set: *const u16, set_len: usize) -> u64;
        pub fn gambrolt_models(table: *const u16, table_len: usize, out: *mut u16, out_len: usize) -> u64;
        pub fn gambrolt_cycle(table: *const u16, table_len: usize) -> u64;
        pub fn gambrolt_read_text(text: *const u8, text_len: usize, table: *mut u16, table_len: usize) -> u64;
        pub fn gambrolt_write_text(table: *const u16, table_len: usize, out: *mut u8, out_len: usize) -> u64;
    }
}

const GUARDS: usize = 32;

trait Unit: Copy + PartialEq + Debug {
    fn guard(place: usize) -> Self;
}

impl Unit for u8 {
    fn guard(place: usize) -> u8 {
        0xa0 ^ place as u8
    }
}

impl Unit for u16 {
    fn guard(place: usize) -> u16 {
        0xa5c0 ^ place as u16
    }
}

/// A slice as it is lent, with guard values before and behind it.
struct Lent<T> {
    memory: Vec<T>,
    len: usize,
}

impl<T: Unit> Lent<T> {
    fn new(slice: &[T]) -> Lent<T> {
        let len = slice.len();
        let mut memory = Vec::with_capacity(len + 2 * GUARDS);
        memory.extend((0..GUARDS).map(T::guard));
        memory.extend_from_slice(slice);
        memory.extend((GUARDS..2 * GUARDS).map(T::guard));
        Lent { memory, len }
    }

    fn start(&self) -> *const T {
        self.memory[GUARDS..].as_ptr()
    }

    fn start_mut(&mut self) -> *mut T {
        self.memory[GUARDS..].as_mut_ptr()
    }

    /// What the call left; the guard values have to be as they were.
    fn back(mut self) -> Vec<T> {
        let behind = self.memory.split_off(GUARDS + self.len);
        let slice = self.memory.split_off(GUARDS);
        for (place, &value) in self.memory.iter().chain(&behind).enumerate() {
            assert_eq!(value, T::guard(place), "guard value {place} was overwritten");
        }
        slice
    }

    /// A slice that the call may only read.
    fn back_unchanged(self, slice: &[T]) {
        assert!(self.back() == slice, "a slice lent for reading was changed");
    }
}

pub fn check_table(table: &[u16]) -> u64 {
    let words = Lent::new(table);
    let answer = unsafe { exports::gambrolt_check_table(words.start(), words.len) };
    words.back_unchanged(table);
    answer
}

/// The answer, and the marks afterwards.
pub fn check(table: &[u16], marks: &[u8], list: &[u16]) -> (u64, Vec<u8>) {
    let (words, mut bytes, steps) = (Lent::new(table), Lent::new(marks), Lent::new(list));
    let answer = unsafe {
        exports::gambrolt_check(words.start(), words.len, bytes.start_mut(), bytes.len, steps.start(), steps.len)
    };
    words.back_unchanged(table);
    steps.back_unchanged(list);
    (answer, bytes.back())
}

/// The answer, and the marks and the list afterwards.
pub fn reduce(table: &[u16], marks: &[u8], list: &[u16]) -> (u64, Vec<u8>, Vec<u16>) {
    let (words, mut bytes, mut steps) = (Lent::new(table), Lent::new(marks), Lent::new(list));
    let answer = unsafe {
        exports::gambrolt_reduce(words.start(), words.len, bytes.start_mut(), bytes.len, steps.start_mut(), steps.len)
    };
    words.back_unchanged(table);
    (answer, bytes.back(), steps.back())
}

/// The answer, and the out slice afterwards.
pub fn reduced_table(table: &[u16], marks: &[u8], out: &[u16]) -> (u64, Vec<u16>) {
    let (words, bytes, mut written) = (Lent::new(table), Lent::new(marks), Lent::new(out));
    let answer = unsafe {
        exports::gambrolt_reduced_table(
            words.start(),
            words.len,
            bytes.start(),
            bytes.len,
            written.start_mut(),
            written.len,
        )
    };
    words.back_unchanged(table);
    bytes.back_unchanged(marks);
    (answer, written.back())
}

pub fn test(table: &[u16], set: &[u16]) -> u64 {
    let (words, entries) = (Lent::new(table), Lent::new(set));
    let answer = unsafe { exports::gambrolt_test(words.start(), words.len, entries.start(), entries.len) };
    words.back_unchanged(table);
    entries.back_unchanged(set);
    answer
}

/// The answer, and the out slice afterwards.
pub fn models(table: &[u16], out: &[u16]) -> (u64, Vec<u16>) {
    let (words, mut listed) = (Lent::new(table), Lent::new(out));
    let answer = unsafe { exports::gambrolt_models(words.start(), words.len, listed.start_mut(), listed.len) };
    words.back_unchanged(table);
    (answer, listed.back())
}

pub fn cycle(table: &[u16]) -> u64 {
    let words = Lent::new(table);
    let answer = unsafe { exports::gambrolt_cycle(words.start(), words.len) };
    words.back_unchanged(table);
    answer
}

/// The answer, and the table slice afterwards.
pub fn read_text(text: &[u8], table: &[u16]) -> (u64, Vec<u16>) {
    let (bytes, mut words) = (Lent::new(text), Lent::new(table));
    let answer = unsafe { exports::gambrolt_read_text(bytes.start(), bytes.len, words.start_mut(), words.len) };
    bytes.back_unchanged(text);
    (answer, words.back())
}

/// The answer, and the out slice afterwards.
pub fn write_text(table: &[u16], out: &[u8]) -> (u64, Vec<u8>) {
    let (words, mut bytes) = (Lent::new(table), Lent::new(out));
    let answer = unsafe { exports::gambrolt_write_text(words.start(), words.len, bytes.start_mut(), bytes.len) };
    words.back_unchanged(table);
    (answer, bytes.back())
}
