//! The exports, with buffers that are lent as they are.
use gambrolt_tests::library::exports::*;

/// The value of a call; fails where it is refused.
fn taken(answer: u64) -> usize {
    assert!(answer >> 48 == 0, "refused: question {}, place {}", answer >> 48, answer & 0xffff_ffff_ffff);
    answer as usize
}

pub fn reduce(table: &[u16], marks: &mut [u8], list: &mut [u16]) -> usize {
    taken(unsafe {
        gambrolt_reduce(table.as_ptr(), table.len(), marks.as_mut_ptr(), marks.len(), list.as_mut_ptr(), list.len())
    })
}

pub fn check(table: &[u16], marks: &mut [u8], list: &[u16]) -> usize {
    taken(unsafe {
        gambrolt_check(table.as_ptr(), table.len(), marks.as_mut_ptr(), marks.len(), list.as_ptr(), list.len())
    })
}

pub fn test(table: &[u16], set: &[u16]) -> usize {
    taken(unsafe { gambrolt_test(table.as_ptr(), table.len(), set.as_ptr(), set.len()) })
}

pub fn models(table: &[u16], out: &mut [u16]) -> usize {
    taken(unsafe { gambrolt_models(table.as_ptr(), table.len(), out.as_mut_ptr(), out.len()) })
}

pub fn check_table(table: &[u16]) -> usize {
    taken(unsafe { gambrolt_check_table(table.as_ptr(), table.len()) })
}

pub fn cycle(table: &[u16]) -> usize {
    taken(unsafe { gambrolt_cycle(table.as_ptr(), table.len()) })
}

pub fn read_text(text: &[u8], table: &mut [u16]) -> usize {
    taken(read_any(text, table))
}

/// The answer to a text that may be refused.
pub fn read_any(text: &[u8], table: &mut [u16]) -> u64 {
    unsafe { gambrolt_read_text(text.as_ptr(), text.len(), table.as_mut_ptr(), table.len()) }
}

pub fn write_text(table: &[u16], out: &mut [u8]) -> usize {
    taken(unsafe { gambrolt_write_text(table.as_ptr(), table.len(), out.as_mut_ptr(), out.len()) })
}
