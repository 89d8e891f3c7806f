//! Document 01 and slips 1 to 8 of document 02, sentence by sentence, literal rather than fast. It shares nothing with the library.

pub mod cycle;
pub mod filter;
pub mod list;
pub mod program;
pub mod reduce;
pub mod reduced;
pub mod stable;
pub mod steps;
pub mod table;
pub mod text;

/// "The first no gives its number."
#[derive(Clone, Copy, Debug, PartialEq, Eq)]
pub struct Refused {
    pub number: u64,
    pub place: u64,
}

/// What a call answers: its value, or the question that refused it.
pub type Answer = Result<u64, Refused>;

/// A question with "The place is 0 unless named".
pub fn ask(yes: bool, number: u64, place: usize) -> Result<(), Refused> {
    if yes {
        Ok(())
    } else {
        Err(Refused { number, place: place as u64 })
    }
}
