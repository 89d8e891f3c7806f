//! The library compared with document 01: `independent` is an implementation of that document of its own, written out literally; `library` calls the exports
//! with guarded copies of every slice; `random` and `make` draw the inputs; `rescan` reduces full-size tables whole.
#![deny(warnings)]

pub mod compare;
pub mod independent;
pub mod library;
pub mod make;
pub mod random;
pub mod rescan;
