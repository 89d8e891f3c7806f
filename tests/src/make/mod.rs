//! Random input for every call, sound and damaged.

pub mod lists;
pub mod marks;
pub mod programs;
pub mod sets;
pub mod shapes;
pub mod tables;
pub mod texts;
