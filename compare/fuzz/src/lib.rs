//! Makes calls through the library's C interface, random and mutated ones, and compares every answer with paper's.
//!
//! The calls come from the generators of [`side`] and from edits of what these make. A state of the library and one of paper
//! go through them side by side. What is lent to the library stands in pages of its own, read-only, next to a page without
//! access: to read outside of it, or to write to it, ends the program. The same calls, with paper's answers, go to a driver in
//! C that includes the header, and may be built with sanitizers.
//!
//! The bytes of a state are the library's own: no state is made up or changed here, all come from calls.

pub mod answers;
pub mod counts;
pub mod driver;
pub mod library;
pub mod memory;
pub mod mutation;
pub mod options;
pub mod run;
pub mod source;
pub mod stream;
pub mod tokens;

#[cfg(test)]
mod stand_in;
