//! Document 01, "When a controller believes a file from the shelf", read by an independent program.
//!
//! This crate was written from the document alone, as the change requests A1, A2, A5, A7 and A8 amend it, and from FIPS
//! 180-4. It shares no code, table or constant with the library it is compared with, and where there was a choice it takes
//! another road: text is read generously, written again in canonical form and compared; dates are counted off in a table
//! instead of being calculated; forms are read from a tree of values into maps and sets; of the refusals all conditions
//! are looked at before the first is said; the names that find compares are counted over the whole list; the constants of
//! SHA-256 are worked out from the primes.
//!
//! Words in quotation marks in the comments are the document's own.

pub mod date;
pub mod envelope;
pub mod file;
pub mod forms;
pub mod hex;
pub mod json;
pub mod refusal;
pub mod script;
pub mod sha256;
pub mod state;

#[cfg(test)]
mod cases;
#[cfg(test)]
mod shelf;
