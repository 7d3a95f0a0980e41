//! What the two baselines of the benchmark, `ordinary` and `onepass`, share: all but how a form is read.
//!
//! The text is read by a cursor ([`text::Reader`]) that validates what it passes over. The steps ([`State`]) are methods on
//! `&mut self` that ask the table's conditions in the order in which they are tried; the state is changed in place. What the
//! state keeps is in [`records`]. Digests are worked out in the plain way ([`sha256`]).
//!
//! The crates were written from the documents. They share no code with the library or with `paper`, to which their answers
//! are compared by their tests. Words in quotation marks are 01's own.

pub mod date;
mod forms;
pub mod hex;
pub mod records;
pub mod refusal;
pub mod sha256;
mod state;
pub mod text;

pub use forms::Forms;
pub use refusal::{Refusal, number_of};
pub use state::{Found, State};
