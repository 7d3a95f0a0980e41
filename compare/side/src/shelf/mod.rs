//! Makes files as a publisher would, and as no publisher should.

pub mod dates;
pub mod files;
pub mod keyids;
pub mod sha256;
pub mod signer;
pub mod tree;
