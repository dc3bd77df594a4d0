//! The crates that the command uses, with the interface of their ports, which the sources call.

pub mod clap;
pub mod hex;
