//! The checker of histories, for this crate's program and for other trials: whether calls and returns are a register's, and its own tests.

pub mod histories;
pub mod register;
