//! Nodes that are processes of `sheet serve` on this machine's loopback, and clients of them in this process, by the library of `sheet`: what
//! `sheet save --nodes` does, with channels that stay. For the trial in which nodes are killed (`kills`) and for the timings (`pace`).

mod books;
mod floor;
mod site;

pub use books::holders;
pub use floor::floor;
pub use site::Site;

/// What this crate's programs say of a failure: one line.
pub type Outcome<T> = Result<T, String>;
