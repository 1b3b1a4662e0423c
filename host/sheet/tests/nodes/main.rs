//! The commands over nodes, as people meet them: nodes that serve, that fail in each way that a client has to bear, files that are wrong, ask
//! numbers under kills and power cuts, and a lost machine that is replaced.

mod asks;
mod faults;
mod heal;
mod keepers;
mod look;
mod node;
mod place;
mod random;
mod roster;
mod together;
