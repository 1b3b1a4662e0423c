//! A second program for document 01 and of document 02, written from the documents alone: it shares no code, no table and no data
//! layout in memory with the proved library. The modules follow the documents; `wire` is the host interface on bytes; `library`, `craft`,
//! `mutate`, `gen`, `wishes`, `runs`, `older`, `driver` and `cases` make and compare calls.

pub mod book;
pub mod cases;
pub mod code;
pub mod craft;
pub mod driver;
pub mod field;
pub mod frame;
pub mod gen;
pub mod library;
pub mod mutate;
pub mod node;
pub mod older;
pub mod plan;
pub mod random;
pub mod reader;
pub mod record;
pub mod refusal;
pub mod run;
pub mod runs;
pub mod session;
pub mod sha256;
pub mod wire;
pub mod wish;
pub mod wishes;
pub mod writer;

#[cfg(feature = "archive")]
pub mod archive;
