//! `sheet serve` as clients, service managers and other programs of its book meet it. Requests, records and books are the second program's. Power cuts
//! and errors of the system are tried by host/try-serve, faults by host/try-faults.

mod book;
mod channels;
mod ends;
mod log;
mod node;
mod replies;
