//! The second program: document 01's grid, boundary, two searches, code, units
//! and listing, document 02's crossed boundaries, long tails, account and journal,
//! and the answers to requests. It uses nothing of the generators and the tests.

pub mod account;
pub mod boundary;
pub mod code;
pub mod crossed;
pub mod grid;
pub mod handed;
pub mod journal;
pub mod lines;
pub mod messages;
pub mod pages;
pub mod plain;
pub mod questions;
pub mod quick;
pub mod record;
pub mod replay;
pub mod tails;
pub mod trials;
pub mod unit;
