//! The judge's tests: the document's cases, and what holds of all codes and accounts.

mod accounts;
pub mod cases;
mod crossings;
mod journal;
pub mod selftest;
mod tails;
mod totals;
