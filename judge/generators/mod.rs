//! What both programs are asked: random units, lines, pairs of lines and
//! requests from a seed, and the fixed lists at every border.

mod accounts;
mod asked;
pub mod borderaccount;
pub mod bordercrossings;
pub mod borderedges;
pub mod borderjournal;
pub mod bordermessages;
pub mod borders;
pub mod bordertails;
pub mod bordertotals;
pub mod borderunits;
mod broken;
pub mod changes;
pub mod crossing;
mod far;
pub mod histories;
pub mod journals;
mod pages;
pub mod random;
pub mod requests;
pub mod shapes;
pub mod tails;
mod texts;
pub mod units;
pub mod waists;
