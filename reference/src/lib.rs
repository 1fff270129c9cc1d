//! The shared stock log of document 01, a second time: plain Rust, written from the document alone.
//!
//! Every call takes lent bytes and numbers of any value and ends in an `Answer`: done, or a refusal with
//! document 01's number and, where one is told, an offset. No call panics.

pub mod answer;
pub mod append;
pub mod appending;
pub mod audit;
pub mod auditing;
pub mod boundary;
pub mod broken;
pub mod bytes;
pub mod cases;
pub mod directing;
pub mod directory;
pub mod earlier;
pub mod examples;
pub mod forms;
pub mod hash;
pub mod header;
pub mod log;
pub mod objects;
pub mod playing;
pub mod price;
pub mod prices;
pub mod pricing;
pub mod random;
pub mod replica;
pub mod report;
pub mod rules;
pub mod run;
pub mod sample;
pub mod slot;
pub mod table;
pub mod vectors;

pub use answer::{Answer, Refusal};
