//! A second emulator of the house of partitions.
//!
//! It is written from document 01 and requests 1, 2, 4 to 11 and 13 of document 02 alone and, for the lines
//! that programs print and the words that they take, from docs/FILES.md and FORMAT.md; it shares no line with
//! the proved house, and exists to be compared with it: the same script of calls, the same house file, the
//! same saved file, the same listing or the same command line must give the same answer.

pub mod assemble;
pub mod audit;
pub mod beside;
pub mod compare;
pub mod counts;
pub mod decimals;
pub mod dlx;
pub mod engines;
pub mod fields;
pub mod generate;
pub mod house;
pub mod housefile;
pub mod instructions;
pub mod listing;
pub mod look;
pub mod memory;
pub mod named;
pub mod noon;
pub mod process;
pub mod reads;
pub mod rng;
pub mod saved;
pub mod script;
pub mod shrink;
pub mod source;
pub mod tally;
pub mod tickets;
pub mod timer;
