//! A second implementation of the ASM1 and ADM1 link, written from document 01, from
//! requests E1 (recycle), E2 (fields in column order), E3 (previews), E5 (a writer for call
//! lines), E6 (laboratory sheets), E7 (nine figures of one's own), E9 (nitrate by
//! stoichiometry), E10 (hauled loads), E11 (how long the answers will be), E12 (the side-stream
//! reactor) and E13 (amino acids give way to inerts) of document 02 and, for what they have no
//! line for (conversions by themselves and the figures that they take, `close`, `gap`, the number
//! that asks for a preview to be written, the kinds of a sheet's entries, the program's
//! `--figures`), from a description in words; never from the code of the verified link.
//!
//! The link:
//! - `tables`: column names, ceilings, COD of a vector;
//! - `figures`: a record's nine figures, which are permitted, the house set, TKN of a vector;
//! - `convert`: feed and return stage by stage, of a drawn vector and of any by itself;
//! - `plant`: the record with its three tanks and figures, how it is made, the eight calls and
//!   their previews, held;
//! - `reactor`: the two of these calls that the side-stream reactor's host makes;
//! - `closing`: what closes in the place of a solver's proposal, and how far off one is;
//! - `sheets`: a laboratory's single-precision grams, counted and received;
//! - `blends`: several hauled loads, each drawn by its own k, added to the sludge tank;
//! - `numbers`: every call by numbers, as a host in C makes it;
//! - `lines`: a line read as a call or its preview, an answer written into a lent buffer;
//! - `writing`: a call or its preview written as its line into a lent buffer;
//! - `session`: input cut into lines and answered in fixed memory;
//! - `lengths`: how long the answers to a list of lines will be, without writing any;
//! - `making`: the program's words, and the record that they ask for.
//!
//! For the tools in `src/bin` and for the tests:
//! - `random`: the generator of their numbers;
//! - `balances`: the four balances over a list, from its calls and answers;
//! - `trials`: figures, records, calls, lines, vectors and proposals to try, fair, damaged and
//!   out of order, leachate, previews, calls to be written, sheets, blends, the reactor's water,
//!   and lists of lines;
//! - `outside`: trials of the program's input, output and arguments;
//! - `host`: the functions of the C library, with the feature `library` alone.

pub mod balances;
pub mod blends;
pub mod closing;
pub mod convert;
pub mod figures;
#[cfg(feature = "library")]
pub mod host;
pub mod lengths;
pub mod lines;
pub mod making;
pub mod numbers;
pub mod outside;
pub mod plant;
pub mod random;
pub mod reactor;
pub mod session;
pub mod sheets;
pub mod tables;
pub mod trials;
pub mod writing;
