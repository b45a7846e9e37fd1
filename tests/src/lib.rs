//! The second implementation of Tomchoen, written from document 01 and document 02's requests 2.1 to 2.5 alone, on
//! plain Rust types.
//!
//! `text`, `memory`: tables as texts and as records; `intersect`, `product`, `join`, `columns`, `lookup`, `path`,
//! `forecast`: the calls on automata; `reading`: how strings are compared; `calls`: the same calls on lent bytes;
//! `agree`: the program from text to text; `explain`: what is wrong with its input, and where.
//! The rest makes and checks test inputs.

#![forbid(unsafe_code)]

pub mod accounts;
pub mod agree;
pub mod automaton;
pub mod calls;
pub mod closing;
pub mod columns;
pub mod damage;
pub mod explain;
pub mod fault;
pub mod forecast;
pub mod forecast_cases;
pub mod generate;
pub mod intersect;
pub mod join;
pub mod join_cases;
pub mod labels;
pub mod lines;
pub mod lookup;
pub mod memory;
pub mod order;
pub mod pair_lists;
pub mod pairs;
pub mod path;
pub mod path_cases;
pub mod product;
pub mod random;
pub mod reading;
pub mod refusal;
pub mod requests;
pub mod sample;
pub mod text;
pub mod word_for_word;
