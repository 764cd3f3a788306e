//! Independent second implementation of the translator, written from the rules
//! alone, with what the comparison and the benchmark need around it.

pub mod cases;
pub mod compare;
pub mod damage;
pub mod lines;
pub mod log;
pub mod logs;
pub mod make;
pub mod program;
pub mod rng;
pub mod script;
pub mod stdio;
pub mod table;
pub mod tables;
pub mod translate;
pub mod words;
pub mod writers;
