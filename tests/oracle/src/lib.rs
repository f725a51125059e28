//! The seven operations of the paper on byte texts, written for comparison:
//! plain recursive descent with positions, values and shapes as trees.

pub mod check;
pub mod generate;
pub mod json;
pub mod lexical;
pub mod limits;
pub mod operations;
pub mod plain;
pub mod run;
pub mod shape;
pub mod suite;
pub mod tally;
pub mod text_forms;
pub mod value;
pub mod vectors;
