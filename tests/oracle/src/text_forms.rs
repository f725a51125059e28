//! Shape texts and reader texts: refusals 7 and 8 at their places.

mod reader_text;
mod shape_text;
mod tokens;

pub use reader_text::{read_reader, Body, Case, Form, Place, Spot};
pub use shape_text::{read_shape, write_shape};
