//! The model over the cipher by word tables, as an implementation that is measured: the file of the other one, beside another module `model`.

use outside::by_word_tables::model;

#[path = "model_side.rs"]
pub mod model_side;
