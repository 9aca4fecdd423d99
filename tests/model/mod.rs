//! The reel book as its specification tells it: plain code, sentence after sentence, to compare the library with.
//! `operations` answers over any contents and lengths; `table` is the plain table of reels that a whole history is held against.
mod apply;
mod beside;
pub mod buffer;
pub mod call;
pub mod claim;
pub mod convert;
pub mod ending;
pub mod fault;
pub mod fault_lists;
pub mod format;
pub mod image;
pub mod left;
pub mod loads;
pub mod module;
pub mod node;
pub mod operations;
pub mod path_nodes;
pub mod rule;
pub mod script;
pub mod table;
pub mod tidy;
pub mod translate;
pub mod tree;
