//! A separate reading of document 01, written from its sentences alone and sharing nothing with the
//! crates of the project: where one of the two misreads 01, a comparison shows it.
//!
//! The modules follow 01's sections in order; the sentence that a part renders stands above it,
//! in quotation marks.

pub mod machine;
pub mod words;
pub mod writer;

pub mod old_core;

pub mod places;

pub mod new_core;
pub mod records;

pub mod translator;

pub mod listing;

pub mod claim;
pub mod trails;

pub mod interface;
pub mod state;

pub mod couples;
pub mod random;

pub mod calls;
pub mod cases;
pub mod core_edges;
pub mod edges;
pub mod files;
