//! A second reading of document 01, with document 02's, made only to be compared with the library.
//! Each module holds one idea; the words in quotation marks are the documents'.

pub mod calls;
pub mod commands;
#[allow(dead_code)] // tests/replay plays days, this comparison doesn't
pub mod day;
pub mod elements;
pub mod fields;
pub mod frame;
pub mod image;
pub mod layout;
pub mod lead;
pub mod queue;
pub mod read;
pub mod record;
pub mod refusal;
pub mod session;
pub mod table;
pub mod trace;
pub mod write;
