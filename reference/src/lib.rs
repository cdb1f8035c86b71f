//! The second program: the plain version history of document 01, with Items 1 to 7 of document 02,
//! written from these documents alone, with gatebook's input and output on top of it. The store is
//! compared with it.

#![forbid(unsafe_code)]

pub mod call;
pub mod command;
pub mod generate;
pub mod history;
pub mod pack;
pub mod program;
pub mod random;
pub mod survey;
pub mod text;
pub mod trace;

pub use call::{Answer, Call, Form, Shape};
pub use history::History;
