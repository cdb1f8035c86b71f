//! Checks of the store over its bytes and answers: the layout of the lent memory in its forms, an independent
//! reading of the stored facts, of the refusals, of what calls may change and of what moves leave, a plain
//! page store in Rust, the compiled library, and the comparisons of these with each other and with the second
//! program's plain history.

pub mod agree;
pub mod command_line;
pub mod damage;
pub mod defined;
pub mod facts;
pub mod first;
pub mod footprint;
pub mod lent;
#[cfg(feature = "library")]
pub mod library;
pub mod live;
pub mod memory;
pub mod moves;
pub mod operands;
pub mod plain;
pub mod same;
pub mod shortcuts;
pub mod stated;
pub mod store;
pub mod unmade;

pub use plain::Plain;
pub use store::Store;

/// The stores that must be right: the two in Rust, and the compiled library where it is linked.
pub fn right_stores() -> Vec<Box<dyn Store>> {
    let rust: Vec<Box<dyn Store>> = vec![Box::new(Plain::<0>), Box::new(defined::Defined)];
    rust.into_iter().chain(compiled()).collect()
}

#[cfg(feature = "library")]
fn compiled() -> Vec<Box<dyn Store>> {
    vec![Box::new(library::Library)]
}

#[cfg(not(feature = "library"))]
fn compiled() -> Vec<Box<dyn Store>> {
    Vec::new()
}
