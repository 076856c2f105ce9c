//! The judge: the original Rust files of `Bodega`, compiled unchanged, behind
//! the event program of document 01.

#[macro_use]
mod macros;

mod bodega;
mod client;
mod manager;
mod server;
mod time;
mod utils;

pub mod bare;
pub mod calls;
pub mod compare;
pub mod coverage;
pub mod generate;
pub mod hand;
pub mod item;
pub mod mutants;
pub mod recorded;
pub mod replay;
pub mod rng;
pub mod script;
