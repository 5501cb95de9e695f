//! The engine's exported functions against the model, on worked, random and
//! damaged input. README.md says how to run it.

#![forbid(unsafe_code)]

pub mod bytes;
pub mod crossing;
pub mod group;
pub mod leaving;
pub mod memory;
pub mod packet;
pub mod script;
pub mod settings;
pub mod settling;
pub mod shrink;
pub mod single;
