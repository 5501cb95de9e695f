//! Reference model of ring records kept by Hermes, written from documents 01
//! and 02 (so far its Wishes 1, 2, 4, 5 and 6) and the source documents alone.
//!
//! "01, question 13" in a comment names question 13 of document 01. Where the
//! documents are silent, the comment beginning "Decision:" says what was chosen.

#![forbid(unsafe_code)]

pub mod engine;
pub mod opened;
pub mod packet;
pub mod player;
pub mod rng;
