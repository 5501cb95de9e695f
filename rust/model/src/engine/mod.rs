//! The engine of one replica: ring records in lent memory, moved by events.
//!
//! Every event answers for every input. A refused event gives its question
//! number and leaves all lent memory as found (01, "The questions, in order").

mod message;
mod one;
mod record;
mod refusal;
mod replica;
mod sets;
mod settings;
mod state;
mod steps;
mod table;
mod timestamp;

pub use message::{Envelope, Message};
pub use one::Sizes;
pub use record::{Record, Slot};
pub use refusal::{number, Answer, Refusal};
pub use replica::Replica;
pub use sets::{bit, has};
pub use settings::{Rule, Settings};
pub use state::State;
pub use table::body;
pub use timestamp::Timestamp;

pub(crate) use refusal::ask;
