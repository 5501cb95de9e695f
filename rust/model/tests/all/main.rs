//! All tests in one program. Random ones begin from a fixed seed, unless the
//! environment variable MODEL_SEED gives another; a failure shows the seed.

mod agreement;
mod ask_then_save;
mod every_order;
mod group;
mod hostile;
mod moves;
mod order;
mod packets;
mod played;
mod refusals;
mod ringing_table;
mod schedule;
mod support;
mod tie_rule;
mod two_saves;
