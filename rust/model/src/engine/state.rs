/// The five states of a record (01, "Laptop and record"), in the paper's order.
#[derive(Clone, Copy, Debug, PartialEq, Eq, Hash)]
pub enum State {
    Valid,
    Invalid,
    InvalidWrite,
    Write,
    Replay,
}

impl State {
    /// All five, in the paper's order.
    pub const ALL: [State; 5] = [
        State::Valid,
        State::Invalid,
        State::InvalidWrite,
        State::Write,
        State::Replay,
    ];

    /// The state after a greater INV is taken (01, "Deliver INV").
    pub(super) fn invalidated(self) -> State {
        match self {
            State::Valid | State::Invalid | State::Replay => State::Invalid,
            State::Write | State::InvalidWrite => State::InvalidWrite,
        }
    }
}
