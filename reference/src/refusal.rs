//! The refusal list and the outcomes of document 01, with their numbers.

/// Why something is refused. The numbers are those of the refusal list, which
/// is checked from the top.
#[derive(Clone, Copy, Debug, PartialEq, Eq, PartialOrd, Ord, Hash)]
#[repr(u8)]
pub enum Refusal {
    /// The script's length or its first byte.
    Script = 1,
    /// A number of a configuration or of a facade handed in.
    Range = 2,
    /// A record's length.
    Record = 3,
    /// An unknown kind.
    Kind = 4,
    /// A d, e, τ, keep or says.
    Field = 5,
    /// Something named that does not exist, or a notice about its receiver.
    Missing = 6,
    /// A party in the wrong state.
    State = 7,
    /// True time would pass its end.
    Time = 8,
    /// A clock would go back or be off by too much.
    Clock = 9,
    /// A live server would be too long without a notice.
    Overdue = 10,
    /// A notice that is false for too long already.
    FalseNotice = 11,
    /// The interaction numbers are used up.
    Interaction = 12,
    /// Too many messages would wait.
    Waiting = 13,
}

impl Refusal {
    pub fn number(self) -> u8 {
        self as u8
    }
}

/// What a step that is not refused reports.
#[derive(Clone, Copy, Debug, PartialEq, Eq, Hash)]
#[repr(u8)]
pub enum Outcome {
    /// Handled; also every accepted step that is no deliver.
    Done = 0,
    /// A condition of the message's rule is not met.
    NotMet = 1,
    /// The receiver is dead.
    DeadReceiver = 2,
}

impl Outcome {
    pub fn number(self) -> u8 {
        self as u8
    }
}

/// The answer of every step.
pub type Answer = Result<Outcome, Refusal>;
