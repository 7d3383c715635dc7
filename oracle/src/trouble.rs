//! Why a line of a script has no answer.

pub enum Trouble {
    /// The line is not written as a call.
    Unreadable,
    /// The card's state does not admit the call.
    NotNow,
    /// A refusal, or something that usvg has no counterpart of.
    Unsupported,
}

impl Trouble {
    pub fn said(&self) -> &'static str {
        match self {
            Trouble::Unreadable => "unreadable",
            Trouble::NotNow => "not now",
            Trouble::Unsupported => "unsupported",
        }
    }
}
