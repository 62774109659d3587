//! How calls end.

use std::fmt::{self, Display, Formatter};

use oracle::drawer::Fault;

/// How a call ends, in the order in which ends are shown.
#[derive(Clone, Copy, PartialEq, Eq, PartialOrd, Ord)]
pub enum End {
    /// With 0 or the refusal; a run before any frame.
    Answered(u32),
    /// A run, before its limit.
    Rests,
    /// A run, with the last frame of its limit.
    AtLimit,
    /// A run, with the refusal of its first frame.
    FirstRefused(u32),
    /// A run, with the refusal of a later frame.
    LaterRefused(u32),
    /// A call on a drawer with 13, and its first ground.
    NoDrawer(Fault),
}

impl From<u32> for End {
    fn from(number: u32) -> End {
        End::Answered(number)
    }
}

impl End {
    /// The number of the answer.
    pub fn number(self) -> u32 {
        match self {
            End::Rests | End::AtLimit => 0,
            End::NoDrawer(_) => 13,
            End::Answered(number) | End::FirstRefused(number) | End::LaterRefused(number) => number,
        }
    }
}

impl Display for End {
    fn fmt(&self, f: &mut Formatter) -> fmt::Result {
        match self {
            End::Answered(0) => write!(f, "accepted"),
            End::Answered(number) => write!(f, "refused with {number}"),
            End::Rests => write!(f, "rest, before their limit"),
            End::AtLimit => write!(f, "end with the last frame of their limit"),
            End::FirstRefused(number) => {
                write!(f, "refused inside with {number}, at the first frame")
            }
            End::LaterRefused(number) => {
                write!(f, "refused inside with {number}, at a later frame")
            }
            End::NoDrawer(fault) => write!(f, "refused: {}", fault.in_words()),
        }
    }
}

/// The ends that every kind of comparison of runs has to meet.
pub const OF_RUNS: [End; 13] = [
    End::Answered(1),
    End::Answered(2),
    End::Answered(3),
    End::Answered(4),
    End::Answered(5),
    End::Answered(6),
    End::Answered(9),
    End::Rests,
    End::AtLimit,
    End::FirstRefused(8),
    End::FirstRefused(12),
    End::LaterRefused(3),
    End::LaterRefused(8),
];
