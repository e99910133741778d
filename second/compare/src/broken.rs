//! How a take breaks Ticket 14's sentences, and how that is said.

use std::fmt;

use second::gateway::Waiting;

/// Why a take cannot be.
#[derive(Debug, PartialEq, Eq)]
pub enum Broken {
    NotOfTheNode(Waiting),
    NoRoom { waiting: usize, room: usize },
    MoreThanCan { waiting: usize, most: usize },
    NoneLeft { left: usize },
    FewerLeft { waiting: usize, left: usize },
    TooSoon { takes: usize, left: usize },
    NoneKnown { known: Waiting },
    FewerKnown { waiting: usize, known: usize },
    NotScheduled,
    OutOfTurn { before: Waiting },
    TooLate { known: Waiting, room: usize },
}

impl fmt::Display for Broken {
    fn fmt(&self, f: &mut fmt::Formatter) -> fmt::Result {
        match self {
            Broken::NotOfTheNode(entry) => {
                write!(f, "{} cannot be scheduled on it", Name(*entry))
            }
            Broken::NoRoom { waiting, room } => {
                let waited = waiting + 1;
                write!(f, "{waited} waited, and {room} can be scheduled on it")
            }
            Broken::MoreThanCan { waiting, most } => {
                write!(f, "{waiting} wait, but at most {most} can by then")
            }
            Broken::NoneLeft { left } => write!(f, "none, but the last take left {left}"),
            Broken::FewerLeft { waiting, left } => {
                write!(f, "{waiting} wait, but the last take left {left}")
            }
            Broken::TooSoon { takes, left } => {
                write!(f, "again after {takes} takes, but it left {left} waiting")
            }
            Broken::NoneKnown { known } => write!(f, "none, but {} waits", Name(*known)),
            Broken::FewerKnown { waiting, known } => {
                write!(
                    f,
                    "{waiting} wait, but {known} were scheduled and not taken"
                )
            }
            Broken::NotScheduled => write!(f, "it was not scheduled since it left"),
            Broken::OutOfTurn { before } => write!(f, "{} joined before it", Name(*before)),
            Broken::TooLate { known, room } => {
                write!(f, "{} waits after {room} takes, its room", Name(*known))
            }
        }
    }
}

struct Name(Waiting);

impl fmt::Display for Name {
    fn fmt(&self, f: &mut fmt::Formatter) -> fmt::Result {
        match self.0 {
            Waiting::Frame(tx_number) => write!(f, "Tx frame {tx_number}"),
            Waiting::Request(rx_number) => write!(f, "the request for Rx frame {rx_number}"),
        }
    }
}
