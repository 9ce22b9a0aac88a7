//! The answers of the six contracts.

use crate::reason::Reason;
use std::fmt;

/// How a contract was priced.
#[derive(Clone, Copy, Debug, PartialEq, Eq, Hash)]
pub enum Method {
    /// From trades: 5 lots or more in the window.
    Vwap,
    /// From the indicator over the window's milliseconds.
    Twap,
}

impl fmt::Display for Method {
    fn fmt(&self, out: &mut fmt::Formatter<'_>) -> fmt::Result {
        out.write_str(match self {
            Method::Vwap => "VWAP",
            Method::Twap => "TWAP",
        })
    }
}

/// A contract that is priced.
#[derive(Clone, Copy, Debug, PartialEq, Eq, Hash)]
pub enum Contract {
    /// Three months.
    ThreeMonths,
    /// The third month.
    M3,
    /// The second month.
    M2,
    /// The fourth month.
    M4,
    /// The first month.
    M1,
    /// Cash.
    Cash,
}

/// The contracts in pricing order: answer `k` is that of contract `k` here.
pub const CONTRACTS: [Contract; 6] =
    [Contract::ThreeMonths, Contract::M3, Contract::M2, Contract::M4, Contract::M1, Contract::Cash];

impl fmt::Display for Contract {
    fn fmt(&self, out: &mut fmt::Formatter<'_>) -> fmt::Result {
        out.write_str(match self {
            Contract::ThreeMonths => "3M",
            Contract::M3 => "M3",
            Contract::M2 => "M2",
            Contract::M4 => "M4",
            Contract::M1 => "M1",
            Contract::Cash => "Cash",
        })
    }
}

/// A contract's answer. Lots are the sum over its VWAP instruments in the window, and 0 for one that was not reached. M3 or M4 has that
/// of 3M where the header's third value names it and none before it is refused.
#[derive(Clone, Copy, Debug, PartialEq, Eq, Hash)]
pub enum Answer {
    /// A close, 1 to 99,999,999 cents.
    Priced {
        /// How it was priced.
        method: Method,
        /// The close in cents.
        cents: u32,
        /// The lots.
        lots: u64,
    },
    /// No close.
    Refused {
        /// Why: [`Reason::NoReference`], [`Reason::CloseOutOfRange`] or [`Reason::NotReached`].
        reason: Reason,
        /// The lots.
        lots: u64,
    },
}

impl Answer {
    /// The answer in a row: method or refusal, close, lots. A close has at most 99,999,999 cents, so the narrowing loses nothing.
    pub(crate) fn of_row(told: u64, close: u64, lots: u64) -> Answer {
        match told {
            1 => Answer::Priced { method: Method::Vwap, cents: close as u32, lots },
            2 => Answer::Priced { method: Method::Twap, cents: close as u32, lots },
            number => Answer::Refused { reason: Reason::handed_back(number), lots },
        }
    }

    /// The close in cents, where there is one.
    pub fn cents(&self) -> Option<u32> {
        match self {
            Answer::Priced { cents, .. } => Some(*cents),
            Answer::Refused { .. } => None,
        }
    }

    /// The lots.
    pub fn lots(&self) -> u64 {
        match self {
            Answer::Priced { lots, .. } | Answer::Refused { lots, .. } => *lots,
        }
    }
}

/// As on the list: method, cents, lots; or `refused`, the number, lots.
impl fmt::Display for Answer {
    fn fmt(&self, out: &mut fmt::Formatter<'_>) -> fmt::Result {
        match self {
            Answer::Priced { method, cents, lots } => write!(out, "{method} {cents} {lots}"),
            Answer::Refused { reason, lots } => write!(out, "refused {} {lots}", reason.number()),
        }
    }
}
