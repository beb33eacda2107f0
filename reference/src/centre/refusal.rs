//! The numbers that a caller gets.

/// The number of a call that was carried out.
pub const DONE: u8 = 0;

/// Why a call was not carried out.
#[derive(Clone, Copy, Debug, PartialEq, Eq)]
#[repr(u8)]
pub enum Refusal {
    MoreNeeded = 1,
    NoSuchSession = 2,
    WrongSize = 3,
    SpaceTooSmall = 4,
    StampIllFormed = 5,
    WrongEntry = 6,
    NoSuchAccount = 7,
    NoSuchOutcome = 8,
    AccountIllFormed = 9,
    NoSuchMessage = 10,
    NothingWaiting = 11,
    NoReceiver = 12,
    NothingOwed = 13,
}

impl Refusal {
    pub const ALL: [Refusal; 13] = [
        Refusal::MoreNeeded,
        Refusal::NoSuchSession,
        Refusal::WrongSize,
        Refusal::SpaceTooSmall,
        Refusal::StampIllFormed,
        Refusal::WrongEntry,
        Refusal::NoSuchAccount,
        Refusal::NoSuchOutcome,
        Refusal::AccountIllFormed,
        Refusal::NoSuchMessage,
        Refusal::NothingWaiting,
        Refusal::NoReceiver,
        Refusal::NothingOwed,
    ];

    pub fn number(self) -> u8 {
        self as u8
    }

    pub fn of_number(number: u8) -> Option<Refusal> {
        Refusal::ALL.into_iter().find(|r| r.number() == number)
    }

    /// The documents' own words for the number.
    pub fn words(self) -> &'static str {
        match self {
            Refusal::MoreNeeded => "more octets needed, none consumed",
            Refusal::NoSuchSession => "session number above 15",
            Refusal::WrongSize => "book not 512 octets or table not 32,768",
            Refusal::SpaceTooSmall => "response space under 44 octets (for a receipt: under 91)",
            Refusal::StampIllFormed => "time stamp ill formed",
            Refusal::WrongEntry => {
                "session not open, transmitter or receiver (on opening: not closed)"
            }
            Refusal::NoSuchAccount => "account number above 7",
            Refusal::NoSuchOutcome => "outcome not 2, 3 or 5",
            Refusal::AccountIllFormed => {
                "account concerned is ill formed, or this session's entry names an account above 7"
            }
            Refusal::NoSuchMessage => "no waiting message with that id",
            Refusal::NothingWaiting => "nothing waiting",
            Refusal::NoReceiver => "not a receiver, or a receipt outstanding",
            Refusal::NothingOwed => "nothing owed",
        }
    }
}

impl std::fmt::Display for Refusal {
    fn fmt(&self, f: &mut std::fmt::Formatter<'_>) -> std::fmt::Result {
        write!(f, "{} ({})", self.words(), self.number())
    }
}

impl std::error::Error for Refusal {}
