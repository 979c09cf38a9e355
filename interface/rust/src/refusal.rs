use core::fmt;

/// Why a call was refused, numbered as documents 01 and 02 number it; `include/ration_table.h` says what to do about each.
#[derive(Clone, Copy, Debug, PartialEq, Eq)]
#[repr(u32)]
pub enum Refusal {
    WrongLength = 1,
    NotFormatted = 2,
    WrongHeader = 3,
    NotSound = 4,
    FewFree = 5,
    KeyZero = 6,
    Busy = 7,
    NoRoom = 8,
    BrokenWay = 9,
    NothingToStep = 10,
    WrongDump = 11,
    TooShort = 12,
    NoFamily = 13,
}

impl Refusal {
    pub fn number(self) -> u32 {
        self as u32
    }

    pub(crate) fn from_number(number: u32) -> Self {
        match number {
            1 => Self::WrongLength,
            2 => Self::NotFormatted,
            3 => Self::WrongHeader,
            4 => Self::NotSound,
            5 => Self::FewFree,
            6 => Self::KeyZero,
            7 => Self::Busy,
            8 => Self::NoRoom,
            9 => Self::BrokenWay,
            10 => Self::NothingToStep,
            11 => Self::WrongDump,
            12 => Self::TooShort,
            13 => Self::NoFamily,
            _ => unreachable!("the archive gives no other codes to this call"),
        }
    }
}

impl fmt::Display for Refusal {
    fn fmt(&self, f: &mut fmt::Formatter<'_>) -> fmt::Result {
        let text = match self {
            Self::WrongLength => "the length is no card's, or the state is another card's",
            Self::NotFormatted => "the card is not formatted",
            Self::WrongHeader => "the card's header is wrong",
            Self::NotSound => "the table on the card is not sound",
            Self::FewFree => "too few free nodes for the repair",
            Self::KeyZero => "0 is no key",
            Self::Busy => "something is in progress",
            Self::NoRoom => "too few free nodes for the insert",
            Self::BrokenWay => "the card was changed by something else",
            Self::NothingToStep => "nothing is in progress",
            Self::WrongDump => "no dump, or a damaged one",
            Self::TooShort => "too short for the result",
            Self::NoFamily => "there is no such family",
        };
        write!(f, "refused {}: {}", self.number(), text)
    }
}

impl core::error::Error for Refusal {}
