//! The numbers of the refusals.

/// Why something was refused; the discriminant is the number that is answered.
#[derive(Clone, Copy, Debug, PartialEq, Eq)]
#[repr(u8)]
pub enum Refusal {
    ClosingPrice = 1,
    LastNumber = 2,
    Price = 3,
    Quantity = 4,
    UnfitOrder = 5,
    NoPlace = 6,
    UnfitTake = 7,
    NotStanding = 8,
    Closed = 9,
    Halted = 10,
    OtherClass = 11,
    NumbersUsedUp = 12,
    BookFull = 13,
    UnknownMarketplace = 14,
    SetAside = 15,
    QuotePrice = 16,
    WrongPhase = 17,
    ShortList = 18,
}

impl Refusal {
    pub fn number(self) -> u8 {
        self as u8
    }
}
