//! The day sheet, its class, and the order form that is checked against it.

use crate::refusal::Refusal;
use crate::side::Side;

const HIGHEST_PRICE: u32 = 4_000_000;
pub const MOST_SHARES: u32 = 10_000_000;
/// An order of more units, or of a higher value in quarter cents, is large.
const SMALL_UNITS: u32 = 50;
const SMALL_VALUE: u64 = 40_000_000;

/// What the previous closing price sets for the day.
#[derive(Clone, Copy, Debug, PartialEq, Eq)]
pub struct Class {
    pub increment: u32,
    pub unit: u32,
}

impl Class {
    fn of(closing_price: u32) -> Class {
        Class {
            increment: if closing_price >= 200 { 4 } else { 2 },
            unit: match closing_price {
                0..=39 => 1000,
                40..=399 => 500,
                _ => 100,
            },
        }
    }

    pub fn allows_price(self, price: u32) -> bool {
        (1..=HIGHEST_PRICE).contains(&price) && price.is_multiple_of(self.increment)
    }

    fn allows_quantity(self, shares: u32) -> bool {
        (1..=MOST_SHARES).contains(&shares) && shares.is_multiple_of(self.unit)
    }
}

#[derive(Clone, Copy, Debug)]
pub struct DaySheet {
    pub class: Class,
    pub last_number: u32,
}

impl DaySheet {
    pub fn write(closing_price: u32, last_number: u32) -> Result<DaySheet, Refusal> {
        if !(1..=HIGHEST_PRICE).contains(&closing_price) {
            return Err(Refusal::ClosingPrice);
        }
        if last_number == 0 {
            return Err(Refusal::LastNumber);
        }
        Ok(DaySheet {
            class: Class::of(closing_price),
            last_number,
        })
    }
}

#[derive(Clone, Copy, Debug, PartialEq, Eq)]
pub enum Kind {
    Displayed,
    Dark,
    DarkHalfStep,
}

/// The kind of an order and the two marks it may carry.
#[derive(Clone, Copy, Debug)]
pub struct Marks {
    pub kind: Kind,
    pub immediate: bool,
    pub directed: bool,
}

/// A checked order form: its price and quantity are valid for its class.
#[derive(Debug)]
pub struct Form {
    pub side: Side,
    limit: u32,
    pub shares: u32,
    pub marks: Marks,
    pub class: Class,
}

impl Form {
    pub fn write(
        sheet: &DaySheet,
        side: Side,
        limit: u32,
        shares: u32,
        marks: Marks,
    ) -> Result<Form, Refusal> {
        let class = sheet.class;
        if !class.allows_price(limit) {
            return Err(Refusal::Price);
        }
        if !class.allows_quantity(shares) {
            return Err(Refusal::Quantity);
        }
        Ok(Form {
            side,
            limit,
            shares,
            marks,
            class,
        })
    }

    /// The furthest price the order goes to, at which it also stands in a book.
    pub fn bound(&self) -> u32 {
        let half_step = match self.marks.kind {
            Kind::DarkHalfStep => self.class.increment / 2,
            Kind::Displayed | Kind::Dark => 0,
        };
        match self.side {
            Side::Bid => self.limit - half_step,
            Side::Ask => self.limit + half_step,
        }
    }

    /// The limit counts here, not the bound, and the shares entered.
    pub fn is_large(&self) -> bool {
        let value = u64::from(self.limit) * u64::from(self.shares);
        self.shares > SMALL_UNITS * self.class.unit || value > SMALL_VALUE
    }

    pub fn is_displayed(&self) -> bool {
        self.marks.kind == Kind::Displayed
    }
}
