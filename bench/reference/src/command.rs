//! Reading a line of a rehearsal.

use crate::form::{Kind, Marks};
use crate::side::Side;

pub const MOST_TRADE_RECORDS: u32 = 16384;
const MOST_BOOK_RECORDS: u32 = 5000;

#[derive(Clone, Copy, Debug)]
pub enum BookKind {
    Packed,
    Chained { records: usize },
}

#[derive(Debug)]
pub enum Command {
    Day {
        closing_price: u32,
        last_number: u32,
    },
    Books([BookKind; 4]),
    Trades {
        records: usize,
    },
    Sheet {
        closing_price: u32,
        last_number: u32,
    },
    Enter {
        side: Side,
        price: u32,
        shares: u32,
        marks: Marks,
    },
    Cancel {
        number: u32,
    },
    Quote {
        marketplace: u32,
        side: Side,
        price: Option<u32>,
    },
    SetAside {
        marketplace: u32,
    },
    Halt,
    Resume,
    Close,
    Best(Side),
    Front(Side),
    Shares {
        side: Side,
        price: u32,
    },
    Open {
        number: u32,
    },
}

impl Command {
    /// Reads a line, without its line feed; none where the line is malformed.
    pub fn read(line: &[u8]) -> Option<Command> {
        let fields: Vec<&[u8]> = line.split(|&byte| byte == b' ').collect();
        Some(match *fields {
            [b"day", closing_price, last_number] => Command::Day {
                closing_price: number(closing_price)?,
                last_number: number(last_number)?,
            },
            [b"books", a, b, c, d] => Command::Books([book(a)?, book(b)?, book(c)?, book(d)?]),
            [b"trades", records] => Command::Trades {
                records: number_up_to(MOST_TRADE_RECORDS, records)?,
            },
            [b"sheet", closing_price, last_number] => Command::Sheet {
                closing_price: number(closing_price)?,
                last_number: number(last_number)?,
            },
            [b"B", price, shares, marks] => entry(Side::Bid, price, shares, marks)?,
            [b"S", price, shares, marks] => entry(Side::Ask, price, shares, marks)?,
            [b"C", order] => Command::Cancel {
                number: number(order)?,
            },
            [b"quote", marketplace, on, price] => Command::Quote {
                marketplace: number(marketplace)?,
                side: side(on)?,
                price: price_or_none(price)?,
            },
            [b"aside", marketplace] => Command::SetAside {
                marketplace: number(marketplace)?,
            },
            [b"halt"] => Command::Halt,
            [b"resume"] => Command::Resume,
            [b"close"] => Command::Close,
            [b"best", on] => Command::Best(side(on)?),
            [b"front", on] => Command::Front(side(on)?),
            [b"shares", on, price] => Command::Shares {
                side: side(on)?,
                price: number(price)?,
            },
            [b"open", order] => Command::Open {
                number: number(order)?,
            },
            _ => return None,
        })
    }
}

/// One to ten digits whose value fits 32 bits.
fn number(field: &[u8]) -> Option<u32> {
    if !(1..=10).contains(&field.len()) || !field.iter().all(u8::is_ascii_digit) {
        return None;
    }
    let value = field
        .iter()
        .fold(0, |value, &digit| value * 10 + u64::from(digit - b'0'));
    u32::try_from(value).ok()
}

fn number_up_to(most: u32, field: &[u8]) -> Option<usize> {
    number(field)
        .filter(|&value| value <= most)
        .map(|value| value as usize)
}

fn price_or_none(field: &[u8]) -> Option<Option<u32>> {
    match field {
        b"none" => Some(None),
        _ => number(field).map(Some),
    }
}

fn side(field: &[u8]) -> Option<Side> {
    match field {
        b"bid" => Some(Side::Bid),
        b"ask" => Some(Side::Ask),
        _ => None,
    }
}

fn book(field: &[u8]) -> Option<BookKind> {
    match field {
        b"packed" => Some(BookKind::Packed),
        _ => {
            let records = number_up_to(MOST_BOOK_RECORDS, field.strip_prefix(b"chained:")?)?;
            Some(BookKind::Chained { records })
        }
    }
}

fn marks(field: &[u8]) -> Option<Marks> {
    let (kind, rest) = field.split_first()?;
    let kind = match kind {
        b'L' => Kind::Displayed,
        b'K' => Kind::Dark,
        b'H' => Kind::DarkHalfStep,
        _ => return None,
    };
    let (immediate, directed) = match rest {
        b"" => (false, false),
        b"I" => (true, false),
        b"A" => (false, true),
        b"IA" => (true, true),
        _ => return None,
    };
    Some(Marks {
        kind,
        immediate,
        directed,
    })
}

fn entry(side: Side, price: &[u8], shares: &[u8], letters: &[u8]) -> Option<Command> {
    Some(Command::Enter {
        side,
        price: number(price)?,
        shares: number(shares)?,
        marks: marks(letters)?,
    })
}
