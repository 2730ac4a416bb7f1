//! Playing the lines of a rehearsal, one answer for each.

use std::io::{self, Write};

use crate::book::{Book, Books};
use crate::chained::{ChainedBook, Record};
use crate::command::{BookKind, Command, MOST_TRADE_RECORDS};
use crate::form::{DaySheet, Form, Marks};
use crate::market::Market;
use crate::packed::PackedBook;
use crate::refusal::Refusal;
use crate::side::{BySide, Side};
use crate::trade::TradeList;

/// Why a line that is understood was not carried out.
enum Failure {
    NoDay,
    NoMarket,
    Refused(Refusal),
}

impl From<Refusal> for Failure {
    fn from(refusal: Refusal) -> Failure {
        Failure::Refused(refusal)
    }
}

/// What a line answers: the text, and whether the trades of the list follow it.
struct Answer {
    text: String,
    trades: bool,
}

impl Answer {
    fn alone(text: String) -> Answer {
        Answer {
            text,
            trades: false,
        }
    }

    fn with_trades(text: String) -> Answer {
        Answer { text, trades: true }
    }

    fn price(word: &str, price: Option<u32>) -> Answer {
        Answer::alone(match price {
            Some(price) => format!("{word} {price}"),
            None => format!("{word} none"),
        })
    }
}

struct Day {
    sheet: DaySheet,
    /// What forms are written against: the day's sheet, until another is put.
    form_sheet: DaySheet,
    market: Option<Market>,
}

pub struct Rehearsal {
    day: Option<Day>,
    list: TradeList,
}

impl Rehearsal {
    pub fn new() -> Rehearsal {
        Rehearsal {
            day: None,
            list: TradeList::lent(MOST_TRADE_RECORDS as usize),
        }
    }

    /// Plays a line, without its line feed, and writes what it answers.
    pub fn play(&mut self, line: &[u8], out: &mut impl Write) -> io::Result<()> {
        if line.is_empty() || line[0] == b'#' {
            return Ok(());
        }
        match Command::read(line) {
            Some(command) => self.carry_out(command, out),
            None => malformed(out),
        }
    }

    fn carry_out(&mut self, command: Command, out: &mut impl Write) -> io::Result<()> {
        match self.answer(command) {
            Ok(Answer {
                text,
                trades: false,
            }) => writeln!(out, "{text}"),
            Ok(Answer { text, trades: true }) => self.write_with_trades(&text, out),
            Err(Failure::NoDay) => writeln!(out, "no day"),
            Err(Failure::NoMarket) => writeln!(out, "no market"),
            Err(Failure::Refused(refusal)) => writeln!(out, "refused {}", refusal.number()),
        }
    }

    fn write_with_trades(&self, text: &str, out: &mut impl Write) -> io::Result<()> {
        let trades = self.list.written();
        writeln!(out, "{text} trades {}", trades.len())?;
        for trade in trades {
            let kind = if trade.dark { "dark" } else { "displayed" };
            writeln!(
                out,
                "trade {} {} {} {} {kind}",
                trade.active, trade.standing, trade.price, trade.shares
            )?;
        }
        Ok(())
    }

    fn answer(&mut self, command: Command) -> Result<Answer, Failure> {
        match command {
            Command::Day {
                closing_price,
                last_number,
            } => self.day(closing_price, last_number),
            Command::Books(kinds) => self.books(kinds),
            Command::Trades { records } => {
                self.list = TradeList::lent(records);
                Ok(Answer::alone(format!("trades {records}")))
            }
            Command::Sheet {
                closing_price,
                last_number,
            } => self.sheet(closing_price, last_number),
            Command::Enter {
                side,
                price,
                shares,
                marks,
            } => self.enter(side, price, shares, marks),
            Command::Cancel { number } => {
                let (market, list) = self.market_and_list()?;
                let shares = market.cancel(number, list)?;
                Ok(Answer::with_trades(format!("cancelled {shares}")))
            }
            Command::Quote {
                marketplace,
                side,
                price,
            } => {
                let (market, list) = self.market_and_list()?;
                market.quote(marketplace, side, price, list)?;
                Ok(Answer::with_trades("quoted".into()))
            }
            Command::SetAside { marketplace } => {
                let (market, list) = self.market_and_list()?;
                let ones = market.set_aside(marketplace, list)?;
                Ok(Answer::with_trades(format!("aside {ones}")))
            }
            Command::Halt => {
                self.market()?.halt()?;
                Ok(Answer::alone("halted".into()))
            }
            Command::Resume => {
                let (market, list) = self.market_and_list()?;
                market.resume(list)?;
                Ok(Answer::with_trades("resumed".into()))
            }
            Command::Close => {
                self.market()?.close()?;
                Ok(Answer::alone("closed".into()))
            }
            Command::Best(side) => Ok(Answer::price("best", self.market()?.best(side))),
            Command::Front(side) => Ok(Answer::price("front", self.market()?.front(side))),
            Command::Shares { side, price } => Ok(Answer::alone(format!(
                "shares {}",
                self.market()?.shares_at(side, price)
            ))),
            Command::Open { number } => {
                Ok(Answer::price("open", self.market()?.open_shares(number)))
            }
        }
    }

    /// Whatever was in force is dropped even where the new sheet is refused.
    fn day(&mut self, closing_price: u32, last_number: u32) -> Result<Answer, Failure> {
        *self = Rehearsal::new();
        let sheet = DaySheet::write(closing_price, last_number)?;
        self.day = Some(Day {
            sheet,
            form_sheet: sheet,
            market: None,
        });
        Ok(sheet_answer("day", &sheet))
    }

    fn books(&mut self, kinds: [BookKind; 4]) -> Result<Answer, Failure> {
        let day = self.day.as_mut().ok_or(Failure::NoDay)?;
        let market = Market::new(day.sheet, make_books(kinds));
        let [a, b, c, d] = market.places();
        day.market = Some(market);
        Ok(Answer::alone(format!("books {a} {b} {c} {d}")))
    }

    fn sheet(&mut self, closing_price: u32, last_number: u32) -> Result<Answer, Failure> {
        let Some(Day {
            form_sheet,
            market: Some(_),
            ..
        }) = &mut self.day
        else {
            return Err(Failure::NoMarket);
        };
        let sheet = DaySheet::write(closing_price, last_number)?;
        *form_sheet = sheet;
        Ok(sheet_answer("sheet", &sheet))
    }

    fn enter(
        &mut self,
        side: Side,
        price: u32,
        shares: u32,
        marks: Marks,
    ) -> Result<Answer, Failure> {
        let Some(Day {
            form_sheet,
            market: Some(market),
            ..
        }) = &mut self.day
        else {
            return Err(Failure::NoMarket);
        };
        let form = Form::write(form_sheet, side, price, shares, marks)?;
        let entered = market.enter(form, &mut self.list)?;
        Ok(Answer::with_trades(format!(
            "entered {} traded {} booked {} cancelled {} way {}",
            entered.number,
            entered.traded,
            entered.booked,
            entered.cancelled,
            entered.way.number()
        )))
    }

    fn market(&mut self) -> Result<&mut Market, Failure> {
        Ok(self.market_and_list()?.0)
    }

    fn market_and_list(&mut self) -> Result<(&mut Market, &mut TradeList), Failure> {
        let market = self.day.as_mut().and_then(|day| day.market.as_mut());
        Ok((market.ok_or(Failure::NoMarket)?, &mut self.list))
    }
}

pub fn malformed(out: &mut impl Write) -> io::Result<()> {
    writeln!(out, "malformed")
}

fn sheet_answer(word: &str, sheet: &DaySheet) -> Answer {
    Answer::alone(format!(
        "{word} {} {}",
        sheet.class.increment, sheet.class.unit
    ))
}

fn make_books([a, b, c, d]: [BookKind; 4]) -> Books {
    Books {
        displayed: BySide {
            bid: make_book(Side::Bid, a),
            ask: make_book(Side::Ask, b),
        },
        dark: BySide {
            bid: make_book(Side::Bid, c),
            ask: make_book(Side::Ask, d),
        },
    }
}

fn make_book(side: Side, kind: BookKind) -> Box<dyn Book> {
    match kind {
        BookKind::Packed => Box::new(PackedBook::new(side)),
        BookKind::Chained { records } => {
            Box::new(ChainedBook::new(side, vec![Record::default(); records]))
        }
    }
}
