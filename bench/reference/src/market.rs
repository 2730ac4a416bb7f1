//! One market for one day: its quotes, phases, calls and questions.

use crate::book::{Book, Books, Order};
use crate::form::{DaySheet, Form};
use crate::matching::{Floor, Way};
use crate::refusal::Refusal;
use crate::side::{BySide, Side};
use crate::trade::TradeList;

const MARKETPLACES: usize = 8;

#[derive(Clone, Copy, Debug, PartialEq, Eq)]
enum Phase {
    Open,
    Halted,
    Closed,
}

/// The answer to an accepted entry; its trades are in the list.
#[derive(Debug, PartialEq, Eq)]
pub struct Entered {
    pub number: u32,
    pub traded: u32,
    pub booked: u32,
    pub cancelled: u32,
    pub way: Way,
}

pub struct Market {
    sheet: DaySheet,
    books: Books,
    quotes: [BySide<Option<u32>>; MARKETPLACES],
    set_asides: u8,
    phase: Phase,
    issued: u32,
}

impl Market {
    pub fn new(sheet: DaySheet, mut books: Books) -> Market {
        books.clear();
        Market {
            sheet,
            books,
            quotes: Default::default(),
            set_asides: 0,
            phase: Phase::Open,
            issued: 0,
        }
    }

    pub fn enter(&mut self, form: Form, list: &mut TradeList) -> Result<Entered, Refusal> {
        self.check_entry(&form)?;
        self.check_list(list)?;
        list.start();
        self.issued += 1;
        let number = self.issued;
        let mut floor = self.floor();
        let open = floor.match_entry(&form, number, list);
        let way = floor.way(&form, open);
        if way == Way::Booked {
            self.book(&form, number, open);
        }
        self.look_over(list);
        let booked = if way == Way::Booked { open } else { 0 };
        Ok(Entered {
            number,
            traded: form.shares - open,
            booked,
            cancelled: open - booked,
            way,
        })
    }

    /// Answers the shares cancelled.
    pub fn cancel(&mut self, number: u32, list: &mut TradeList) -> Result<u32, Refusal> {
        self.check_not_closed()?;
        let list_check = self.check_list(list);
        let book = self.books.holding(number).ok_or(Refusal::NotStanding)?;
        list_check?;
        list.start();
        let shares = book.remove(number)?;
        self.look_over(list);
        Ok(shares)
    }

    /// Replaces what a marketplace quoted on a side.
    pub fn quote(
        &mut self,
        marketplace: u32,
        side: Side,
        price: Option<u32>,
        list: &mut TradeList,
    ) -> Result<(), Refusal> {
        self.check_not_closed()?;
        let index = self.check_marketplace(marketplace)?;
        if price.is_some_and(|price| !self.sheet.class.allows_price(price)) {
            return Err(Refusal::QuotePrice);
        }
        self.check_list(list)?;
        list.start();
        self.quotes[index][side] = price;
        self.look_over(list);
        Ok(())
    }

    /// Drops a marketplace's quotes for the day and answers how many are set aside.
    pub fn set_aside(&mut self, marketplace: u32, list: &mut TradeList) -> Result<u32, Refusal> {
        self.check_not_closed()?;
        let index = self.check_marketplace(marketplace)?;
        self.check_list(list)?;
        list.start();
        self.set_asides |= 1 << index;
        self.quotes[index] = BySide::default();
        self.look_over(list);
        Ok(self.set_asides.count_ones())
    }

    pub fn halt(&mut self) -> Result<(), Refusal> {
        match self.phase {
            Phase::Open => self.phase = Phase::Halted,
            Phase::Halted => return Err(Refusal::WrongPhase),
            Phase::Closed => return Err(Refusal::Closed),
        }
        Ok(())
    }

    pub fn resume(&mut self, list: &mut TradeList) -> Result<(), Refusal> {
        match self.phase {
            Phase::Open => return Err(Refusal::WrongPhase),
            Phase::Halted => self.check_list(list)?,
            Phase::Closed => return Err(Refusal::Closed),
        }
        list.start();
        self.phase = Phase::Open;
        self.look_over(list);
        Ok(())
    }

    pub fn close(&mut self) -> Result<(), Refusal> {
        self.check_not_closed()?;
        self.phase = Phase::Closed;
        Ok(())
    }

    pub fn best(&self, side: Side) -> Option<u32> {
        side.first_of(self.front(side), self.away_best(side))
    }

    pub fn front(&self, side: Side) -> Option<u32> {
        self.books.displayed[side].front().map(|order| order.price)
    }

    pub fn shares_at(&self, side: Side, price: u32) -> u64 {
        self.books.displayed[side].shares_at(price)
    }

    pub fn open_shares(&self, number: u32) -> Option<u32> {
        self.books.find(number).map(|order| order.shares)
    }

    /// The places of displayed bids, displayed asks, dark bids and dark asks.
    pub fn places(&self) -> [usize; 4] {
        self.books.all().map(Book::places)
    }

    fn check_not_closed(&self) -> Result<(), Refusal> {
        match self.phase {
            Phase::Closed => Err(Refusal::Closed),
            Phase::Open | Phase::Halted => Ok(()),
        }
    }

    fn check_entry(&self, form: &Form) -> Result<(), Refusal> {
        self.check_not_closed()?;
        if self.phase == Phase::Halted {
            return Err(Refusal::Halted);
        }
        if form.class != self.sheet.class {
            return Err(Refusal::OtherClass);
        }
        if self.issued == self.sheet.last_number {
            return Err(Refusal::NumbersUsedUp);
        }
        let own_book = self.books.kept_for(form.side, form.is_displayed());
        if own_book.is_full() && !form.marks.immediate {
            return Err(Refusal::BookFull);
        }
        Ok(())
    }

    /// Answers where the quotes of a marketplace that still counts are kept.
    fn check_marketplace(&self, marketplace: u32) -> Result<usize, Refusal> {
        if !(1..=MARKETPLACES as u32).contains(&marketplace) {
            return Err(Refusal::UnknownMarketplace);
        }
        let index = marketplace as usize - 1;
        if self.set_asides & (1 << index) != 0 {
            return Err(Refusal::SetAside);
        }
        Ok(index)
    }

    fn check_list(&self, list: &TradeList) -> Result<(), Refusal> {
        if list.records() < self.books.count() {
            return Err(Refusal::ShortList);
        }
        Ok(())
    }

    fn away_best(&self, side: Side) -> Option<u32> {
        // The quotes of a marketplace that is set aside are gone, and none come after.
        self.quotes
            .iter()
            .fold(None, |best, quote| side.first_of(best, quote[side]))
    }

    fn floor(&mut self) -> Floor<'_> {
        let away = BySide {
            bid: self.away_best(Side::Bid),
            ask: self.away_best(Side::Ask),
        };
        Floor {
            away,
            increment: self.sheet.class.increment,
            books: &mut self.books,
        }
    }

    fn book(&mut self, form: &Form, number: u32, shares: u32) {
        let order = Order {
            number,
            price: form.bound(),
            shares,
        };
        let book = self.books.kept_for_mut(form.side, form.is_displayed());
        book.add(order)
            .expect("the book had a free place before matching");
    }

    fn look_over(&mut self, list: &mut TradeList) {
        if self.phase == Phase::Open {
            self.floor().look_over(list);
        }
    }
}
