//! What every kind of book can do, and the four books of a market.

use crate::form::MOST_SHARES;
use crate::refusal::Refusal;
use crate::side::{BySide, Side};

/// A standing order.
#[derive(Clone, Copy, Debug, Default, PartialEq, Eq)]
pub struct Order {
    pub number: u32,
    pub price: u32,
    pub shares: u32,
}

/// A list of standing orders by the priority of the book's side, equal prices by arrival.
pub trait Book {
    fn clear(&mut self);
    fn count(&self) -> usize;
    fn places(&self) -> usize;
    fn front(&self) -> Option<Order>;
    fn find(&self, number: u32) -> Option<Order>;
    fn shares_at(&self, price: u32) -> u64;
    fn add(&mut self, order: Order) -> Result<(), Refusal>;
    /// Lowers the open shares of the front order; at zero the order goes.
    fn take(&mut self, shares: u32) -> Result<(), Refusal>;
    /// Takes an order out and answers its open shares.
    fn remove(&mut self, number: u32) -> Result<u32, Refusal>;

    fn is_full(&self) -> bool {
        self.count() == self.places()
    }
}

/// The checks that come before any add.
pub fn check_add(book: &impl Book, order: Order) -> Result<(), Refusal> {
    let unfit = order.number == 0
        || order.price == 0
        || !(1..=MOST_SHARES).contains(&order.shares)
        || book.find(order.number).is_some();
    if unfit {
        Err(Refusal::UnfitOrder)
    } else if book.is_full() {
        Err(Refusal::NoPlace)
    } else {
        Ok(())
    }
}

/// The check that comes before any take.
pub fn check_take(front: Option<Order>, shares: u32) -> Result<(), Refusal> {
    match front {
        Some(order) if (1..=order.shares).contains(&shares) => Ok(()),
        _ => Err(Refusal::UnfitTake),
    }
}

/// The four books of a market.
pub struct Books {
    pub displayed: BySide<Box<dyn Book>>,
    pub dark: BySide<Box<dyn Book>>,
}

impl Books {
    pub fn all(&self) -> [&dyn Book; 4] {
        [
            &*self.displayed.bid,
            &*self.displayed.ask,
            &*self.dark.bid,
            &*self.dark.ask,
        ]
    }

    fn all_mut(&mut self) -> [&mut dyn Book; 4] {
        let Books { displayed, dark } = self;
        [
            &mut *displayed.bid,
            &mut *displayed.ask,
            &mut *dark.bid,
            &mut *dark.ask,
        ]
    }

    pub fn clear(&mut self) {
        self.all_mut().into_iter().for_each(Book::clear);
    }

    pub fn kept_for(&self, side: Side, displayed: bool) -> &dyn Book {
        if displayed {
            &*self.displayed[side]
        } else {
            &*self.dark[side]
        }
    }

    pub fn kept_for_mut(&mut self, side: Side, displayed: bool) -> &mut dyn Book {
        if displayed {
            &mut *self.displayed[side]
        } else {
            &mut *self.dark[side]
        }
    }

    pub fn count(&self) -> usize {
        self.all().iter().map(|book| book.count()).sum()
    }

    pub fn find(&self, number: u32) -> Option<Order> {
        self.all().iter().find_map(|book| book.find(number))
    }

    /// The one of the four books in which an order stands.
    pub fn holding(&mut self, number: u32) -> Option<&mut dyn Book> {
        self.all_mut()
            .into_iter()
            .find(|book| book.find(number).is_some())
    }
}

/// What a market never asks of a book, and so no rehearsal shows.
#[cfg(test)]
mod tests {
    use super::*;
    use crate::chained::{ChainedBook, Record};
    use crate::packed::PackedBook;

    fn order(number: u32, price: u32, shares: u32) -> Order {
        Order {
            number,
            price,
            shares,
        }
    }

    fn books(side: Side) -> [Box<dyn Book>; 2] {
        let records = vec![Record::default(); 33];
        [
            Box::new(PackedBook::new(side)),
            Box::new(ChainedBook::new(side, records)),
        ]
    }

    #[test]
    fn unfit_orders_are_refused() {
        for mut book in books(Side::Bid) {
            assert_eq!(book.add(order(1, 4000, MOST_SHARES)), Ok(()));
            for unfit in [
                order(0, 4000, 100),
                order(2, 0, 100),
                order(2, 4000, 0),
                order(2, 4000, MOST_SHARES + 1),
                order(1, 3996, 100),
            ] {
                assert_eq!(book.add(unfit), Err(Refusal::UnfitOrder));
            }
            assert_eq!(book.count(), 1);
        }
    }

    #[test]
    fn a_full_book_refuses_and_an_unfit_order_goes_first() {
        for mut book in books(Side::Ask) {
            for number in 1..=32 {
                assert_eq!(book.add(order(number, 4000, 100)), Ok(()));
            }
            assert_eq!(book.add(order(33, 4000, 100)), Err(Refusal::NoPlace));
            assert_eq!(book.add(order(32, 4000, 100)), Err(Refusal::UnfitOrder));
            assert_eq!(book.places(), 32);
        }
    }

    #[test]
    fn takes_stay_within_the_front_order() {
        for mut book in books(Side::Ask) {
            assert_eq!(book.take(1), Err(Refusal::UnfitTake));
            assert_eq!(book.add(order(1, 4004, 900)), Ok(()));
            assert_eq!(book.add(order(2, 4000, 200)), Ok(()));
            assert_eq!(book.take(0), Err(Refusal::UnfitTake));
            assert_eq!(book.take(201), Err(Refusal::UnfitTake));
            assert_eq!(book.take(200), Ok(()));
            assert_eq!(book.front(), Some(order(1, 4004, 900)));
            assert_eq!(book.remove(2), Err(Refusal::NotStanding));
            assert_eq!(book.remove(1), Ok(900));
            assert_eq!(book.front(), None);
        }
    }

    #[test]
    fn orders_leave_by_price_and_then_by_arrival() {
        for mut book in books(Side::Bid) {
            for (number, price) in [(1, 3996), (2, 4000), (3, 3996), (4, 4004), (5, 4000)] {
                assert_eq!(book.add(order(number, price, 100)), Ok(()));
            }
            let mut left = Vec::new();
            while let Some(front) = book.front() {
                left.push(front.number);
                assert_eq!(book.take(front.shares), Ok(()));
            }
            assert_eq!(left, [4, 2, 5, 1, 3]);
        }
    }

    #[test]
    fn without_records_there_is_no_place() {
        let mut book = ChainedBook::new(Side::Bid, Vec::new());
        assert_eq!(book.places(), 0);
        assert_eq!(book.front(), None);
        assert_eq!(book.add(order(1, 4000, 100)), Err(Refusal::NoPlace));
        assert_eq!(book.remove(1), Err(Refusal::NotStanding));
    }
}
