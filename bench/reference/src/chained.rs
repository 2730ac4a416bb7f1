//! The chained book: a chain of records by priority, and a chain of the free ones.

use crate::book::{check_add, check_take, Book, Order};
use crate::refusal::Refusal;
use crate::side::Side;

const MOST_PLACES: usize = 4096;
/// Record 0 holds no order: both chains begin there, and an index of zero ends them.
const ANCHOR: usize = 0;

#[derive(Clone, Copy, Default)]
pub struct Record {
    order: Order,
    next: u16,
    next_free: u16,
}

pub struct ChainedBook {
    side: Side,
    records: Vec<Record>,
    count: usize,
}

impl ChainedBook {
    pub fn new(side: Side, records: Vec<Record>) -> ChainedBook {
        let mut book = ChainedBook {
            side,
            records,
            count: 0,
        };
        book.clear();
        book
    }

    fn front_record(&self) -> usize {
        self.records
            .first()
            .map_or(ANCHOR, |anchor| anchor.next.into())
    }

    fn orders(&self) -> Orders<'_> {
        Orders {
            records: &self.records,
            at: self.front_record(),
        }
    }

    /// The record after which an order at `price` belongs.
    fn spot_for(&self, price: u32) -> usize {
        let mut before = ANCHOR;
        loop {
            let at = usize::from(self.records[before].next);
            if at == ANCHOR || self.side.comes_first(price, self.records[at].order.price) {
                return before;
            }
            before = at;
        }
    }

    /// The record before the one with this order.
    fn spot_of(&self, number: u32) -> Option<usize> {
        let mut before = ANCHOR;
        let mut at = self.front_record();
        while at != ANCHOR {
            if self.records[at].order.number == number {
                return Some(before);
            }
            before = at;
            at = self.records[at].next.into();
        }
        None
    }

    /// Moves the first free record into the chain of orders.
    fn link_after(&mut self, before: usize, order: Order) {
        let free = self.records[ANCHOR].next_free;
        let at = usize::from(free);
        self.records[ANCHOR].next_free = self.records[at].next_free;
        let next = self.records[before].next;
        self.records[at] = Record {
            order,
            next,
            next_free: 0,
        };
        self.records[before].next = free;
        self.count += 1;
    }

    /// Moves the record after this one to the free chain.
    fn unlink_after(&mut self, before: usize) {
        let gone = self.records[before].next;
        let at = usize::from(gone);
        self.records[before].next = self.records[at].next;
        self.records[at].next_free = self.records[ANCHOR].next_free;
        self.records[ANCHOR].next_free = gone;
        self.count -= 1;
    }
}

impl Book for ChainedBook {
    fn clear(&mut self) {
        self.count = 0;
        let places = self.places();
        for (at, record) in self.records.iter_mut().take(places + 1).enumerate() {
            // A place is at most 4,096, so its index fits.
            let following = if at < places { (at + 1) as u16 } else { 0 };
            *record = Record {
                next_free: following,
                ..Record::default()
            };
        }
    }

    fn count(&self) -> usize {
        self.count
    }

    fn places(&self) -> usize {
        self.records.len().saturating_sub(1).min(MOST_PLACES)
    }

    fn front(&self) -> Option<Order> {
        self.orders().next().copied()
    }

    fn find(&self, number: u32) -> Option<Order> {
        self.orders().find(|order| order.number == number).copied()
    }

    fn shares_at(&self, price: u32) -> u64 {
        let at_price = self.orders().filter(|order| order.price == price);
        at_price.map(|order| u64::from(order.shares)).sum()
    }

    fn add(&mut self, order: Order) -> Result<(), Refusal> {
        check_add(self, order)?;
        let before = self.spot_for(order.price);
        self.link_after(before, order);
        Ok(())
    }

    fn take(&mut self, shares: u32) -> Result<(), Refusal> {
        check_take(self.front(), shares)?;
        let front = self.front_record();
        self.records[front].order.shares -= shares;
        if self.records[front].order.shares == 0 {
            self.unlink_after(ANCHOR);
        }
        Ok(())
    }

    fn remove(&mut self, number: u32) -> Result<u32, Refusal> {
        let before = self.spot_of(number).ok_or(Refusal::NotStanding)?;
        let at = usize::from(self.records[before].next);
        let shares = self.records[at].order.shares;
        self.unlink_after(before);
        Ok(shares)
    }
}

/// Walks the chain of orders from the front.
struct Orders<'a> {
    records: &'a [Record],
    at: usize,
}

impl<'a> Iterator for Orders<'a> {
    type Item = &'a Order;

    fn next(&mut self) -> Option<&'a Order> {
        if self.at == ANCHOR {
            return None;
        }
        let record = &self.records[self.at];
        self.at = record.next.into();
        Some(&record.order)
    }
}
