//! The packed book: orders by arrival, priority worked out when asked.

use crate::book::{check_add, check_take, Book, Order};
use crate::refusal::Refusal;
use crate::side::Side;

const PLACES: usize = 32;

pub struct PackedBook {
    side: Side,
    arrivals: [Order; PLACES],
    count: usize,
}

impl PackedBook {
    pub fn new(side: Side) -> PackedBook {
        PackedBook {
            side,
            arrivals: [Order::default(); PLACES],
            count: 0,
        }
    }

    fn orders(&self) -> &[Order] {
        &self.arrivals[..self.count]
    }

    /// The place of the front order: the first arrival that no other order comes ahead of.
    fn front_place(&self) -> Option<usize> {
        let orders = self.orders();
        let mut places = 0..orders.len();
        let first = places.next()?;
        Some(places.fold(first, |front, place| {
            if self
                .side
                .comes_first(orders[place].price, orders[front].price)
            {
                place
            } else {
                front
            }
        }))
    }

    fn place_of(&self, number: u32) -> Option<usize> {
        self.orders()
            .iter()
            .position(|order| order.number == number)
    }

    fn close_up(&mut self, place: usize) {
        self.arrivals.copy_within(place + 1..self.count, place);
        self.count -= 1;
    }
}

impl Book for PackedBook {
    fn clear(&mut self) {
        self.count = 0;
    }

    fn count(&self) -> usize {
        self.count
    }

    fn places(&self) -> usize {
        PLACES
    }

    fn front(&self) -> Option<Order> {
        self.front_place().map(|place| self.arrivals[place])
    }

    fn find(&self, number: u32) -> Option<Order> {
        self.place_of(number).map(|place| self.arrivals[place])
    }

    fn shares_at(&self, price: u32) -> u64 {
        let at_price = self.orders().iter().filter(|order| order.price == price);
        at_price.map(|order| u64::from(order.shares)).sum()
    }

    fn add(&mut self, order: Order) -> Result<(), Refusal> {
        check_add(self, order)?;
        self.arrivals[self.count] = order;
        self.count += 1;
        Ok(())
    }

    fn take(&mut self, shares: u32) -> Result<(), Refusal> {
        check_take(self.front(), shares)?;
        let place = self.front_place().ok_or(Refusal::UnfitTake)?;
        self.arrivals[place].shares -= shares;
        if self.arrivals[place].shares == 0 {
            self.close_up(place);
        }
        Ok(())
    }

    fn remove(&mut self, number: u32) -> Result<u32, Refusal> {
        let place = self.place_of(number).ok_or(Refusal::NotStanding)?;
        let shares = self.arrivals[place].shares;
        self.close_up(place);
        Ok(shares)
    }
}
