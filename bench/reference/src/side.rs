//! The two sides of the market.

use std::ops::{Index, IndexMut};

/// Bids are the side of the buys, asks that of the sales.
#[derive(Clone, Copy, Debug, PartialEq, Eq)]
pub enum Side {
    Bid,
    Ask,
}

impl Side {
    pub fn opposite(self) -> Side {
        match self {
            Side::Bid => Side::Ask,
            Side::Ask => Side::Bid,
        }
    }

    /// Of two prices on this side, does `price` come first?
    pub fn comes_first(self, price: u32, other: u32) -> bool {
        match self {
            Side::Bid => price > other,
            Side::Ask => price < other,
        }
    }

    /// Does a price that stands on this side satisfy an opposing order that goes no further than `bound`?
    pub fn reaches(self, price: u32, bound: u32) -> bool {
        !self.comes_first(bound, price)
    }

    /// Is `price` ahead of `best` by at least `improvement`? Only sums: asks may lie below bids.
    pub fn improves(self, price: u32, best: u32, improvement: u32) -> bool {
        match self {
            Side::Bid => price >= best + improvement,
            Side::Ask => price + improvement <= best,
        }
    }

    /// The one of two prices that comes first, where either may be absent.
    pub fn first_of(self, a: Option<u32>, b: Option<u32>) -> Option<u32> {
        match (a, b) {
            (Some(a), Some(b)) if self.comes_first(b, a) => Some(b),
            (Some(a), _) => Some(a),
            (None, b) => b,
        }
    }
}

/// One thing for each side.
#[derive(Clone, Copy, Debug, Default)]
pub struct BySide<T> {
    pub bid: T,
    pub ask: T,
}

impl<T> Index<Side> for BySide<T> {
    type Output = T;

    fn index(&self, side: Side) -> &T {
        match side {
            Side::Bid => &self.bid,
            Side::Ask => &self.ask,
        }
    }
}

impl<T> IndexMut<Side> for BySide<T> {
    fn index_mut(&mut self, side: Side) -> &mut T {
        match side {
            Side::Bid => &mut self.bid,
            Side::Ask => &mut self.ask,
        }
    }
}
