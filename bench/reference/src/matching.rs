//! Matching an entry and looking over the books, each written once for both sides.

use crate::book::{Books, Order};
use crate::form::Form;
use crate::side::{BySide, Side};
use crate::trade::{Trade, TradeList};

/// The best prices at one moment, ours and the quotes of other marketplaces.
#[derive(Clone, Copy)]
struct BestPrices {
    best: BySide<Option<u32>>,
    increment: u32,
}

impl BestPrices {
    /// Half an increment only where the spread is one increment exactly.
    fn improvement(&self) -> u32 {
        match (self.best.bid, self.best.ask) {
            (Some(bid), Some(ask)) if ask == bid + self.increment => self.increment / 2,
            _ => self.increment,
        }
    }

    /// Is a price that stands on `side` a better price for the order that trades with it?
    fn is_better(&self, side: Side, price: u32) -> bool {
        self.best[side].is_none_or(|best| side.improves(price, best, self.improvement()))
    }

    /// Is a price that stands on `side` the best price there, or ahead of it?
    fn is_best(&self, side: Side, price: u32) -> bool {
        self.best[side].is_none_or(|best| side.reaches(price, best))
    }
}

/// What the rest of an entry comes to; the discriminant is the number of the way.
#[derive(Clone, Copy, Debug, PartialEq, Eq)]
#[repr(u8)]
pub enum Way {
    Filled = 1,
    Booked = 2,
    Immediate = 3,
    AwayBest = 4,
    OwnFront = 5,
}

impl Way {
    pub fn number(self) -> u8 {
        self as u8
    }
}

/// The books, with the quotes that stay as they are for the length of a call.
pub struct Floor<'a> {
    pub books: &'a mut Books,
    pub away: BySide<Option<u32>>,
    pub increment: u32,
}

impl Floor<'_> {
    /// Trades an entry with the standing orders of the other side and answers what is left open.
    pub fn match_entry(&mut self, form: &Form, number: u32, list: &mut TradeList) -> u32 {
        let side = form.side.opposite();
        let mut open = form.shares;
        while open > 0 {
            let Some((standing, dark)) = self.candidate(form) else {
                break;
            };
            let shares = open.min(standing.shares);
            self.take(side, !dark, shares);
            open -= shares;
            list.write(Trade {
                active: number,
                standing: standing.number,
                price: standing.price,
                shares,
                dark,
            });
        }
        open
    }

    /// The order that an entry trades with next, and whether it is dark.
    fn candidate(&self, form: &Form) -> Option<(Order, bool)> {
        let side = form.side.opposite();
        match (self.displayed_candidate(form), self.dark_candidate(form)) {
            (Some(displayed), Some(dark)) if side.comes_first(dark.price, displayed.price) => {
                Some((dark, true))
            }
            (Some(displayed), _) => Some((displayed, false)),
            (None, dark) => dark.map(|dark| (dark, true)),
        }
    }

    fn displayed_candidate(&self, form: &Form) -> Option<Order> {
        let side = form.side.opposite();
        let spares_away = |price| self.away[side].is_none_or(|away| side.reaches(price, away));
        self.books.displayed[side].front().filter(|order| {
            side.reaches(order.price, form.bound())
                && (form.marks.directed || spares_away(order.price))
        })
    }

    fn dark_candidate(&self, form: &Form) -> Option<Order> {
        let side = form.side.opposite();
        let prices = self.best_prices();
        self.books.dark[side].front().filter(|order| {
            side.reaches(order.price, form.bound())
                && if form.is_large() {
                    prices.is_best(side, order.price)
                } else {
                    prices.is_better(side, order.price)
                }
        })
    }

    /// The way in which an entry with `open` shares left ends.
    pub fn way(&self, form: &Form, open: u32) -> Way {
        let side = form.side.opposite();
        let meets =
            |price: Option<u32>| price.is_some_and(|price| side.reaches(price, form.bound()));
        if open == 0 {
            Way::Filled
        } else if form.marks.immediate {
            Way::Immediate
        } else if !form.marks.directed && meets(self.away[side]) {
            Way::AwayBest
        } else if form.is_displayed() && meets(self.front_price(side)) {
            Way::OwnFront
        } else {
            Way::Booked
        }
    }

    /// Trades displayed orders with the dark ones against them until no pair is left.
    pub fn look_over(&mut self, list: &mut TradeList) {
        // A sale pair has its dark order among the bids, and goes before a purchase pair.
        while let Some((side, displayed, dark)) =
            self.pair(Side::Bid).or_else(|| self.pair(Side::Ask))
        {
            let shares = displayed.shares.min(dark.shares);
            self.take(side.opposite(), true, shares);
            self.take(side, false, shares);
            list.write(Trade {
                active: displayed.number,
                standing: dark.number,
                price: dark.price,
                shares,
                dark: true,
            });
        }
    }

    /// The pair of a dark order on `side` and the displayed order against it, if they are to trade.
    fn pair(&self, side: Side) -> Option<(Side, Order, Order)> {
        let displayed = self.books.displayed[side.opposite()].front()?;
        let dark = self.books.dark[side].front()?;
        let trades = side.reaches(dark.price, displayed.price)
            && self.best_prices().is_better(side, dark.price);
        trades.then_some((side, displayed, dark))
    }

    fn best_prices(&self) -> BestPrices {
        let best = BySide {
            bid: self.best(Side::Bid),
            ask: self.best(Side::Ask),
        };
        BestPrices {
            best,
            increment: self.increment,
        }
    }

    fn best(&self, side: Side) -> Option<u32> {
        side.first_of(self.front_price(side), self.away[side])
    }

    fn front_price(&self, side: Side) -> Option<u32> {
        self.books.displayed[side].front().map(|order| order.price)
    }

    fn take(&mut self, side: Side, displayed: bool, shares: u32) {
        let book = self.books.kept_for_mut(side, displayed);
        book.take(shares)
            .expect("no more is traded than the front order has open");
    }
}
