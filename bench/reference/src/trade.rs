//! Trade records and the list that a caller lends for them.

#[derive(Clone, Copy, Debug, PartialEq, Eq)]
pub struct Trade {
    pub active: u32,
    pub standing: u32,
    pub price: u32,
    pub shares: u32,
    pub dark: bool,
}

/// The lent list: how many records it has, and those that the last call wrote.
pub struct TradeList {
    records: usize,
    written: Vec<Trade>,
}

impl TradeList {
    pub fn lent(records: usize) -> TradeList {
        TradeList {
            records,
            written: Vec::new(),
        }
    }

    pub fn records(&self) -> usize {
        self.records
    }

    pub fn written(&self) -> &[Trade] {
        &self.written
    }

    pub fn start(&mut self) {
        self.written.clear();
    }

    pub fn write(&mut self, trade: Trade) {
        assert!(
            self.written.len() < self.records,
            "a call makes no more trades than orders stood"
        );
        self.written.push(trade);
    }
}
