//! Document 01, "Records".

/// "Six signed 32-bit numbers each: kind, order number, place, side, quantity,
/// price."
#[derive(Clone, Copy, Debug, PartialEq, Eq)]
pub struct Record {
    pub kind: i32,
    pub number: i32,
    pub place: i32,
    pub side: i32,
    pub quantity: i32,
    pub price: i32,
}

/// "1 whole fill (place strategy, units, net)".
pub const WHOLE_FILL: i32 = 1;
/// "2 leg fill (place series, contracts, price; price 0 where whole met
/// whole)".
pub const LEG_FILL: i32 = 2;
/// "3 cancelled (place 0, quantity, price 0)".
pub const CANCELLED: i32 = 3;
/// "4 auction begun (strategy, units, limit)".
pub const AUCTION_BEGUN: i32 = 4;
/// "5 auction ended (starter's number, strategy, then zeros)".
pub const AUCTION_ENDED: i32 = 5;

impl Record {
    /// A record from its six numbers.
    pub fn new(kind: i32, number: u32, place: u8, side: u8, quantity: u32, price: i64) -> Record {
        Record {
            kind,
            number: number as i32,
            place: i32::from(place),
            side: i32::from(side),
            quantity: quantity as i32,
            price: i32::try_from(price).expect("a price is within 32 bits"),
        }
    }

    /// "3 cancelled (place 0, quantity, price 0)"; the side is the order's own.
    pub fn cancelled(number: u32, side: u8, quantity: u32) -> Record {
        Record::new(CANCELLED, number, 0, side, quantity, 0)
    }

    /// "5 auction ended (starter's number, strategy, then zeros)".
    pub fn auction_ended(starter: u32, strategy: u8) -> Record {
        Record::new(AUCTION_ENDED, starter, strategy, 0, 0, 0)
    }

    /// The six numbers in their order.
    pub fn numbers(&self) -> [i32; 6] {
        [
            self.kind,
            self.number,
            self.place,
            self.side,
            self.quantity,
            self.price,
        ]
    }
}
