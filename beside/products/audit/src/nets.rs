//! The nets of a strategy: "Net = sum of ratio × price over buy legs, less that over
//! sell legs".

use crate::frames::Leg;

/// The sides of prices and of nets: a bid is the price of a buy, an offer that of a
/// sell.
pub const BID: i64 = 0;
pub const OFFER: i64 = 1;

/// The bid or the offer net of a strategy with these legs, where `price` is that of
/// a series and side: "Offer net takes offers for buy legs, bids for sell legs; bid
/// net the reverse; unknown if a price is missing."
pub fn net(legs: &[Leg], of: i64, price: impl Fn(i64, i64) -> Option<i64>) -> Option<i64> {
    let mut net = 0;
    for leg in legs {
        if leg.side == 0 {
            net += leg.ratio * price(leg.series, of)?;
        } else {
            net -= leg.ratio * price(leg.series, BID + OFFER - of)?;
        }
    }
    Some(net)
}
