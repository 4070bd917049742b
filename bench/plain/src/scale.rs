//! Scales of cost: activation (satisfaction, then volume, then money) and netting (satisfaction alone).

use crate::bytes::i64_at;

/// A kind of cost. Values are compared level by level, which is how arrays are compared.
pub trait Scale {
    type Value: Copy + Ord;

    const LEVELS: usize;
    const BIDS_TAKE_PART: bool;
    const ZERO: Self::Value;
    const SATISFIED: Self::Value;

    fn up(price: i32) -> Self::Value;
    fn down(price: i32) -> Self::Value;
    fn plus(x: Self::Value, y: Self::Value) -> Self::Value;

    /// The price in these bytes, eight for each level, where it is in range.
    fn read_price(bytes: &[u8]) -> Option<Self::Value>;
}

const MOST_SATISFACTION: i64 = 8;
const MOST_VOLUME: i64 = 8;
const MOST_MONEY: i64 = 79_999_200;

fn within(level: i64, most: i64) -> bool {
    (-most..=most).contains(&level)
}

pub enum Netting {}

impl Scale for Netting {
    type Value = i64;

    const LEVELS: usize = 1;
    const BIDS_TAKE_PART: bool = false;
    const ZERO: i64 = 0;
    const SATISFIED: i64 = -1;

    fn up(_price: i32) -> i64 {
        0
    }

    fn down(_price: i32) -> i64 {
        0
    }

    fn plus(x: i64, y: i64) -> i64 {
        x + y
    }

    fn read_price(bytes: &[u8]) -> Option<i64> {
        let level = i64_at(bytes, 0);
        within(level, MOST_SATISFACTION).then_some(level)
    }
}

pub enum Activation {}

impl Scale for Activation {
    type Value = [i64; 3];

    const LEVELS: usize = 3;
    const BIDS_TAKE_PART: bool = true;
    const ZERO: [i64; 3] = [0, 0, 0];
    const SATISFIED: [i64; 3] = [-1, 0, 0];

    fn up(price: i32) -> [i64; 3] {
        [0, 1, price.into()]
    }

    fn down(price: i32) -> [i64; 3] {
        [0, 1, -i64::from(price)]
    }

    fn plus(x: [i64; 3], y: [i64; 3]) -> [i64; 3] {
        [x[0] + y[0], x[1] + y[1], x[2] + y[2]]
    }

    fn read_price(bytes: &[u8]) -> Option<[i64; 3]> {
        let price = [i64_at(bytes, 0), i64_at(bytes, 8), i64_at(bytes, 16)];
        let in_range =
            within(price[0], MOST_SATISFACTION) && within(price[1], MOST_VOLUME) && within(price[2], MOST_MONEY);
        in_range.then_some(price)
    }
}
