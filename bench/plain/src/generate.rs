//! Cases with a proposal that the activation scale takes, the same for the same seed.
//!
//! Prices come first. Each flow and each activated amount is then what the prices ask: full, none, or anything where
//! they leave it open. The demands are what balances, and all of it is satisfied, but for areas at the one price at
//! which a demand may stay open.

use crate::checker::{MOST_AREAS, MOST_BIDS, MOST_BORDERS, MOST_POWER};

/// How many areas, borders and bids.
#[derive(Clone, Copy, PartialEq, Eq, Debug)]
pub struct Size {
    pub areas: usize,
    pub borders: usize,
    pub bids: usize,
}

impl Size {
    /// The largest case.
    pub const FULL: Size = Size { areas: MOST_AREAS, borders: MOST_BORDERS, bids: MOST_BIDS };

    /// Each count times part / whole, rounded down.
    pub fn fraction(self, part: usize, whole: usize) -> Size {
        let of = |count: usize| count * part / whole;
        Size { areas: of(self.areas), borders: of(self.borders), bids: of(self.bids) }
    }

    /// Borders need two areas, and bids one.
    fn possible(self) -> Size {
        Size {
            borders: if self.areas < 2 { 0 } else { self.borders },
            bids: if self.areas < 1 { 0 } else { self.bids },
            ..self
        }
    }
}

/// Numbers from a seed (splitmix64).
struct Draw(u64);

impl Draw {
    fn next(&mut self) -> u64 {
        self.0 = self.0.wrapping_add(0x9e37_79b9_7f4a_7c15);
        let mut z = self.0;
        z = (z ^ (z >> 30)).wrapping_mul(0xbf58_476d_1ce4_e5b9);
        z = (z ^ (z >> 27)).wrapping_mul(0x94d0_49bb_1331_11eb);
        z ^ (z >> 31)
    }

    /// A number from least to most.
    fn within(&mut self, least: i64, most: i64) -> i64 {
        least + (self.next() % (most - least + 1) as u64) as i64
    }

    fn below(&mut self, count: usize) -> usize {
        (self.next() % count as u64) as usize
    }

    fn one_of<T: Copy>(&mut self, choices: &[T]) -> T {
        choices[self.below(choices.len())]
    }

    /// A price at which every demand may be satisfied in full. Several areas share one, so that borders are left open.
    fn price(&mut self, common: &[i64]) -> [i64; 3] {
        match self.below(10) {
            0..=3 => [0, 1, self.one_of(common)],
            4..=7 => [0, -1, self.one_of(common)],
            8 => [0, 0, self.within(-10_000, 10_000)],
            _ => self.one_of(&[[1, 0, 0], [-1, 0, 0]]),
        }
    }

    /// The upper limit where more would gain, the lower where it would not, and anything between where it is even.
    fn amount(&mut self, lower: i64, upper: i64, left: [i64; 3], right: [i64; 3]) -> i64 {
        match left.cmp(&right) {
            std::cmp::Ordering::Less => upper,
            std::cmp::Ordering::Greater => lower,
            std::cmp::Ordering::Equal => self.within(lower, upper),
        }
    }
}

/// A case of this size and a proposal for it, as bytes. Borders are left out where there are fewer than two areas, and
/// bids where there is none. The counts must be within the bounds of a case.
pub fn generate(seed: u64, size: Size) -> (Vec<u8>, Vec<u8>) {
    let Size { areas, borders, bids } = size.possible();
    let mut draw = Draw(seed);
    // so small that no demand can pass its range
    let most = MOST_POWER / (borders + bids + 1) as i64;
    let most = most.min(1_000_000);
    let common: Vec<i64> = (0..areas / 6 + 1).map(|_| draw.within(0, 9_999)).collect();
    let prices: Vec<[i64; 3]> = (0..areas).map(|_| draw.price(&common)).collect();
    let mut net = vec![0i64; areas];

    let (mut border_table, mut flows) = (Vec::new(), Vec::new());
    for _ in 0..borders {
        let from = draw.below(areas);
        let to = (from + 1 + draw.below(areas - 1)) % areas;
        let (forward, backward) = (draw.within(0, most), draw.within(0, most));
        let flow = draw.amount(-backward, forward, prices[from], prices[to]);
        net[from] -= flow;
        net[to] += flow;
        border_table.extend((from as u16).to_le_bytes());
        border_table.extend((to as u16).to_le_bytes());
        border_table.extend((forward as u32).to_le_bytes());
        border_table.extend((backward as u32).to_le_bytes());
        flows.extend((flow as i32).to_le_bytes());
    }

    let (mut bid_table, mut activated) = (Vec::new(), Vec::new());
    for _ in 0..bids {
        let area = draw.below(areas);
        let down = draw.below(2) == 1;
        let volume = draw.within(0, most);
        let near = prices[area][2];
        let price = if draw.below(3) == 0 { near } else { draw.within(near - 2_000, near + 2_000) };
        let p = prices[area];
        let amount = if down {
            draw.amount(0, volume, [p[0], p[1] + 1, p[2] - price], [0, 0, 0])
        } else {
            draw.amount(0, volume, [0, 1, price], p)
        };
        net[area] += if down { -amount } else { amount };
        bid_table.extend((area as u16).to_le_bytes());
        bid_table.extend(u16::from(down).to_le_bytes());
        bid_table.extend((volume as u32).to_le_bytes());
        bid_table.extend((price as i32).to_le_bytes());
        activated.extend((amount as u32).to_le_bytes());
    }

    let (mut demands, mut satisfied) = (Vec::new(), Vec::new());
    for (area, &met) in net.iter().enumerate() {
        let open = match prices[area] {
            [1, 0, 0] if met >= 0 => draw.within(0, most),
            [-1, 0, 0] if met <= 0 => -draw.within(0, most),
            _ => 0,
        };
        demands.extend(((met + open) as i32).to_le_bytes());
        satisfied.extend((met as i32).to_le_bytes());
    }
    let prices: Vec<u8> = prices.iter().flatten().flat_map(|level| level.to_le_bytes()).collect();

    let case = file(1, &[(areas, &demands), (borders, &border_table), (bids, &bid_table)]);
    let proposal = file(2, &[(areas, &satisfied), (borders, &flows), (bids, &activated), (3, &prices)]);
    (case, proposal)
}

/// The header and the tables, each with its count.
fn file(kind: u32, tables: &[(usize, &Vec<u8>)]) -> Vec<u8> {
    let mut bytes = kind.to_le_bytes().to_vec();
    let mut offset = 4 + 8 * tables.len();
    for (count, table) in tables {
        bytes.extend((*count as u32).to_le_bytes());
        bytes.extend((offset as u32).to_le_bytes());
        offset += table.len();
    }
    for (_, table) in tables {
        bytes.extend_from_slice(table);
    }
    bytes
}
