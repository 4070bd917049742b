//! A case and what stands for it. Memory is reserved once; loading and submitting allocate nothing.

use crate::bytes::{ask, ask_header, ask_tables, count, i32_at, u16_at, u32_at};
use crate::{Refusal, Scale};
use std::cmp::Ordering;
use std::marker::PhantomData;

pub const MOST_AREAS: usize = 48;
pub const MOST_BORDERS: usize = 128;
pub const MOST_BIDS: usize = 1024;
pub const MOST_POWER: i64 = 20_000_000;
pub const MOST_VOLUME: i64 = 9_999_000;
pub const MOST_BID_PRICE: i64 = 9_999_900;

#[derive(Clone, Copy, PartialEq, Eq, Debug)]
pub enum Direction {
    Up,
    Down,
}

#[derive(Clone, Copy, PartialEq, Eq, Debug)]
pub struct Border {
    pub from: u16,
    pub to: u16,
    pub forward: u32,
    pub backward: u32,
}

#[derive(Clone, Copy, PartialEq, Eq, Debug)]
pub struct Bid {
    pub area: u16,
    pub direction: Direction,
    pub volume: u32,
    pub price: i32,
}

impl Border {
    fn read(bytes: &[u8]) -> Self {
        Border { from: u16_at(bytes, 0), to: u16_at(bytes, 2), forward: u32_at(bytes, 4), backward: u32_at(bytes, 8) }
    }
}

impl Bid {
    fn read(bytes: &[u8]) -> Self {
        let direction = if u16_at(bytes, 2) == 0 { Direction::Up } else { Direction::Down };
        Bid { area: u16_at(bytes, 0), direction, volume: u32_at(bytes, 4), price: i32_at(bytes, 8) }
    }
}

/// A cycle on one scale: its case, and the selection that stands, if one does.
pub struct Checker<S> {
    pub(crate) demands: Vec<i32>,
    pub(crate) borders: Vec<Border>,
    pub(crate) bids: Vec<Bid>,
    pub(crate) satisfied: Vec<i32>,
    pub(crate) flows: Vec<i32>,
    pub(crate) activated: Vec<u32>,
    pub(crate) stands: bool,
    scale: PhantomData<S>,
}

impl<S: Scale> Default for Checker<S> {
    fn default() -> Self {
        Self::new()
    }
}

impl<S: Scale> Checker<S> {
    /// The empty case, with room for every other.
    pub fn new() -> Self {
        Checker {
            demands: Vec::with_capacity(MOST_AREAS),
            borders: Vec::with_capacity(MOST_BORDERS),
            bids: Vec::with_capacity(MOST_BIDS),
            satisfied: Vec::with_capacity(MOST_AREAS),
            flows: Vec::with_capacity(MOST_BORDERS),
            activated: Vec::with_capacity(MOST_BIDS),
            stands: false,
            scale: PhantomData,
        }
    }

    /// Questions 1 to 9; then the case is the one in the bytes, and nothing stands.
    pub fn load(&mut self, bytes: &[u8]) -> Result<(), Refusal> {
        ask_header(bytes, 7, 1)?;
        let (areas, borders, bids) = (count(bytes, 1), count(bytes, 3), count(bytes, 5));
        if areas > MOST_AREAS {
            return Err(Refusal::new(3, 1));
        }
        if borders > MOST_BORDERS {
            return Err(Refusal::new(3, 3));
        }
        if bids > MOST_BIDS || (bids > 0 && !S::BIDS_TAKE_PART) {
            return Err(Refusal::new(3, 5));
        }
        let [demand_table, border_table, bid_table] = ask_tables(bytes, [4 * areas, 12 * borders, 12 * bids])?;

        let demands = || demand_table.chunks_exact(4).map(|record| i32_at(record, 0));
        let borders = || border_table.chunks_exact(12).map(Border::read);
        let bid_records = || bid_table.chunks_exact(12);
        ask(5, demands().map(|demand| (-MOST_POWER..=MOST_POWER).contains(&demand.into())))?;
        ask(6, borders().map(|b| usize::from(b.from) < areas && usize::from(b.to) < areas && b.from != b.to))?;
        ask(7, borders().map(|b| i64::from(b.forward) <= MOST_POWER && i64::from(b.backward) <= MOST_POWER))?;
        ask(8, bid_records().map(|record| usize::from(u16_at(record, 0)) < areas && u16_at(record, 2) <= 1))?;
        ask(
            9,
            bid_records().map(Bid::read).map(|bid| {
                i64::from(bid.volume) <= MOST_VOLUME && (-MOST_BID_PRICE..=MOST_BID_PRICE).contains(&bid.price.into())
            }),
        )?;

        self.stands = false;
        self.demands.clear();
        self.demands.extend(demands());
        self.borders.clear();
        self.borders.extend(borders());
        self.bids.clear();
        self.bids.extend(bid_records().map(Bid::read));
        Ok(())
    }

    /// Questions 1 to 4 and 10 to 17; then the selection in the bytes stands.
    pub fn submit(&mut self, bytes: &[u8]) -> Result<(), Refusal> {
        ask_header(bytes, 9, 2)?;
        let counts = [self.demands.len(), self.borders.len(), self.bids.len(), S::LEVELS];
        for (i, expected) in counts.into_iter().enumerate() {
            if count(bytes, 2 * i + 1) != expected {
                return Err(Refusal::new(3, 2 * i + 1));
            }
        }
        let [areas, borders, bids, levels] = counts;
        let [satisfied_table, flow_table, activated_table, price_table] =
            ask_tables(bytes, [4 * areas, 4 * borders, 4 * bids, 8 * levels * areas])?;

        let satisfied = || satisfied_table.chunks_exact(4).map(|record| i32_at(record, 0));
        let flows = || flow_table.chunks_exact(4).map(|record| i32_at(record, 0));
        let activated = || activated_table.chunks_exact(4).map(|record| u32_at(record, 0));

        ask(10, self.demands.iter().zip(satisfied()).map(|(&demand, x)| demand.min(0) <= x && x <= demand.max(0)))?;
        ask(
            11,
            self.borders
                .iter()
                .zip(flows())
                .map(|(border, x)| -i64::from(border.backward) <= x.into() && i64::from(x) <= border.forward.into()),
        )?;
        ask(12, self.bids.iter().zip(activated()).map(|(bid, x)| x <= bid.volume))?;
        let mut net = [0i64; MOST_AREAS];
        for (bid, x) in self.bids.iter().zip(activated()) {
            match bid.direction {
                Direction::Up => net[usize::from(bid.area)] += i64::from(x),
                Direction::Down => net[usize::from(bid.area)] -= i64::from(x),
            }
        }
        for (border, x) in self.borders.iter().zip(flows()) {
            net[usize::from(border.from)] -= i64::from(x);
            net[usize::from(border.to)] += i64::from(x);
        }
        ask(13, net.iter().zip(satisfied()).map(|(&net, x)| net == x.into()))?;

        let mut prices = [S::ZERO; MOST_AREAS];
        for (area, record) in price_table.chunks_exact(8 * S::LEVELS).enumerate() {
            prices[area] = S::read_price(record).ok_or(Refusal::new(14, area))?;
        }
        ask(
            15,
            self.demands.iter().zip(satisfied()).zip(&prices).map(|((&demand, x), &price)| match demand {
                0 => true,
                1.. => fits(x < demand, x > 0, S::plus(S::SATISFIED, price), S::ZERO),
                _ => fits(x > demand, x < 0, S::SATISFIED, price),
            }),
        )?;
        ask(
            16,
            self.borders.iter().zip(flows()).map(|(border, x)| {
                let below = i64::from(x) < border.forward.into();
                let above = i64::from(x) > -i64::from(border.backward);
                fits(below, above, prices[usize::from(border.from)], prices[usize::from(border.to)])
            }),
        )?;
        ask(
            17,
            self.bids.iter().zip(activated()).map(|(bid, x)| {
                let price = prices[usize::from(bid.area)];
                let (below, above) = (x < bid.volume, x > 0);
                match bid.direction {
                    Direction::Up => fits(below, above, S::up(bid.price), price),
                    Direction::Down => fits(below, above, S::plus(S::down(bid.price), price), S::ZERO),
                }
            }),
        )?;

        self.satisfied.clear();
        self.satisfied.extend(satisfied());
        self.flows.clear();
        self.flows.extend(flows());
        self.activated.clear();
        self.activated.extend(activated());
        self.stands = true;
        Ok(())
    }
}

/// Below its upper limit an amount requires left ≥ right, above its lower limit left ≤ right.
fn fits<V: Ord>(below: bool, above: bool, left: V, right: V) -> bool {
    match left.cmp(&right) {
        Ordering::Less => !below,
        Ordering::Equal => true,
        Ordering::Greater => !above,
    }
}
