//! The listing of the selection that stands.

use crate::checker::{Checker, Direction, MOST_AREAS};
use crate::{Refusal, Scale};
use std::fmt::{self, Write};

impl<S: Scale> Checker<S> {
    /// Question 19; then the listing.
    pub fn listing(&self) -> Result<String, Refusal> {
        if !self.stands {
            return Err(Refusal::new(19, 0));
        }
        let mut text = String::new();
        self.write_listing(&mut text).expect("text has room");
        Ok(text)
    }

    fn write_listing(&self, out: &mut impl Write) -> fmt::Result {
        let mut up = [0i64; MOST_AREAS];
        let mut down = [0i64; MOST_AREAS];
        let (mut all_activated, mut cost) = (0i64, 0i64);
        for (bid, &x) in self.bids.iter().zip(&self.activated) {
            let (x, area) = (i64::from(x), usize::from(bid.area));
            all_activated += x;
            match bid.direction {
                Direction::Up => {
                    up[area] += x;
                    cost += x * i64::from(bid.price);
                }
                Direction::Down => {
                    down[area] += x;
                    cost -= x * i64::from(bid.price);
                }
            }
        }

        writeln!(out, "area demand satisfied unsatisfied up down export")?;
        let mut all_satisfied = 0;
        for (area, (&demand, &satisfied)) in self.demands.iter().zip(&self.satisfied).enumerate() {
            let (demand, satisfied) = (i64::from(demand), i64::from(satisfied));
            let (up, down) = (up[area], down[area]);
            all_satisfied += satisfied.abs();
            let (open, export) = (demand - satisfied, up - down - satisfied);
            writeln!(out, "{area} {demand} {satisfied} {open} {up} {down} {export}")?;
        }
        for (border, flow) in self.flows.iter().enumerate() {
            writeln!(out, "flow {border} {flow}")?;
        }
        for (bid, activated) in self.activated.iter().enumerate() {
            writeln!(out, "bid {bid} {activated}")?;
        }
        let netted = (all_satisfied - all_activated) / 2;
        writeln!(out, "total {all_satisfied} {all_activated} {netted} {cost}")
    }
}
