//! A plain checker of activation and netting proposals: the rules of docs/RULES.md with nothing proved.
//!
//! It exists to be measured against and compared with. It is written as one would write it for use: one pass over a
//! table for each question, 64-bit arithmetic, and no memory allocated once a [`Checker`] is made.

#![forbid(unsafe_code)]

mod bytes;
mod checker;
mod generate;
mod listing;
mod scale;

pub use checker::{Bid, Border, Checker, Direction};
pub use generate::{generate, Size};
pub use scale::{Activation, Netting, Scale};

use std::fmt;

/// The question that got a no, its layer, and the place where it did.
#[derive(Clone, Copy, PartialEq, Eq, Debug)]
pub struct Refusal {
    pub number: u8,
    pub layer: u8,
    pub place: usize,
}

impl Refusal {
    pub(crate) fn new(number: u8, place: usize) -> Self {
        let layer = match number {
            1..=4 => 1,
            5..=9 => 2,
            10..=13 => 3,
            14..=17 => 4,
            _ => 5,
        };
        Refusal { number, layer, place }
    }
}

impl fmt::Display for Refusal {
    fn fmt(&self, f: &mut fmt::Formatter<'_>) -> fmt::Result {
        write!(f, "refused {} {} {}", self.number, self.layer, self.place)
    }
}

/// Whether a proposal asks for the netting scale: its header word 7 is there and is 1.
pub fn asks_for_netting(proposal: &[u8]) -> bool {
    proposal.get(28..32) == Some(&[1, 0, 0, 0])
}

/// The listing of a proposal that is taken, or why it is refused.
pub fn verify(case: &[u8], proposal: &[u8]) -> Result<String, Refusal> {
    fn on<S: Scale>(case: &[u8], proposal: &[u8]) -> Result<String, Refusal> {
        let mut checker = Checker::<S>::new();
        checker.load(case)?;
        checker.submit(proposal)?;
        checker.listing()
    }
    if asks_for_netting(proposal) {
        on::<Netting>(case, proposal)
    } else {
        on::<Activation>(case, proposal)
    }
}

/// Loading and submitting alone: whether the proposal is taken.
pub fn check(case: &[u8], proposal: &[u8]) -> Result<(), Refusal> {
    fn on<S: Scale>(case: &[u8], proposal: &[u8]) -> Result<(), Refusal> {
        let mut checker = Checker::<S>::new();
        checker.load(case)?;
        checker.submit(proposal)
    }
    if asks_for_netting(proposal) {
        on::<Netting>(case, proposal)
    } else {
        on::<Activation>(case, proposal)
    }
}

#[cfg(test)]
mod tests {
    use super::*;

    const CASE: &[u8] = include_bytes!("../../../examples/two-areas/case");
    const PROPOSAL: &[u8] = include_bytes!("../../../examples/two-areas/proposal");
    const LISTING: &str = include_str!("../../../examples/two-areas/listing");

    #[test]
    fn example_is_taken() {
        assert_eq!(verify(CASE, PROPOSAL).as_deref(), Ok(LISTING));
        assert_eq!(check(CASE, PROPOSAL), Ok(()));
    }

    #[test]
    fn refused_calls_change_nothing() {
        let mut checker = Checker::<Activation>::new();
        assert_eq!(checker.listing(), Err(Refusal::new(19, 0)));
        checker.load(CASE).unwrap();
        checker.submit(PROPOSAL).unwrap();
        assert_eq!(checker.load(&CASE[..71]), Err(Refusal::new(4, 7)));
        assert_eq!(checker.submit(&PROPOSAL[..35]), Err(Refusal::new(1, 35)));
        assert_eq!(checker.listing().as_deref(), Ok(LISTING));
    }

    #[test]
    fn loading_ends_what_stands() {
        let mut checker = Checker::<Activation>::new();
        checker.load(CASE).unwrap();
        checker.submit(PROPOSAL).unwrap();
        checker.load(CASE).unwrap();
        assert_eq!(checker.listing(), Err(Refusal::new(19, 0)));
    }

    #[test]
    fn generated_proposals_are_taken() {
        for seed in 0..200 {
            for size in [
                Size::FULL,
                Size::FULL.fraction(1, 4),
                Size { areas: 1, borders: 0, bids: 9 },
                Size { areas: 2, borders: 3, bids: 5 },
            ] {
                let (case, proposal) = generate(seed, size);
                assert_eq!(check(&case, &proposal), Ok(()), "seed {seed}, {size:?}");
            }
        }
    }

    #[test]
    fn sizes_without_borders_or_areas() {
        for size in [Size { areas: 0, borders: 5, bids: 5 }, Size { areas: 1, borders: 5, bids: 0 }] {
            let (case, proposal) = generate(3, size);
            assert_eq!(check(&case, &proposal), Ok(()));
        }
    }
}
