//! The same files through the library and through the plain checker: whole ones and damaged ones, long and short. All answers are to be
//! equal: the listing, or number, layer and place.

use foldureem::Refusal;
use plain::{generate, Size};

const FILES: usize = 120_000;
const SHOWN: usize = 10;

/// Numbers from a seed (splitmix64).
struct Draw(u64);

impl Draw {
    fn next(&mut self) -> u64 {
        self.0 = self.0.wrapping_add(0x9e37_79b9_7f4a_7c15);
        let mut z = self.0;
        z = (z ^ (z >> 30)).wrapping_mul(0xbf58_476d_1ce4_e5b9);
        z = (z ^ (z >> 27)).wrapping_mul(0x94d0_49bb_1331_11eb);
        z ^ (z >> 31)
    }

    fn below(&mut self, count: usize) -> usize {
        (self.next() % count as u64) as usize
    }
}

/// Sizes from nothing to the largest, small ones more often.
fn size(draw: &mut Draw) -> Size {
    match draw.below(20) {
        0 => Size::FULL,
        1 => Size { areas: draw.below(49), borders: draw.below(129), bids: draw.below(1025) },
        2..=6 => Size { areas: draw.below(12), borders: draw.below(20), bids: draw.below(60) },
        _ => Size { areas: draw.below(5), borders: draw.below(5), bids: draw.below(8) },
    }
}

/// Changes that leave a file as long as it is, and changes of its length.
fn damage(draw: &mut Draw, file: &mut Vec<u8>) {
    match draw.below(10) {
        0 => file.truncate(draw.below(file.len() + 1)),
        1 => {
            let more = draw.below(40) + 1;
            file.extend((0..more).map(|_| draw.next() as u8));
        }
        2 => file.clear(),
        3 | 4 => word(draw, file, 9),
        5 | 6 => word(draw, file, usize::MAX),
        7 => nudge(draw, file),
        _ => {
            if !file.is_empty() {
                let at = draw.below(file.len());
                file[at] ^= 1 << draw.below(8);
            }
        }
    }
}

/// One of the first so many words becomes a number that lies near an end of some range.
fn word(draw: &mut Draw, file: &mut [u8], most: usize) {
    const NUMBERS: [u32; 12] = [0, 1, 2, 3, 28, 36, 48, 49, 20_000_000, 20_000_001, 9_999_001, u32::MAX];
    let words = (file.len() / 4).min(most);
    if words > 0 {
        let at = 4 * draw.below(words);
        let number = NUMBERS[draw.below(NUMBERS.len())];
        file[at..at + 4].copy_from_slice(&number.to_le_bytes());
    }
}

/// A word becomes one more or one less.
fn nudge(draw: &mut Draw, file: &mut [u8]) {
    let words = file.len() / 4;
    if words > 0 {
        let at = 4 * draw.below(words);
        let old = u32::from_le_bytes([file[at], file[at + 1], file[at + 2], file[at + 3]]);
        let new = if draw.below(2) == 0 { old.wrapping_add(1) } else { old.wrapping_sub(1) };
        file[at..at + 4].copy_from_slice(&new.to_le_bytes());
    }
}

/// The netting part of a pair, where it still is one: no bids, and the first level of each price.
fn netting(case: &mut Vec<u8>, proposal: &mut Vec<u8>) {
    let word = |file: &[u8], k: usize| u32::from_le_bytes(file[4 * k..4 * k + 4].try_into().expect("four bytes")) as usize;
    let set = |file: &mut [u8], k: usize, n: usize| file[4 * k..4 * k + 4].copy_from_slice(&(n as u32).to_le_bytes());
    let (areas, bids) = (word(case, 1), word(case, 5));
    case.truncate(case.len() - 12 * bids);
    set(case, 5, 0);
    let (activated, prices) = (word(proposal, 6), word(proposal, 8));
    let firsts: Vec<u8> = (0..areas).flat_map(|area| proposal[prices + 24 * area..prices + 24 * area + 8].to_vec()).collect();
    proposal.truncate(activated);
    proposal.extend(firsts);
    set(proposal, 5, 0);
    set(proposal, 7, 1);
    set(proposal, 8, activated);
}

fn main() {
    let mut draw = Draw(7);
    let (mut taken, mut refused, mut differ) = (0, [0usize; 21], 0);
    for seed in 0..FILES as u64 {
        let size = size(&mut draw);
        let (mut case, mut proposal) = generate(seed, size);
        if draw.below(6) == 0 {
            netting(&mut case, &mut proposal);
        }
        // a third stays whole
        for _ in 0..draw.below(3) {
            let file = if draw.below(3) == 0 { &mut case } else { &mut proposal };
            damage(&mut draw, file);
        }
        let library = foldureem::verify(&case, &proposal).map(|listing| listing.0);
        let plain = plain::verify(&case, &proposal).map_err(|r| Refusal::Question {
            number: r.number.into(),
            layer: r.layer.into(),
            place: r.place as u64,
        });
        if library != plain {
            differ += 1;
            if differ <= SHOWN {
                println!("seed {seed}: library {library:?}, plain {plain:?}");
            }
        }
        match plain {
            Ok(_) => taken += 1,
            Err(Refusal::Question { number, .. }) => refused[number as usize] += 1,
            Err(Refusal::NoMemory) => {}
        }
    }
    println!("{FILES} pairs of files: {taken} taken; refused by question:");
    for (number, count) in refused.iter().enumerate().filter(|(_, count)| **count > 0) {
        println!("  {number}: {count}");
    }
    println!("{differ} answers differ");
    std::process::exit(i32::from(differ > 0));
}
