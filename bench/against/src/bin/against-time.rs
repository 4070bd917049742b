//! Loading and submitting: the library against the plain checker, on the same files, turn by turn in one run.

use plain::{generate, Activation, Checker, Size};
use std::ffi::c_void;
use std::hint::black_box;
use std::sync::atomic::{AtomicUsize, Ordering};
use std::time::{Duration, Instant};

/// Different cases at each size, and how often all of them are judged.
const CASES: usize = 128;
const ROUNDS: usize = 300;

static MALLOCS: AtomicUsize = AtomicUsize::new(0);

extern "C" {
    fn __real_malloc(size: usize) -> *mut c_void;
}

/// Every malloc of the program comes here, the library's too.
#[no_mangle]
extern "C" fn __wrap_malloc(size: usize) -> *mut c_void {
    MALLOCS.fetch_add(1, Ordering::Relaxed);
    // SAFETY: the C library's own function.
    unsafe { __real_malloc(size) }
}

/// Pairs of a case and a proposal, one file behind the other, and where each file ends.
struct Pairs {
    files: Vec<u8>,
    ends: Vec<usize>,
}

impl Pairs {
    fn of(size: Size) -> Self {
        let mut pairs = Pairs { files: Vec::new(), ends: Vec::new() };
        for seed in 0..CASES as u64 {
            let (case, proposal) = generate(1_000 + seed, size);
            for file in [case, proposal] {
                pairs.files.extend(file);
                pairs.ends.push(pairs.files.len());
            }
        }
        pairs
    }

    fn iter(&self) -> impl Iterator<Item = (&[u8], &[u8])> {
        let starts = std::iter::once(0).chain(self.ends.iter().skip(1).step_by(2).copied());
        starts.zip(self.ends.chunks_exact(2)).map(|(start, ends)| (&self.files[start..ends[0]], &self.files[ends[0]..ends[1]]))
    }
}

/// µs for one case: the median over the rounds, and the least.
fn middle_and_least(mut rounds: Vec<Duration>) -> [f64; 2] {
    rounds.sort_unstable();
    [rounds[rounds.len() / 2], rounds[0]].map(|round| round.as_secs_f64() * 1e6 / CASES as f64)
}

fn timed(work: impl FnOnce() -> usize) -> Duration {
    let start = Instant::now();
    let taken = work();
    let spent = start.elapsed();
    assert_eq!(taken, CASES, "every proposal is taken");
    spent
}

fn mallocs(ends: &[usize], files: &[u8]) -> usize {
    let before = MALLOCS.load(Ordering::Relaxed);
    black_box(foldureem::count(files, ends)).expect("memory");
    MALLOCS.load(Ordering::Relaxed) - before
}

fn main() {
    println!("{CASES} cases at each size, {ROUNDS} rounds; µs for a case, the median round and the least");
    heading("load and submit");
    let mut checker = Checker::<Activation>::new();
    for (part, whole) in [(1, 8), (1, 4), (1, 2), (1, 1)] {
        let size = Size::FULL.fraction(part, whole);
        let pairs = Pairs::of(size);
        let (mut library, mut plain) = (Vec::new(), Vec::new());
        for _ in 0..ROUNDS {
            library.push(timed(|| foldureem::count(black_box(&pairs.files), black_box(&pairs.ends)).expect("memory")));
            plain.push(timed(|| {
                let mut takes = |case, proposal| checker.load(black_box(case)).and_then(|()| checker.submit(black_box(proposal))).is_ok();
                pairs.iter().filter(|&(case, proposal)| takes(case, proposal)).count()
            }));
        }
        row(size, middle_and_least(library), middle_and_least(plain));
    }

    heading("one whole call: make a cycle, load, submit, and write the listing");
    let pairs = Pairs::of(Size::FULL);
    let mut out = vec![0; 65536];
    let (mut library, mut plain) = (Vec::new(), Vec::new());
    for _ in 0..ROUNDS {
        library.push(timed(|| pairs.iter().filter(|(case, proposal)| foldureem::verify_into(case, proposal, black_box(&mut out)).is_ok()).count()));
        plain.push(timed(|| pairs.iter().filter(|(case, proposal)| black_box(plain::verify(case, proposal)).is_ok()).count()));
    }
    row(Size::FULL, middle_and_least(library), middle_and_least(plain));

    println!();
    let counts = [0, 1, CASES].map(|count| (count, mallocs(&pairs.ends[..2 * count], &pairs.files)));
    for (count, calls) in counts {
        println!("malloc calls to load and submit {count} cases: {calls}");
    }
    assert!(counts.iter().all(|(_, calls)| *calls == counts[0].1), "loading and submitting allocate nothing");
}

fn heading(what: &str) {
    println!();
    println!("{what}");
    println!();
    println!("| areas | borders | bids | library | plain | ratio | library, least | plain, least | ratio |");
    println!("|---:|---:|---:|---:|---:|---:|---:|---:|---:|");
}

fn row(size: Size, library: [f64; 2], plain: [f64; 2]) {
    let figures = [0, 1].map(|i| format!("{:.2} | {:.2} | {:.2}", library[i], plain[i], library[i] / plain[i]));
    println!("| {} | {} | {} | {} | {} |", size.areas, size.borders, size.bids, figures[0], figures[1]);
}
