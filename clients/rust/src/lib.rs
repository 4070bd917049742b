//! Judges proposals: `verify(case, proposal)` gives the listing, or which question got a no and where.
use std::fmt;

/// No listing is longer.
const LISTING: usize = 65536;
const NO_MEMORY: u32 = u32::MAX;

/// The text of a proposal that is taken: nothing beats its selection.
#[derive(Clone, PartialEq, Eq, Debug)]
pub struct Listing(pub String);

/// Why a proposal is not taken.
#[derive(Clone, Copy, PartialEq, Eq, Debug)]
pub enum Refusal {
    /// A question got a no; docs/REFUSALS.md has their numbers, layers and places.
    Question { number: u32, layer: u32, place: u64 },
    /// It was not judged.
    NoMemory,
}

impl fmt::Display for Refusal {
    fn fmt(&self, f: &mut fmt::Formatter) -> fmt::Result {
        match self {
            Refusal::Question { number, layer, place } => write!(f, "refused {number} {layer} {place}"),
            Refusal::NoMemory => write!(f, "no memory"),
        }
    }
}

impl std::error::Error for Refusal {}

/// What the library tells. The fields and their order are those of foldureem.h.
#[repr(C)]
#[derive(Default)]
struct Verdict {
    number: u32,
    layer: u32,
    place: u64,
    length: u64,
}

extern "C" {
    fn foldureem_verify(
        case: *const u8,
        case_length: usize,
        proposal: *const u8,
        proposal_length: usize,
        out: *mut u8,
        out_length: usize,
        verdict: *mut Verdict,
    );
    fn foldureem_count(files: *const u8, files_length: usize, ends: *const usize, ends_length: usize) -> usize;
}

/// Loads the case, submits the proposal to it and releases the listing.
pub fn verify(case: &[u8], proposal: &[u8]) -> Result<Listing, Refusal> {
    let mut out = vec![0; LISTING];
    let length = verify_into(case, proposal, &mut out)?;
    out.truncate(length);
    Ok(Listing(String::from_utf8(out).expect("a listing is plain ASCII")))
}

/// The same into a buffer of the caller's; gives how many bytes were written. Where it is too short, question 20 gets a
/// no, its place is the bytes needed, and the buffer keeps its bytes.
pub fn verify_into(case: &[u8], proposal: &[u8], out: &mut [u8]) -> Result<usize, Refusal> {
    let mut verdict = Verdict::default();
    // SAFETY: each pointer comes from a slice with its length, and the borrows keep `out` and `verdict` apart from the rest.
    unsafe {
        foldureem_verify(
            case.as_ptr(),
            case.len(),
            proposal.as_ptr(),
            proposal.len(),
            out.as_mut_ptr(),
            out.len(),
            &mut verdict,
        );
    }
    match verdict {
        Verdict { number: 0, length, .. } => Ok(length as usize),
        Verdict { number: NO_MEMORY, .. } => Err(Refusal::NoMemory),
        Verdict { number, layer, place, .. } => Err(Refusal::Question { number, layer, place }),
    }
}

/// How many of many proposals are taken: a case, its proposal, the next case and so on, one behind the other in `files`;
/// `ends` says where each ends.
pub fn count(files: &[u8], ends: &[usize]) -> Result<usize, Refusal> {
    // SAFETY: each pointer comes from a slice with its length.
    match unsafe { foldureem_count(files.as_ptr(), files.len(), ends.as_ptr(), ends.len()) } {
        usize::MAX => Err(Refusal::NoMemory),
        taken => Ok(taken),
    }
}
