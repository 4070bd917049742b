//! Writes a case and a proposal that is taken: `plain-generate SEED AREAS BORDERS BIDS CASE PROPOSAL`.

use plain::{generate, Size};
use std::process::ExitCode;

fn main() -> ExitCode {
    let arguments: Vec<String> = std::env::args().skip(1).collect();
    match run(&arguments) {
        Ok(()) => ExitCode::SUCCESS,
        Err(message) => {
            eprintln!("plain-generate: {message}");
            ExitCode::FAILURE
        }
    }
}

fn run(arguments: &[String]) -> Result<(), String> {
    let [seed, areas, borders, bids, case_path, proposal_path] = arguments else {
        return Err("usage: plain-generate SEED AREAS BORDERS BIDS CASE PROPOSAL".into());
    };
    let count = |text: &str, most: usize| match text.parse::<usize>() {
        Ok(count) if count <= most => Ok(count),
        _ => Err(format!("{text} is not a number from 0 to {most}")),
    };
    let seed: u64 = seed.parse().map_err(|_| format!("{seed} is not a seed"))?;
    let full = Size::FULL;
    let size = Size {
        areas: count(areas, full.areas)?,
        borders: count(borders, full.borders)?,
        bids: count(bids, full.bids)?,
    };
    let (case, proposal) = generate(seed, size);
    for (path, bytes) in [(case_path, case), (proposal_path, proposal)] {
        std::fs::write(path, bytes).map_err(|error| format!("{path}: {error}"))?;
    }
    Ok(())
}
