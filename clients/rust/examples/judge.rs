//! Judges two files, as `verify CASE PROPOSAL` does.
use std::{env, fs, process::ExitCode};

fn main() -> ExitCode {
    let paths: Vec<String> = env::args().skip(1).collect();
    let [case, proposal] = [0, 1].map(|i| fs::read(&paths[i]).expect("two files"));
    match foldureem::verify(&case, &proposal) {
        Ok(listing) => {
            print!("{}", listing.0);
            ExitCode::SUCCESS
        }
        Err(refusal) => {
            println!("{refusal}");
            ExitCode::FAILURE
        }
    }
}
