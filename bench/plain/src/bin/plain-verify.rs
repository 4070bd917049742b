//! The plain checker as a program, called as `verify` is.

use std::io::Write;
use std::process::ExitCode;

const USAGE: &str = "usage: plain-verify [CASE PROPOSAL]

Reads the files `case` and `proposal`, or the two given, and prints the listing, or `refused NUMBER LAYER PLACE`.
The status is 0 only when the proposal is taken: 1 when it is refused, 2 when it could not be judged.
";

fn main() -> ExitCode {
    let arguments: Vec<String> = std::env::args_os().skip(1).map(|a| a.to_string_lossy().into_owned()).collect();
    let words: Vec<&str> = arguments.iter().map(String::as_str).collect();
    match words[..] {
        ["--help"] => print(USAGE, ExitCode::SUCCESS),
        ["--version"] => print(concat!("plain-verify ", env!("CARGO_PKG_VERSION"), "\n"), ExitCode::SUCCESS),
        [] => judge("case", "proposal"),
        [case, proposal] if !case.starts_with("--") && !proposal.starts_with("--") => judge(case, proposal),
        _ => trouble(USAGE),
    }
}

fn judge(case: &str, proposal: &str) -> ExitCode {
    let read = |path: &str| std::fs::read(path).map_err(|error| format!("plain-verify: {path}: {error}\n"));
    let files = read(case).and_then(|case| Ok((case, read(proposal)?)));
    match files {
        Err(message) => trouble(&message),
        Ok((case, proposal)) => match plain::verify(&case, &proposal) {
            Ok(listing) => print(&listing, ExitCode::SUCCESS),
            Err(refusal) => print(&format!("{refusal}\n"), ExitCode::from(1)),
        },
    }
}

fn print(text: &str, status: ExitCode) -> ExitCode {
    let mut out = std::io::stdout().lock();
    match out.write_all(text.as_bytes()).and_then(|()| out.flush()) {
        Ok(()) => status,
        Err(error) => trouble(&format!("plain-verify: {error}\n")),
    }
}

fn trouble(message: &str) -> ExitCode {
    // where this cannot be written either, the status still tells
    let _ = std::io::stderr().write_all(message.as_bytes());
    ExitCode::from(2)
}
