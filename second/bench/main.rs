//! `bench`: times of the archive, of the reference program, of plain C and of OpenSSL, side by side in one run, as
//! ratios. `bench count`: the same in instructions, by callgrind, which runs `bench marked`. `bench floor RECORDS`:
//! many projectors in one process.
//!
//! docs/PERFORMANCE.md says how to run it and what was seen.

#[cfg(board = "linked")]
mod day;
#[cfg(board = "linked")]
mod floor;
#[cfg(board = "linked")]
mod measure;
#[cfg(board = "linked")]
mod recording;
#[cfg(board = "linked")]
mod work;

#[cfg(board = "linked")]
fn main() -> std::process::ExitCode {
    measure::main()
}

#[cfg(not(board = "linked"))]
fn main() -> std::process::ExitCode {
    eprintln!("libboard.a is not linked into this program, so nothing can be timed: docs/PERFORMANCE.md says how");
    std::process::ExitCode::from(2)
}
