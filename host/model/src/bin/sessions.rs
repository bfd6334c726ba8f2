//! Prints random sessions with the model's transcript.
//!
//! `sessions SEED COUNT LINES`: COUNT sessions of LINES lines, from SEED on.
//! A session is `seed N`, then each line after `> ` and its answer after `< `.

use std::process::ExitCode;

use model::sessions::Session;

fn main() -> ExitCode {
    let numbers: Option<Vec<u64>> = std::env::args().skip(1).map(|a| a.parse().ok()).collect();
    let Some(&[seed, count, lines]) = numbers.as_deref() else {
        eprintln!("usage: sessions SEED COUNT LINES");
        return ExitCode::FAILURE;
    };
    for seed in seed..seed + count {
        let session = Session::new(seed, lines as usize);
        println!("seed {seed}");
        for served in session.lines {
            println!("> {}\n< {}", served.line, served.answer);
        }
    }
    ExitCode::SUCCESS
}
