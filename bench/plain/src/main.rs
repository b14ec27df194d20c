//! The commands `read` and `violation` as a plain Rust program with `csv` and `indexmap` answers them, to compare the time.
//!
//!     plain read ELECTION
//!     plain violation ELECTION CERTIFICATE OUTCOME
//!
//! It takes files without faults: at the first fault it stops, and says no more than that there is one. Certificates
//! measure by counting.
mod election;
mod records;
mod violation;

use election::Election;
use std::error::Error;

fn main() -> Result<(), Box<dyn Error>> {
    let words: Vec<String> = std::env::args().skip(1).collect();
    let words: Vec<&str> = words.iter().map(String::as_str).collect();
    match words[..] {
        ["read", election] => {
            let election = Election::read(&std::fs::read(election)?)?;
            let funded = election.funded.iter().filter(|funded| **funded).count();
            println!("read {} voters {} projects {funded} funded", election.ballots.len(), election.costs.len());
        }
        ["violation", election, certificate, outcome] => {
            let mut election = Election::read(&std::fs::read(election)?)?;
            violation::read_outcome(&mut election, &std::fs::read(outcome)?)?;
            let violation = violation::Violation::read(&election, &std::fs::read(certificate)?)?;
            println!("{}", if violation.holds(&election) { "violation" } else { "no violation" });
        }
        _ => return Err("usage: plain read ELECTION | plain violation ELECTION CERTIFICATE OUTCOME".into()),
    }
    Ok(())
}
