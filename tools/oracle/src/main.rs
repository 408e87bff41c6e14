//! The program `oracle`: reads a request from each line of standard input, runs a copy of clean.rs on it, and writes one
//! answer line.

mod answer;
mod knapsack;
mod request;
mod run;
mod tables;

use std::io::{stdin, stdout, BufRead, Write};

use request::Request;

fn main() -> std::io::Result<()> {
    let mut out = stdout().lock();
    for line in stdin().lock().lines() {
        writeln!(out, "{}", answer_to(&line?))?;
        out.flush()?; // whoever drives the oracle may wait for this answer before asking again
    }
    Ok(())
}

/// The answer line to a request line.
fn answer_to(line: &str) -> String {
    match Request::parse(line) {
        Ok(request) => run::run(&request).to_string(),
        Err(fault) => format!("error {fault}"),
    }
}
