//! bench CALLS TEMPLATE PAGE: times both, writes the call files into the folder
//! CALLS and the page from its template, and prints the table.

mod agree;
mod library;
mod measure;
mod report;
mod rust;
mod scenario;

use std::{env, fs, process::ExitCode};

use scenario::{Operation, Scenario, SIZES};

fn run(calls: &str, template: &str, page: &str) -> Result<(), String> {
    let told = |error: std::io::Error| error.to_string();
    let template = fs::read_to_string(template).map_err(told)?;
    fs::create_dir_all(calls).map_err(told)?;
    let clock = measure::clock();
    let mut measured = Vec::new();
    for operation in Operation::ALL {
        for packets in SIZES {
            let scenario = Scenario::new(operation, packets);
            let file = scenario.file();
            fs::write(format!("{calls}/{file}"), scenario.script()).map_err(told)?;
            let one =
                measure::measure(&scenario, clock).map_err(|error| format!("{file}: {error}"))?;
            eprintln!("{file}: {} repetitions", one.repetitions);
            measured.push(one);
        }
    }
    fs::write(page, report::page(&template, &measured, clock.as_nanos())).map_err(told)?;
    println!(
        "nanoseconds per packet, each call at its best; a ratio below 1: the library is faster"
    );
    println!("{}", report::best(&measured));
    Ok(())
}

fn main() -> ExitCode {
    let words: Vec<String> = env::args().skip(1).collect();
    let (calls, template, page) = match &words[..] {
        [calls, template, page] => (calls, template, page),
        _ => {
            eprintln!("bench: CALLS TEMPLATE PAGE");
            return ExitCode::from(2);
        }
    };
    match run(calls, template, page) {
        Ok(()) => ExitCode::SUCCESS,
        Err(error) => {
            eprintln!("bench: {error}");
            ExitCode::FAILURE
        }
    }
}
