//! The command line of the second program.

use second::{report, samples};
use std::fs;
use std::io::{self, Read, Write};
use std::process::exit;

const USAGE: &str = "usage: second desk | samples FOLDER";

fn run(arguments: &[&str]) -> io::Result<i32> {
    match arguments {
        ["desk"] => {
            let mut bytes = Vec::new();
            io::stdin().take(report::DESK_INPUT_MAX as u64).read_to_end(&mut bytes)?;
            io::stdout().write_all(&report::desk(&bytes))?;
        }
        ["samples", folder] => {
            for sample in samples::all() {
                fs::write(format!("{}/{}.bin", folder, sample.name), &sample.container)?;
                fs::write(format!("{}/{}.txt", folder, sample.name), sample.report())?;
            }
        }
        _ => {
            eprintln!("{}", USAGE);
            return Ok(2);
        }
    }
    Ok(0)
}

fn main() {
    let arguments: Vec<String> = std::env::args().skip(1).collect();
    let arguments: Vec<&str> = arguments.iter().map(String::as_str).collect();
    match run(&arguments) {
        Ok(code) => exit(code),
        Err(error) => {
            eprintln!("second: {}", error);
            exit(2);
        }
    }
}
