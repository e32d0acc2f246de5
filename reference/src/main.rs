//! Command line: `reference COMMAND`; NOTES.md lists the commands.

mod commands;
#[path = "../tests/common/mod.rs"]
mod common;
mod comparison;
mod desk_case_texts;
mod desk_case_words;
mod desk_compared;
mod examples;
mod reports_compared;
mod test_largest;
mod test_surveys;
mod test_surveys_input;
mod test_tables;
mod test_tables_input;

use std::ffi::OsString;
use std::io::{self, Read, Write};
use std::os::unix::ffi::OsStrExt;
use std::process::ExitCode;

const USAGE: &str = "usage: reference examples | reports | test-surveys-input | test-surveys | test-tables-input | test-tables | test-largest-input | test-largest | desk [WORDS ..] | compare-reports PROGRAM COUNT SEED | compare-desk PROGRAM COUNT SEED";

fn main() -> ExitCode {
    let arguments: Vec<OsString> = std::env::args_os().skip(1).collect();
    let outcome = match arguments.split_first() {
        // Its words may be any bytes.
        Some((command, words)) if command == "desk" => print_desk(words),
        _ => run_command(&arguments),
    };
    match outcome {
        Ok(()) => ExitCode::SUCCESS,
        Err(message) => {
            eprintln!("{message}");
            ExitCode::FAILURE
        }
    }
}

fn run_command(arguments: &[OsString]) -> Result<(), String> {
    let words: Option<Vec<&str>> = arguments.iter().map(|word| word.to_str()).collect();
    match words.unwrap_or_default()[..] {
        ["examples"] => print_examples(),
        ["reports"] => print_reports(),
        ["test-surveys-input"] => print_bytes(&test_surveys_input::make()),
        ["test-surveys"] => print_answers(test_surveys::run),
        ["test-tables-input"] => print_bytes(&test_tables_input::make()),
        ["test-tables"] => print_answers(test_tables::run),
        ["test-largest-input"] => print_bytes(test_largest::make().as_bytes()),
        ["test-largest"] => print_answers(test_largest::run),
        ["compare-reports", program, count, seed] => {
            compare(reports_compared::run, program, count, seed)
        }
        ["compare-desk", program, count, seed] => compare(desk_compared::run, program, count, seed),
        _ => Err(String::from(USAGE)),
    }
}

fn print_examples() -> Result<(), String> {
    let lines = examples::all().map_err(|refusal| format!("refused {refusal}"))?;
    print_bytes(lines.as_bytes())
}

fn print_reports() -> Result<(), String> {
    print_bytes(&reference::reports(&standard_input()?))
}

fn print_answers(run: fn(&[u8]) -> String) -> Result<(), String> {
    print_bytes(run(&standard_input()?).as_bytes())
}

fn print_desk(words: &[OsString]) -> Result<(), String> {
    let words: Vec<&[u8]> = words.iter().map(|word| word.as_bytes()).collect();
    // Where it cannot be read, it counts as empty.
    let text = standard_input().unwrap_or_default();
    print_bytes(&reference::desk(&words, &text))
}

fn compare(
    run: fn(&str, usize, u64) -> Result<(), String>,
    program: &str,
    count: &str,
    seed: &str,
) -> Result<(), String> {
    let count = count.parse().map_err(|_| format!("no count: {count}"))?;
    let seed = seed.parse().map_err(|_| format!("no seed: {seed}"))?;
    run(program, count, seed)
}

fn standard_input() -> Result<Vec<u8>, String> {
    let mut bytes = Vec::new();
    io::stdin()
        .read_to_end(&mut bytes)
        .map_err(|error| error.to_string())?;
    Ok(bytes)
}

fn print_bytes(bytes: &[u8]) -> Result<(), String> {
    let mut output = io::stdout().lock();
    output
        .write_all(bytes)
        .and_then(|()| output.flush())
        .map_err(|error| error.to_string())
}
