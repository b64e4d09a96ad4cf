//! The command line: `second` without a command tells what it can do.

use std::io::{Read, Write};
use std::process::ExitCode;

use second::coverage::Tally;
use second::model::{call_file, job};
use second::{generate, mistakes};

const HELP: &str = "\
second generate-job SEED > FILE.job
second generate-calls SEED COUNT > FILE.calls
second answer-job < FILE.job
second answer-calls < FILE.calls
second compare FILES..    the answers to FILE against FILE.expected; 1 if a line differs;
                          it stops at the tenth file that differs
second coverage FILES..   what .job and .calls files reach; 1 if something is never reached
second mistakes           the names of the deliberate mistakes
";

fn main() -> ExitCode {
    let arguments: Vec<String> = std::env::args().skip(1).collect();
    let words: Vec<&str> = arguments.iter().map(String::as_str).collect();
    match words.as_slice() {
        ["generate-job", seed] => print(&generate::jobs::job(number(seed))),
        ["generate-calls", seed, count] => {
            print(&generate::calls::calls(number(seed), number(count)))
        }
        ["answer-job"] => print(job::answer(&standard_input()).as_bytes()),
        ["answer-calls"] => print(call_file::answer(&standard_input()).as_bytes()),
        ["compare", files @ ..] => compare(files),
        ["coverage", files @ ..] => coverage(files),
        ["mistakes"] => print((mistakes::names().join("\n") + "\n").as_bytes()),
        _ => {
            eprint!("{HELP}");
            ExitCode::from(2)
        }
    }
}

/// A seed or a count: decimal, or hexadecimal after 0x.
fn number(word: &str) -> u64 {
    let parsed = match word.strip_prefix("0x") {
        Some(digits) => u64::from_str_radix(digits, 16),
        None => word.parse(),
    };
    parsed.unwrap_or_else(|error| panic!("{word}: {error}"))
}

fn print(bytes: &[u8]) -> ExitCode {
    std::io::stdout().write_all(bytes).expect("standard output takes the answer");
    ExitCode::SUCCESS
}

fn standard_input() -> Vec<u8> {
    let mut input = Vec::new();
    std::io::stdin().read_to_end(&mut input).expect("standard input can be read");
    input
}

fn contents(file: &str) -> Vec<u8> {
    std::fs::read(file).unwrap_or_else(|error| panic!("{file}: {error}"))
}

fn answer(file: &str) -> String {
    match file.ends_with(".job") {
        true => job::answer(&contents(file)),
        false => call_file::answer(&contents(file)),
    }
}

/// The number of the first line that differs, and how many do.
fn different_lines(got: &str, expected: &str) -> Option<(usize, usize)> {
    let (got, expected): (Vec<_>, Vec<_>) = (got.lines().collect(), expected.lines().collect());
    let lines = got.len().max(expected.len());
    let different: Vec<usize> = (0..lines).filter(|&i| got.get(i) != expected.get(i)).collect();
    different.first().map(|first| (first + 1, different.len()))
}

/// So many files that differ are enough to tell.
const ENOUGH: usize = 10;

fn compare(files: &[&str]) -> ExitCode {
    let (mut different_files, mut all_lines, mut compared) = (0, 0, 0);
    for file in files {
        if different_files == ENOUGH {
            break;
        }
        compared += 1;
        let expected = String::from_utf8(contents(&format!("{file}.expected"))).expect("text");
        if let Some((line, count)) = different_lines(&answer(file), &expected) {
            if different_files == 0 {
                println!("first {file} line {line}");
            }
            different_files += 1;
            all_lines += count;
        }
    }
    println!("{all_lines} lines in {different_files} of {compared} files");
    ExitCode::from(u8::from(different_files > 0))
}

fn coverage(files: &[&str]) -> ExitCode {
    let mut tally = Tally::default();
    for file in files {
        match file.ends_with(".job") {
            true => tally.note_job(&contents(file)),
            false => tally.note_calls(&contents(file)),
        }
    }
    print!("{}", tally.table());
    ExitCode::from(u8::from(!tally.missing().is_empty()))
}
